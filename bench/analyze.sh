#!/bin/sh
# Times reports of all pairs of the POSIX model and of a model of 60 calls, and prints what one round takes.
# Usage: bench/analyze.sh
set -eu
top=$(cd "$(dirname "$0")/.." && pwd)
cd "$top/crates/bench_analyze"
rt run -- 20000 1 <stdin >/dev/null
work=$(mktemp -d)
trap 'rm -rf "$work"' EXIT
"$top/commuter" posix >"$work/posix"

# 60 calls over three maps: each writes two keys of one map.
awk 'BEGIN {
    print "sort K;\nsort V;"
    for (m = 0; m < 3; m++) printf "state m%d: map K -> V;\n", m
    for (i = 0; i < 60; i++)
        printf "call p%d(k: K, l: K, v: V) -> bool { m%d[k] = v; m%d[l] = v; return true; }\n", i, i % 3, i % 3
}' >"$work/load"

# The least time of five runs of so many rounds.
seconds() {
    least=
    for _ in 1 2 3 4 5; do
        start=$(date +%s%N)
        out/bench_analyze 20000 "$2" <"$work/$1" >/dev/null
        end=$(date +%s%N)
        time=$((end - start))
        if [ -z "$least" ] || [ "$time" -lt "$least" ]; then least=$time; fi
    done
    echo "$least"
}

# A round is the time of some less that of none, so that reading the model does not count; a run has one round and it.
rate() {
    done=$(out/bench_analyze 20000 1 <"$work/$1")
    none=$(seconds "$1" 0)
    once=$(seconds "$1" 1)
    whole=$(seconds "$1" "$2")
    echo "$done" | awk -v name="$1" -v none="$none" -v once="$once" -v whole="$whole" -v rounds="$2" '{
        t = (whole - none) / rounds
        printf "%-6s %s\n", name, $0
        printf "%-6s %.4f s a round, %.0f ns a path; %.4f s from start to end\n", name, t / 1e9, t / $6, once / 1e9
    }'
}

rate posix 5
rate load 5
