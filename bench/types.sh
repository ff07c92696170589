#!/bin/sh
# Times the type checker beside the reader of trees, and prints both and their ratio.
# Usage: bench/types.sh
set -eu
cd "$(dirname "$0")/../crates/bench_types"
rt run -- check sorts 1 >/dev/null

# The least time of nine runs.
seconds() {
    least=
    for _ in 1 2 3 4 5 6 7 8 9; do
        start=$(date +%s%N)
        out/bench_types "$@" >/dev/null
        end=$(date +%s%N)
        time=$((end - start))
        if [ -z "$least" ] || [ "$time" -lt "$least" ]; then least=$time; fi
    done
    echo "$least"
}

# What reading and checking take each, without the making of the text.
ratio() {
    make=$(seconds make "$1" "$2")
    read=$(seconds read "$1" "$2")
    check=$(seconds check "$1" "$2")
    echo "$1 $2 $make $read $check" |
        awk '{ r = ($4 - $3) / 1e9; c = ($5 - $4) / 1e9; printf "%-6s %6d: read %.4f s, check %.4f s, ratio %.2f\n", $1, $2, r, c, c / r }'
}

ratio sorts 4096
ratio body 33000
