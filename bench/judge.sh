#!/bin/sh
# bench/judge.sh [PROGRAM]      the judge on three traces of 150 MB, beside wc -l and grep -c w: the least of five runs
# bench/judge.sh gib [PROGRAM]  one run of each on a trace of 1 GiB, the longest that is judged
# PROGRAM is the built one where it isn't given. The traces stand in a folder of their own under TMPDIR until the end.
bench=$(dirname "$(readlink -f "$0")")
[ "$1" = gib ] && is_gib=yes && shift
program=$(readlink -f "${1:-$bench/../crates/commuter/out/commuter}")
if [ $# = 0 ]; then
    "$bench/../commuter" >/dev/null 2>&1
    [ $? = 70 ] && exit 70
fi
room=$(mktemp -d) || exit 1
trap 'rm -rf "$room"' EXIT
trap 'exit 1' INT TERM

# measure RUNS TITLE KIND SIZE..: makes a trace, measures and removes it.
measure() {
    runs=$1 title=$2
    shift 2
    python3 "$bench/make_trace.py" "$@" >"$room/trace" || exit 1
    echo "$title, $(wc -c <"$room/trace") bytes:"
    python3 "$bench/measure.py" "$runs" "$room/trace" "$program" || exit 1
}

if [ "$is_gib" ]; then
    measure 1 "a million random lines" random --bytes 1073741824
else
    measure 5 "7,000,000 entries on 512 hot lines" hot 7000000
    measure 5 "7,000,000 entries on a million random lines" random 7000000
    measure 5 "7,000,000 entries, a section for each 40" sections 7000000
fi
