#!/bin/sh
# Times contexts from outside, and prints how much of each work is done in a second, and what one takes.
# Usage: bench/ctx.sh
set -eu
cd "$(dirname "$0")/../crates/bench_ctx"
rt run -- outcomes 1 >/dev/null

# The least time of five runs.
seconds() {
    least=
    for _ in 1 2 3 4 5; do
        start=$(date +%s%N)
        out/bench_ctx "$@" >/dev/null
        end=$(date +%s%N)
        time=$((end - start))
        if [ -z "$least" ] || [ "$time" -lt "$least" ]; then least=$time; fi
    done
    echo "$least"
}

# The time of many rounds less that of none, so that making the context does not count.
rate() {
    none=$(seconds "$1" 0)
    whole=$(seconds "$1" "$2")
    echo "$1 $2 $none $whole" |
        awk '{ t = $4 - $3; if (t < 1) t = 1; printf "%-10s %12.0f a second, %7.1f ns each\n", $1, $2 / t * 1e9, t / $2 }'
}

# An outcome is timed with the test that its question can be asked; an addition with both, and with a 35th of a copy.
rate copies 7000000
rate outcomes 70000000
rate additions 7000000
