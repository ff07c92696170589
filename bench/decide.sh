#!/bin/sh
# Times the decision procedure from outside, and prints how much of each work is done in a second.
# Usage: bench/decide.sh
set -eu
cd "$(dirname "$0")/../crates/bench_decide"
rt run -- order queries 2 1 >/dev/null

seconds() {
    start=$(date +%s%N)
    out/bench_decide "$@" >/dev/null
    end=$(date +%s%N)
    echo "$start $end" | awk '{ printf "%.6f", ($2 - $1) / 1e9 }'
}

# The time of many rounds less that of none, so that making the variables does not count.
rate() {
    none=$(seconds "$1" "$2" "$3" 0)
    whole=$(seconds "$1" "$2" "$3" "$4")
    echo "$1 $2 $3 $4 $none $whole" |
        awk '{ t = $6 - $5; if (t < 0.000001) t = 0.000001; printf "%-6s %-10s %4d variables %14.0f a second\n", $1, $2, $3, $4 / t }'
}

rate order additions 10 2000000
rate order additions 50 200000
rate order additions 337 10000
rate sorts additions 10 5000000
rate sorts additions 50 5000000
rate sorts additions 337 2000000
for variables in 10 50 337; do
    rate order queries $variables 50000000
    rate sorts queries $variables 50000000
done
rate order copies 10 5000000
rate order copies 50 1000000
rate order copies 337 20000
rate sorts copies 10 5000000
rate sorts copies 50 3000000
rate sorts copies 337 1000000
