#!/bin/bash
# The time of a narrowing by sums: 1,000 sums of two items in a chain, from 0 to 10,000, which narrow 501,500
# times until all are quiet, and one sum of 10,000 items, which narrows 10,000 times. And the time of a call of
# a sum of 100,000 items after one bound more, by which nothing is forced.
set -eu
cd "$(dirname "$0")/../crates/sum_trial"
rt run -- chain 10 > /dev/null 2>&1 || exit 1

# least KIND COUNT: the least of three runs, in seconds of processor time
least() {
    for _ in 1 2 3; do
        TIMEFORMAT=%U
        { time out/sum_trial "$1" "$2" > /dev/null; } 2>&1
    done | sort -n | head -1
}

echo "chain: $(echo "$(least chain 1000) * 1000000000 / 501500" | bc) ns a narrowing"
echo "wide: $(echo "$(least wide 10000) * 1000000000 / 10000" | bc) ns a narrowing"
echo "idle: $(echo "$(least idle 100000) * 1000000000 / 100000" | bc) ns a call"
