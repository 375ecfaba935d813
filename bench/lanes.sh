#!/bin/bash
# The time of count_within over 65,536 places, 10,000 times, and of a plain loop in its place.
cd "$(dirname "$0")/../crates/speed_trial" && rt run -- lanes 1 > /dev/null || exit 1
TIMEFORMAT='%U s'
for kind in lanes plain lanes plain lanes plain; do
    printf '%s: ' "$kind"
    time out/speed_trial "$kind" 10000 > /dev/null
done
