#!/bin/bash
# The time of reading 65,536 FILE words.
cd "$(dirname "$0")/../crates/speed_trial" && rt run -- lanes 1 > /dev/null || exit 1
TIMEFORMAT='%R s'
time out/speed_trial $(yes a | head -n 65536)
