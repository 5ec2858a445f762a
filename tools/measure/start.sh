#!/usr/bin/env bash
# Prints how long the built program takes from start to exit on the sample image: the mean of 100 runs, three times.
set -euo pipefail
. "$(dirname "$0")/scratch.sh"
copy
cd crates/vest
rt run -- run data/first.img > "$room/log" 2>&1 || { tail -n 20 "$room/log"; exit 1; }
TIMEFORMAT=%R
for turn in 1 2 3; do
    seconds=$({ time for run in {1..100}; do ./out/vest run data/first.img > /dev/null 2>&1; done; } 2>&1)
    awk -v seconds="$seconds" 'BEGIN { printf "%.1f ms a run\n", seconds * 10 }'
done
