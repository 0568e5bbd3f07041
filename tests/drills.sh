#!/usr/bin/env bash
# Drills, against the outside model: the program on random inputs, a hundred files at a time, then on the longest drill and on the example:
# drills.sh [INPUTS]. Not part of the gate.
. "$(dirname "$0")/build.sh"
count=${1:-300}

program drill
python3 tests/drill_cases.py "$out" "$count"
printf '%s\0' "$out"/inputs/*.txt | xargs -0 -n 100 crates/drill/out/drill > "$out/given"
cmp "$out/expected" "$out/given"

TIMEFORMAT=%R
seconds=$({ time crates/drill/out/drill < "$out/longest.txt" > "$out/given"; } 2>&1)
cmp "$out/longest.out" "$out/given"

crates/drill/out/drill < examples/drill.txt > "$out/example"
cmp examples/drill.out "$out/example"
echo "$count inputs, all $(wc -l < "$out/longest.out") schedules of eight turns each in $seconds s, and the example: drill and the model agree; $SECONDS s"
