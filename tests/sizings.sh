#!/usr/bin/env bash
# Sizings, against the outside model: the program on random inputs, a thousand files at a time, and on the example: sizings.sh [INPUTS]. Not part of
# the gate.
. "$(dirname "$0")/build.sh"
count=${1:-6000}

program sizing
python3 tests/sizing_cases.py "$out" "$count"
printf '%s\0' "$out"/inputs/*.txt | xargs -0 -n 1000 crates/sizing/out/sizing > "$out/given"
cmp "$out/expected" "$out/given"

crates/sizing/out/sizing < examples/sizing.txt > "$out/example"
cmp examples/sizing.out "$out/example"
echo "$count inputs and the example: sizing and the model agree; $SECONDS s"
