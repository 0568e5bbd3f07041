#!/usr/bin/env bash
# Logs stored in strips and put back, against the outside model: the two functions for C on random logs and strips, then the program on
# files and the examples: strips.sh [CASES]. Not part of the gate.
. "$(dirname "$0")/build.sh"
count=${1:-3000}

built tests/strips.c store
python3 tests/strips_cases.py calls "$out" "$count"
"$out/strips" < "$out/in" > "$out/given"
cmp "$out/expected" "$out/given"

program strips
python3 tests/strips_cases.py files crates/strips/out/strips 200
for strips in examples/*.strips; do
    crates/strips/out/strips store < "${strips%.strips}.log" | cmp "$strips" -
    crates/strips/out/strips restore < "$strips" | cmp "${strips%.strips}.log" -
done
echo "$count calls, the files and the examples: strips and the model agree; $SECONDS s"
