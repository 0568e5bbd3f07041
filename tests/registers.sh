#!/usr/bin/env bash
# Both registers called from C, against the outside model on random lists of calls, as whole lists and one call at a time: registers.sh [COUNT].
# Not part of the gate.
. "$(dirname "$0")/build.sh"
count=${1:-4000}

built tests/registers.c host
python3 tests/register_lists.py "$out" "$count"
"$out/registers" < "$out/in" > "$out/given"
cmp "$out/expected" "$out/given"

built tests/calls.c entries
"$out/calls" < "$out/one-at-a-time" > "$out/given"
cmp "$out/answered" "$out/given"

built examples/scope.c host
for calls in examples/*.calls; do
    "$out/scope" < "$calls" > "$out/example"
    cmp "${calls%.calls}.out" "$out/example"
done

built examples/board.c entries judge
"$out/board" < examples/board.readings > "$out/example"
cmp examples/board.out "$out/example"
echo "$count lists and the examples: C and the model agree; $SECONDS s"
