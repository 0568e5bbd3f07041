#!/usr/bin/env bash
# The course sheet, against the outside model: the program on random logs, a hundred files at a time, then on the example; and pictures:
# sheets.sh [LOGS]. Not part of the gate.
. "$(dirname "$0")/build.sh"
count=${1:-2000}

program sheet
python3 tests/sheet_cases.py "$out" "$count"
printf '%s\0' "$out"/logs/*.log | xargs -0 -n 100 crates/sheet/out/sheet > "$out/given"
cmp "$out/expected" "$out/given"

crates/sheet/out/sheet < examples/paces.log > "$out/example"
cmp examples/paces.out "$out/example"
python3 tools/bars.py < "$out/example" | cmp examples/paces.svg -

# refused WHY: bars.py draws nothing of its input, and says why.
refused() {
    if python3 tools/bars.py > "$out/picture.svg" 2> "$out/why"; then
        echo "bars.py drew what is no sheet"
        exit 1
    fi
    [ ! -s "$out/picture.svg" ]
    grep -q "$1" "$out/why"
}

# Pictures of the gate's sheets: each is XML with a bar a reader that looked, and one for all; what is no sheet, or two, is told, with status 1.
for log in crates/sheet/data/*.log; do
    crates/sheet/out/sheet < "$log" > "$out/print"
    if [ "$(tail -1 "$out/print" | cut -d' ' -f1)" = all ]; then
        python3 tools/bars.py < "$out/print" > "$out/picture.svg"
        python3 -c 'import sys, xml.dom.minidom; xml.dom.minidom.parse(sys.argv[1])' "$out/picture.svg"
        [ "$(grep -c '<rect x=' "$out/picture.svg")" = "$(grep -vc 'reads 0 ' "$out/print" || true)" ]
    else
        refused 'this is no sheet' < "$out/print"
    fi
done
cat examples/paces.out examples/paces.out | refused 'not the lines of one sheet'
echo "$count logs and the example: sheet and the model agree, and the sheets have pictures; $SECONDS s"
