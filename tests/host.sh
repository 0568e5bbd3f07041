#!/usr/bin/env bash
# What C can call, against the outside model: the judge on random logs, then both registers on random lists of calls, then logs stored in
# strips; last, the programs that make course sheets, drills and their figures: host.sh [LOGS [LISTS [STRIPS [SHEETS [DRILLS [SIZINGS]]]]]]. Not
# part of the gate.
. "$(dirname "$0")/build.sh"
count=${1:-2000}
lists=${2:-4000}
strips=${3:-3000}
sheets=${4:-2000}
drills=${5:-300}
sizings=${6:-6000}
mkdir "$out/logs"

built examples/host.c judge
built tests/judges.c judge
python3 tests/host_logs.py "$out/logs" "$count" > "$out/expected"
"$out/judges" "$out"/logs/*.log | cmp "$out/expected" -
"$out/host" "$out"/logs/*.log > "$out/given"
cut -d, -f1 "$out/expected" | cmp - "$out/given"
echo "$count logs: C and the model agree ($(sort "$out/given" | uniq -c | awk '{printf "%s%s times %s", s, $1, $2; s = ", "}')); $SECONDS s"
tests/registers.sh "$lists"
tests/strips.sh "$strips"
tests/sheets.sh "$sheets"
tests/drills.sh "$drills"
tests/sizings.sh "$sizings"
