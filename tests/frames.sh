#!/usr/bin/env bash
# Reads the source, and proves nothing: that every function of the judge of rows, and of the sheet, has its fact. The prover holds each `keeps_little` to the
# code that it stands beside, and every call to the names in `judge/specs/Frame.of_rows`, or `sheets/specs/Frame.of_sheet`; that each name there has such a
# fact, a proof cannot say. Then the arrays of the two crates' source, by file and name. Not part of the gate.
set -euo pipefail
cd "$(dirname "$0")/../crates"

# facts CRATE LIST: the list's own names are the crate's, and each has its fact.
facts() {
    local crate=$1 names name path missing=0
    names=$(sed -n "/^$2 =/,/∷ \(\[\]\|of_rows\)\$/p" "$crate/specs/Frame.antt" | grep -o "$crate::[A-Za-z_:]*")
    for name in $names; do
        path=${name#"$crate"::}
        if ! grep -qsx 'keeps_little : KeepsLittle function' "$crate/proofs/${path//:://}/Answers.antt"; then
            echo "$name has no keeps_little"
            missing=1
        fi
    done
    [ "$missing" = 0 ]
    echo "$(wc -w <<< "$names") functions in $2, each with its fact"
}

facts judge of_rows
facts sheets of_sheet
grep -nE 'const [A-Z]+: usize|\[[^];]*; [^]]*\]' judge/src/*.rt sheets/src/*.rt
