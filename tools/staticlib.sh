#!/usr/bin/env bash
# The libraries for a host in C, proved and built, as target/staticlib/libNAME.a: staticlib.sh NAME..., of judge, store, entries and host. The
# functions that C calls stand in the crates judge_c, store_c, entries_c and host.
set -euo pipefail
cd "$(dirname "$0")/.."
mkdir -p target/staticlib
for name in "$@"; do
    crate=$name
    [ ! -d "crates/${name}_c" ] || crate=${name}_c
    (cd "crates/$crate" && rt lib)
    cp "crates/$crate/out/lib$crate.a" "target/staticlib/lib$name.a"
done
