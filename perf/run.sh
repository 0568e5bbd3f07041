#!/usr/bin/env bash
# Speed: run.sh [--write]. Proves and builds the judge and the register, compiles the plain Rust beside them, measures and prints the
# tables; with --write it puts them into docs/PERFORMANCE.md, too. Needs rt and rustc; takes two minutes and up to 1.5 GB behind the proofs.
set -euo pipefail
cd "$(dirname "$0")/.."
out=target/perf
mkdir -p "$out"

tools/staticlib.sh judge host > "$out/prove.txt" 2>&1 || { tail "$out/prove.txt"; exit 1; }
rustc --edition 2024 -C opt-level=3 -C codegen-units=1 perf/main.rs -o "$out/perf" -L target/staticlib -l static=judge -l static=host

{
    echo "Measured $(date -u '+%Y-%m-%d %H:%M') UTC on $(sed -n 's/^model name[^:]*: *//p' /proc/cpuinfo | head -1), $(nproc) cores, Linux" \
        "$(uname -r), $(rustc --version), $(rt version); load before: $(cut -d' ' -f1-3 /proc/loadavg)."
    echo
    "$out/perf"
    echo "Load after: $(cut -d' ' -f1-3 /proc/loadavg)."
} > "$out/table.md"
cat "$out/table.md"

if [ "${1:-}" = --write ]; then
    sed -i -e '/^<!-- tables -->$/,/^<!-- end of tables -->$/{/^<!--/!d}' -e "/^<!-- tables -->\$/r $out/table.md" docs/PERFORMANCE.md
fi
