# For the scripts beside this one, which source it: a folder for what they make, $out, and how they build.
set -euo pipefail
cd "$(dirname "${BASH_SOURCE[0]}")/.."
out=$(mktemp -d)
trap 'rm -rf "$out"' EXIT

# quiet COMMAND...: runs it; what it says is shown only if it fails.
quiet() {
    "$@" > "$out/said.txt" 2>&1 || { tail "$out/said.txt"; exit 1; }
}

# program CRATE: proves a program and builds it, as crates/CRATE/out/CRATE; it is run once, on no input.
program() {
    (cd "crates/$1" && quiet rt run < /dev/null)
}

# built SOURCE CRATE...: proves the crates, and compiles a C program over their libraries, to $out under its own name.
built() {
    local source=$1 libraries=() crate
    shift
    for crate in "$@"; do
        quiet tools/staticlib.sh "$crate"
        libraries+=("target/staticlib/lib$crate.a")
    done
    gcc -std=c99 -Wall -Wextra -Werror -O2 -I include "$source" "${libraries[@]}" -o "$out/$(basename "$source" .c)"
}
