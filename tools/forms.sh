#!/usr/bin/env bash
# The places in src/ that a pattern finds to stand in an older form: `tools/forms.sh [COMMIT]` counts them in a commit, or in the files as they
# are; with `-l` behind it, lists them. docs/DESIGN-PASS.md says what each line counts.
set -euo pipefail
cd "$(dirname "$0")/.."
commit=${1:-}
[ "$commit" = -l ] && commit= && set -- "" -l
say() {
    local found
    found=$(git grep -nE "$2" ${commit:+"$commit"} -- 'crates/*/src/*.rt' || true)
    printf '%4d  %s\n' "$(printf '%s' "$found" | grep -c . || true)" "$1"
    if [ "${2:-}" ] && [ "$listed" ]; then printf '%s\n' "$found" | sed 's/^/        /'; fi
}
listed=${2:-}
say '1 enums' '^ *(pub(\(crate\))? )?enum '
say '1 a number that stands for none' '//.*(, or 0|or NONE|else none|or the end|, or the number of rows|; 0 if|, or 64|; k, or lo|all 0 if)'
say '1 a flag or a number beside a value' '^ +pub (found|number|verdict|counted|active|second|agree|retired|last): |^pub fn read_(numbers|one_line)'
say '1 a kind or a refusal told by its number' '(kind|bits|told|kind\([a-z]+(\[k\])?\)|act\.kind|number|kind_in\(.*\)) (==|!=|<) ([0-9]+|BAND)|^ +[0-9]+( \| [0-9]+)* =>|if (g\.)?counted'
say '2 the smaller or larger of two' 'fn (fewer|smaller|larger)\b'
say '2 packing, places and sub-steps, of each register' 'fn (pack|unpack|row_start|in_row|word_from|store_cell|write_step|read_step|writer_ok|reader_ok)\b'
say '2 the two registers'"'"' names for one call' 'fn (set_up|set_up_counted|run|run_counted|register_run|counted_run|register_set_up|counted_set_up)\b'
say '2 the programs'"'"' bodies, and arrays given by a function' 'fn print_input|fn [a-z_]*(bytes|marks)\(\) -> \['
say '3 while' '^ *while '
say '3 for over an index' '^ *for [a-z_]+ in .*[^.]\.\.[^.]'
say '4 equality, copies and conversions by hand' 'fn (equal|is_same|same[a-z_]*|copy|pack|unpack|number_of|number|refusal_number|answer_word|value_of|half_at|word_at|byte_at|byte_of|wide|result_word|refusal_in)\b'
say '4 printing by hand' 'fn (print(_[a-z]+)?|put_[a-z_]+)\b'
say '5 bytes lent to be written, and a place in them' 'out: &mut \[u8\](,$|, at: usize)'
say '5 the table and the log' 'table: &mut \[u64\],( log|$)'
say '6 parallel arrays' 'let mut [a-z]+ = \[0usize; PROCESSORS\]|pub (reads|lags): \[usize'
say '7 a switch by a number' 'match (kind|field|k)\b'
