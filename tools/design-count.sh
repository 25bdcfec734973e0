#!/usr/bin/env bash
# design-count.sh [POINT]: lists, for docs/DESIGN-PASS.md, the lines of src/ that a point of that page may be about, as
# FILE:LINE:TEXT, a heading before each command's. What of them is a place stands in the page.
set -uo pipefail
cd "$(dirname "$0")/.."
src=(crates/*/src/*.rt)
show() { # HEADING PATTERN: the lines that a pattern finds
    local found
    found=$(grep -nP "$2" "${src[@]}" | sed 's|crates/||; s|/src/|/|')
    printf '# %s: %s\n' "$1" "$(printf '%s' "$found" | grep -c '')"
    [ -z "$found" ] || printf '%s\n' "$found"
}
want=${1:-}
point() { [ -z "$want" ] || [ "$want" = "$1" ]; }
if point 1; then
    show "1 enums of our own" '^(pub )?enum '
    show "1 flags in structs" '^    (pub )?[a-z_]+: bool,$'
    show "1 results that are a number" '^(pub )?fn .*-> (u8|u16|u32|u64|usize)( \{)?$|^\) -> (u8|u16|u32|u64|usize)$'
    show "1 a number compared with one that means none" '== (64|256|257|lists::NONE)\b|< (257|lists::NONE)\b|0 < (first|column|number|planner|file)\b'
fi
if point 2; then
    show "2 functions named alike" '^ *(pub )?fn (put|least|lesser|less|less_return|is_digit|is_whole|read_\w+|write_\w+|put_\w+|field_\d|number_\d|digits\w*|no_\w+|page|large_page|\w+_wants|\w+_line|take|refuse|find|test|stand)[(<]'
fi
if point 3; then
    show "3 loops that are a while" '^ *while '
    show "3 indices stepped by one" '^ +[a-z]+ [+-]= 1;$'
    show "3 loops that are a for" "^ *('[a-z]+: )?for "
fi
if point 4; then
    show "4 numbers widened or cut by as" ' as (u8|u16|u32|u64|usize)\b'
    show "4 fields copied one by one" '^ +([a-z_]+): (\w+\.)?\1,$'
    show "4 comparisons, conversions and orders written out" 'fn (is_name|is_zeros|is_live|is_waiting|in_phase|kind_of|submission_of|lesser|least|less|fate_of|class_of|number_\d|field_\d|put_[124]|is_digit|is_open|is_whole)\('
fi
if point 5; then
    show "5 functions that take the live table" 'live: &'
    show "5 functions that take a buffer and a place" '(out|err|text|buffer|answers): &mut \[u\d+(; \d+)?\], at: usize|^    at: usize,$'
fi
if point 6; then
    show "6 a length beside a buffer" '^    (pub )?(size|used|said|count|lines|held): (usize|u16)|^    (pub )?\w+: \[u\d+; \w+\],$'
fi
if point 7; then
    show "7 a parameter that chooses a step" 'fn .*(sort: Sort|planner: u8|whole: bool|wordy: bool|words: bool|help: bool)'
fi
if point 8; then
    printf '# 8 answer files: %s\n' "$(ls crates/*/proofs/*/Answers.antt crates/*/proofs/*/*/Answers.antt 2>/dev/null | wc -l)"
    printf '# 8 lines of proofs: %s\n' "$(cat $(find crates -path '*/proofs/*' -not -path '*/out/*' -name '*.antt') | wc -l)"
fi
