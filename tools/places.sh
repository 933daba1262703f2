#!/usr/bin/env bash
# Lists the places in src/ that may read like an older Rattle, one line each, and counts them by pattern.
# usage: tools/places.sh [--count] [ROOT]    (ROOT is the top of a checkout; --count prints the counts alone)
set -u
count=no
if [ "${1:-}" = --count ]; then count=yes; shift; fi
cd "${1:-$(dirname "$0")/..}" || exit 1
mapfile -t files < <(find crates -name out -prune -o -path '*/src/*' -name '*.rt' -print | sort)

# tell LABEL PATTERN: the lines that the pattern fits, comments aside.
tell() {
    local hits
    hits="$(grep -nE "$2" "${files[@]}" | grep -vE '^[^:]+:[0-9]+: *//')"
    printf '%s: %s\n' "$1" "$(printf '%s' "$hits" | grep -c .)"
    [ "$count" = yes ] || { [ -z "$hits" ] || printf '%s\n' "$hits" | sed 's/^/    /'; }
}

# behind LABEL FIRST SECOND: the lines that SECOND fits right under one that FIRST fits.
behind() {
    local hits
    hits="$(grep -nE -A1 "$2" "${files[@]}" | grep -E -- '-[0-9]+-' | grep -E -e "$3")"
    printf '%s: %s\n' "$1" "$(printf '%s' "$hits" | grep -c .)"
    [ "$count" = yes ] || { [ -z "$hits" ] || printf '%s\n' "$hits" | sed 's/^/    /'; }
}

tell '1a a case of nothing in an own enum' '^    (None|Nothing|Nowhere|Empty|Missing|Absent|No[A-Z][a-z]*),$'
tell '1b a flag as a field or a parameter' '\b[a-z_]+: bool(,|\)|$)'
tell '1c a number for a kind, a code, a station or a refusal' '(kind|code|station): u8|\((number|kind|code): u8\)|number\(\) ==|match [a-z_.]*number\(\)|Result<[A-Za-z]+, u8>|return 0;|=> 0,$'
tell '1d a fault handed on as what may be missing' 'Option<Fault>'
tell '1e an error or a nothing passed on by hand' 'Err\((\w+)\) => Err\(\1\)|None => None,|None => return Err|None => Err|Err\(_\) => None|Some\((\w+)\) => Some\(\2\)|return Some\(fault\)'
behind '1f the same, by let and else' 'else \{$' 'return (None|Err\()'
tell '2  constants of one meaning' '^(pub(\([a-z]+\))? )?const [A-Z_]+'
tell '3a a loop over numbers' 'for [a-z_]+ in [0-9a-z(]+\.\.'
tell '3b a loop without a for' '\b(while|loop)\b.*\{$'
tell '3c a counter kept by hand' '\b(count|offset|number|depth|at|value|waiting|all|rest|left|asked) (\+=|= [a-z]+ \+)|\b(rest|left|asked) = '
tell '3d an index counted beside the items' '\.enumerate\(\)'
tell '3e a plain loop over items' 'for [a-z]+ in &?[a-z_.()]+ \{$'
tell '4a a conversion, an equality or a printing as a function' 'fn (number|from_number|letter|from_letter|word|from_word|text|print|answer|are_same|is_same|class_word|fill|two_bytes|from_two|four_bytes|from_four|numbered|was_present)\b'
behind '4b a type without the derives of its fields' '^#\[derive\((Clone, Copy|Drop)\)\]$' '-[0-9]+-pub (struct|enum)'
tell '5a the row of a board keeps its length' 'row_length [a-z]+\.new ≡ row_length'
tell '5b the state of a board is sound' 'Sound \(board_state'
tell '5c a width or a number of rows within its limit' 'form\.size ≤ 16|(key|tally) ≤ 1[67]|(rows|count) ≤ 1024'
tell '5d an archive opened on rows' 'Opened K\.StoredKey\.form'
tell '5e a row of bytes long enough for an answer' 'longest_reply ≤ length'
tell '6a a row of bytes or numbers to write into' '&mut \[(u8|u16)\]'
tell '6b a length or a position beside a row' '\b(length|count|depth|at): (usize|u16)\b'
tell '7  a function pointer, a dyn or a switch on kinds of step' '\bfn\(|\bdyn |match \(keys, tallies\)'
