#!/bin/sh
# Counts, by a pattern each, the places that docs/DESIGN-PASS.md speaks of: count_places.sh [FOLDER], by default this repository.
# With -l it prints the places too. A pattern finds candidates: the page says what became of each.
list=
if [ "$1" = -l ]; then list=1; shift; fi
cd "${1:-$(dirname "$0")/..}" || exit 1

places() { # point, what, pattern, and lines that don't count
    found=$(grep -nE "$3" crates/*/src/*.rt | grep -vE ':[0-9]+: *//|ghost use' | grep -vE "${4:-^$}")
    printf '%s  %3d  %s\n' "$1" "$(printf '%s' "$found" | grep -c .)" "$2"
    if [ -n "$list" ] && [ -n "$found" ]; then printf '%s\n' "$found" | sed 's/^/        /'; fi
}

places 1 'fields that are a flag' '^ +(pub(\([a-z]+\))? )?[a-z_]+: bool,'
places 1 'functions that answer a flag and fill in a value' 'fn .*into: &mut.*-> bool'
places 1 'arms that wrap again what they unwrapped' '\b(Ok|Err|Some|None)(\([^)]*\))? => (return )?(Ok|Err|Some|None|true|false)\b'
places 1 'a Result in a Result' 'Result<Result'
places 1 'kinds told apart by a number' 'number\(\) <|\bkind: 0\b'
places 1 'an absent value by hand, by a number that is 0' 'if [a-z.]+ == 0 \{ None|if quote.quantity == 0 \{'
places 2 'readers by type, size or form' 'pub fn read_(u16|u32|u64|i32|i64|price|short_price|side|status|condition|issue|listing|[a-z_]*_(short|long)|(short|long)_quote)\b'
places 2 'the words and letters of codes' 'fn [a-z]+_(name|letter)\('
places 2 'checks by carrier' 'fn (check_datagram|check_spin_block|check|own_unit)\('
places 2 'a value or a dash' 'None => f\.write_str\("-?"\)|return f\.write_str\("-"\)'
same=$(grep -hoE '^(pub(\([a-z]+\))? )?(struct|enum|trait|fn|const) [A-Za-z_0-9]+' crates/*/src/*.rt | sed -E 's/^pub(\([a-z]+\))? //' | grep -vE 'fn (main|run)$' | sort | uniq -d)
printf '2  %3d  items of one name in several crates\n' "$(printf '%s' "$same" | grep -c .)"
if [ -n "$list" ]; then printf '%s\n' "$same" | sed 's/^/        /'; fi
places 3 'loops over an index or a count' '\bfor [a-z_]+ in [^{]*\.\.'
places 3 'while loops' '\bwhile '
places 4 'equality and order by hand' 'fn (same_symbol|comes_before|pack)\('
places 4 'dropping by hand' 'impl(<[^>]*>)? Drop for'
places 4 'conversions by hand' 'fn [a-z]+_of(<[^>]*>)?\((x|quote|last|message|structure|line)\b|fn leg_at\('
places 4 'conversions by as' '\bas [ui](8|16|32|64|size)\b'
places 4 'printing by hand' 'fn (show|write)_[a-z_]+<W: fmt::Write>'
places 4 'a newtype for the words of one type' 'struct Shown[A-Za-z]*(<[^>]*>)?\(pub'
places 4 'starting values by hand' 'fn new_[a-z]+\(|fn new\(\) ->|^ +total: Total \{|^ +score: Score \{'
places 5 'the rows in use' 'requires( [a-z]+)? \{ [^}]*(count ≤ (size|length)|ascends)'
places 5 'few places' 'requires \{ places ≤ 19 \}'
places 5 'a carrier and a block side by side' '^ *carrier: Carrier,$|carrier: Carrier, (unit|place|header|bytes|block)|\(carrier: Carrier, '
places 6 'a buffer with a length beside it' 'rows: (&.a mut |&mut |&)\[Row\](,|, count: usize)'
places 6 'rows of bytes cut by hand' "bytes: &'a \[u8\],|legs\.bytes|10 \* (i|n)\b"
places 6 'a sorted list searched by hand' 'fn find_place\('
places 7 'a switch on which step to run' '(Table|Step|Target|Kind|FixedKind)::[A-Z][A-Za-z]+(\([a-z_]*\))?\)? => [^K0-9]|(Table|Step|Target)::[A-Z][A-Za-z]+(\([a-z_]*\))?\)? => *[{(]'
answers=$(find crates -name Answers.antt -not -path '*/out/*' | wc -l)
proofs=$(find crates -path '*/proofs/*.antt' -not -path '*/out/*' -exec cat {} + | wc -l)
printf '8  %3d  files of answers, %d lines of proofs in all\n' "$answers" "$proofs"
