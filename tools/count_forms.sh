#!/bin/sh
# Counts the places in src/ that docs/DESIGN-PASS.md speaks of, point by point: `tools/count_forms.sh` prints the counts, `tools/count_forms.sh -l` the lines too.
# A pattern finds lines that may be such a place; the page says which of them are.
cd "$(dirname "$0")/.." || exit 1

count() {
    lines=$(grep -rnE --include='*.rt' "$2" crates/*/src | grep -vE "${3:-^$}")
    printf '%-6s %4s  %s\n' "$1" "$(printf '%s' "$lines" | grep -c .)" "$4"
    [ "$list" = "-l" ] && printf '%s\n' "$lines" | sed 's/^/         /'
}

list=$1
count 1a '^ *Refused\(|Answer::Refused' '' 'a refusal as a case of the answer (Result in shape)'
count 1b 'Err\((_|why|fault)\) =>|let Ok\(|is_err\(\)' '' 'an error taken apart and passed on by hand'
count 1c 'None => None|None => return|Some\((held|found|place)\) => ' '' 'an Option taken apart and passed on by hand'
count 1d 'number_of\(|\.code\(\)|NO_SUCH|NO_PIECE|NO_DRIVE' 'fn number_of|script/src/digits' 'a number in place of a kind or a refusal'
count 2a 'fn (sum_at|word_at|number_at|how_many|how_many_in|is_holder|is_copy|is_taken|is_named|drive_of|version_at|copied|may_need|names_version|byte_at|flag_at|bar_at)\b' '' 'functions that have a twin by name or by body'
count 2b 'fn (one_number|two_numbers|three_numbers|complete|complete_on_drive|put_in|take_out|skip|cut|raised|reserve)\b|enum Rule' '' 'functions and types that differ in a number, a test or a constant'
count 2c '^(pub )?const (OBJECTS|PLACES|SLOTS|LONGEST|MAX|PIECE|HEADER|MOST|FILE)\b' '' 'sizes that stand in more than one crate'
count 3a '^ *(while|loop) ' 'while let' 'loops with an index counted by hand'
count 3b '^ *for .*\.\.|^ *for .*enumerate' '' 'for over a range or with enumerate'
count 3c '^ *for ' '\.\.|enumerate' 'for over the elements'
count 4a 'fn (is_)?same\b|fn copied|fn eq\b|fn is_higher' '' 'equality, order and copying by hand'
count 4b ' as (u8|u16|u32|u64|usize)\b' '' 'conversions by as'
count 4c '^impl.*(Display|From|TryFrom)' '' 'conversions and printing by impl (the form wanted)'
count 5a '0 < need\) ×' '' 'contracts with 0 < need, need <= 31'
count 5b 'length m\.(now|old) ≡ ' '' 'contracts with the size of a matrix'
count 5c 'length present|length bytes\.now ≤ 65536|vec_len bytes ≤ 65536|place < places|next < 2 \^ 63' '' 'contracts with another fact about a value'
count 5d 'object: u8,? *(drive|number): u8|object: u8, place: usize|drive: u8, place: u8' '' 'object and drive, drive and place side by side'
count 6a 'Vec<(Known|u64)>|flags\[|known\[|bars\[' '' 'parallel arrays'
count 6b 'w: usize|k: usize|width: usize' '' 'a buffer with its width or length beside it'
count 7 'Known::Unsure =>|name, b"|same\(' '' 'switches on a step or a word'
