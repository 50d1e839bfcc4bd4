#!/bin/sh
# design_counts.sh [FOLDER]: counts, in crates/*/src of a folder, the places that docs/DESIGN-PASS.md speaks of.
# A line for each item: point, item, count. Comments are left out. It runs on older checkouts too.
set -eu
here=$(cd "$(dirname "$0")" && pwd)
cd "${1:-.}"
code=$(mktemp)
heads=$(mktemp)
trap 'rm -f "$code" "$heads"' EXIT

# The code, a line `crate text` for each line of source, without comments.
for file in $(find crates/*/src -name '*.rt' | sort); do
    crate=${file#crates/}
    sed -E 's,(^|[[:space:]])//.*$,,' "$file" | sed "s,^,${crate%%/*} ,"
done > "$code"

# The head of each function, a line `crate fn name(parameters) -> result`, up to its clauses or its body.
awk '
    function end() { if (head != "") { gsub(/[[:space:]]+/, " ", head); print crate, head; head = "" } }
    { crate_here = $1; line = $0; sub(/^[^ ]+ /, "", line) }
    line ~ /^ *(pub )?(const )?(extern "C" )?(final )?fn / { end(); crate = crate_here; sub(/.*fn /, "fn ", line); open = 1; head = " " }
    open && line ~ /^ *(ghost|requires|ensures|where)/ { open = 0; end() }
    open { head = head " " line; if (line ~ /[{;] *$/) { open = 0; end() } }
    END { end() }
' "$code" > "$heads"

# lines POINT ITEM PATTERN: lines of code that fit. In a pattern `^[^ ]+ ` stands for the crate.
lines() { printf '%s %s ' "$1" "$2"; grep -cE -- "$3" "$code" || true; }
# uses POINT ITEM PATTERN: occurrences, of which a line may have several.
uses() { printf '%s %s ' "$1" "$2"; { grep -oE -- "$3" "$code" || true; } | wc -l | tr -d ' '; }
# functions POINT ITEM NAMES: functions so named, wherever they are written. NAMES is a pattern.
functions() { printf '%s %s ' "$1" "$2"; grep -cE -- " fn ($3)[<(]" "$heads" || true; }
# in_crate POINT ITEM CRATE NAMES: the same of one crate.
in_crate() { printf '%s %s ' "$1" "$2"; grep -cE -- "^$3 +fn ($4)[<(]" "$heads" || true; }
# parameters POINT ITEM PATTERN..: functions whose head fits each pattern.
parameters() {
    printf '%s %s ' "$1" "$2"
    shift 2
    fitting=$(cat "$heads")
    for pattern in "$@"; do fitting=$(printf '%s\n' "$fitting" | grep -E -- "$pattern" || true); done
    printf '%s' "$fitting" | grep -c . || true
}

# 1. Own enums of the shape of Option or Result; arms that only pass a refusal on; flags and numbers that stand for none.
lines 1 enum_like_option 'enum (Found|Dated|Standing|Kinded|Head)\b'
lines 1 enum_like_result 'enum Verdict\b'
lines 1 lines_with_them '\b(Found|Dated|Standing|Kinded|Head)\b'
lines 1 lines_with_verdict_variants 'Verdict::'
lines 1 arms_that_pass_on '(Verdict::Refused?|Err)\(([a-z]+)\) => (([a-z_]+\()?(Verdict::Refused?|Err)\(\2\)|return Err\(\2\))|None => (return )?None\b'
lines 1 arms_of_none_to_a_refusal '(None|Kinded::Unknown|Head::Missing|Dated::Unreal|Found::Nothing|Standing::Off) => (return )?(Verdict::Refused?|Err|refuse|not_booked)\('
lines 1 flag_fields ' (pub )?[a-z_]+: bool,$'
lines 1 named_numbers_for_cases 'const (OVER_LONG|OF_NO_KIND|WRONG_ROOM|NOT_ON_ROSTER|AGREED|NOT_AGREED|A_DAY|EIGHT_ZEROS|EIGHT_BLANKS|NO_REPORT|MESSAGE_UNKNOWN|NO_MARK)\b'
parameters 1 places_where_the_end_means_none ' fn (find_[a-z]+|first_[a-z]+|last_[a-z]+|field_holding|place_of[a-z_]*|next_member|previous_member|[a-z_]*_among)[<(]' '-> (usize|u64)\b'

# 2. Functions that differ only in a type, a size or a constant, by families.
functions 2 numbers_in_bytes 'get|put|get2|get4|word2|word4|word8|put2|put4|put8|eight_at'
functions 2 arrays_of_bytes 'bytes_at|bytes[0-9]+'
functions 2 fitted 'fitted[0-9]*'
functions 2 same_bytes 'same|same_wide|same_by|eight_agree|are_same'
functions 2 copies_of_bytes 'paste_at|paste_few|paste_most|paste_sixteens|paste16'
functions 2 smaller 'smaller'
functions 2 printed_fields 'named|named_[0-9]+|one_byte|named_text'
functions 2 printed_bytes_and_numbers 'text|number|next|letter|named_number|named_day'
functions 2 show_written 'show_written'
in_crate 2 amounts rules 'amount_of|price_of|discount_of|copies_of'
in_crate 2 layouts record 'order_field|goods_field|closing_field|report_field'
in_crate 2 typed_read values 'order_of|delivery_of|report_of'
in_crate 2 typed_reading reader 'read_typed|read_order|read_delivery|read_report'
in_crate 2 typed_bytes fixed 'order_bytes|delivery_bytes|report_bytes'
in_crate 2 typed_writing writer 'write_typed|write_order|write_delivery|write_report'
in_crate 2 keys naming 'order_key|goods_key|report_key'
in_crate 2 zero_values values 'no_day|no_party|no_article|no_order|no_delivery|no_report'
functions 2 refusal_numbers 'refusal_number|refused_number'
functions 2 refusal_places 'refusal_place|refused_place'
functions 2 not_done 'not_written|not_saved|not_loaded|not_booked|refuse'
functions 2 put_field 'put_field'
functions 2 put_entry 'put_entry'
functions 2 put_price 'put_price'
functions 2 judged_entries 'are_lines_sound|are_slips_sound|are_lines_kept|are_slips_kept'
functions 2 moved_entries 'put_lines|put_slips|take_lines|take_slips'

# 3. Loops, and indices that are counted by hand.
lines 3 while '\bwhile '
lines 3 loop '\bloop \{'
lines 3 for '^[^ ]+ +for .* in '
lines 3 counted_by_hand '[a-z_]+ [+-]= 1;'

# 4. Equality, copying, conversion, order and printing by hand.
lines 4 derives '#\[derive\('
printf '4 derives_without_equality '; grep -E '#\[derive\(' "$code" | grep -vc 'PartialEq' || true
functions 4 conversions '[a-z]+_number|[a-z]+_place|mark_byte|mark_of|medium_byte|medium_of|message_of|expected_of|checked_of|written_of|read_of|saved_as|digit_value|number_of'
lines 4 conversions_as_traits 'impl (Try)?From<'
lines 4 display 'impl [a-z:]*Display for'
lines 4 printed_by_hand '\b(text|number|next|letter|named_[a-z0-9]+|one_byte)\(out'
lines 4 written_by_format '\b(write|writeln)!\(out'
lines 4 smaller_by_hand 'if ([a-z_.]+) <=? ([A-Za-z_.]+) \{ (\1 \} else \{ \2|\2 \} else \{ \1) \}'

# 5. Parameters that travel together, facts that three or more functions ask for, heads with many parameters.
parameters 5 lines_with_slips_and_used 'lines: &' 'slips: &' 'used: &'
parameters 5 lines_with_slips 'lines: &' 'slips: &'
parameters 5 table_with_count 'table: &(.a )?(mut )?\[usize' '(count|fields): usize'
parameters 5 key_as_slices '\[&(.a )?\[u8\]; (5|KEY_FIELDS)\]'
parameters 5 form_beside_bytes 'form: Form'
parameters 5 heads_of_six_or_more '\(([^,()]*(\([^()]*\))?[^,()]*,){5}[^,()]*[a-z]'
python3 "$here/design_facts.py" . | awk 'END { print "5 facts_in_three_requires", $2; print "5 places_of_these_facts", $4 }'

# 6, 7 and 8, as far as a line can be counted: a length beside an array of bytes in a struct, matches on a kind or a form, lines of proofs.
lines 6 length_beside_bytes ' (pub )?(length|count|digits): (u8|usize),'
lines 7 match_on_kind_or_form 'match (k|kind|form|to|[a-z_.]*\.(form|kind)|kind_of\([a-z]+\)) \{'
lines 7 closures '\|[&a-z_, ]*\| '
printf '8 answer_files '; find crates/*/proofs -name 'Answers.antt' -path '*/proofs/*/*' | wc -l | tr -d ' '
printf '8 answer_lines '; find crates/*/proofs -name 'Answers.antt' -path '*/proofs/*/*' -exec cat {} + | wc -l | tr -d ' '
printf '8 invariant_lines '; find crates/*/proofs -name 'Invariants.antt' -exec cat {} + | wc -l | tr -d ' '
printf '8 lemma_lines '; cat crates/*/proofs/*.antt | wc -l | tr -d ' '
