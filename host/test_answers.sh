# What is said of each record, and the list.

# --- a whole day, word for word -------------------------------------------------------------
cp "$parts/../examples/day.bwa" day.bwa
run book --new day.book day.bwa
expect_code 1 "a day"
expect_text out "$parts/test_day.txt" "a day"
expect_err "day.book: a new book was made" "a day"

# --- the desk sample ------------------------------------------------------------------------
run book --new desk.book desk.bwa
expect_code 1 "desk sample"
expect_answers "1 B101 0 10 0 10 0 0
2 L101 0 10 4 6 0 0
3 L101 17
4 M101 0 10 4 0 6 0
5 L101 0 10 7 0 3 0
6 M101 0 10 7 3 0 0
7 L101 0 10 10 0 0 2
8 L101 18" "desk sample"
expect_out "records: 6 booked, 1 with nothing to book, 1 refused" "desk sample"
copy_book desk.book first.book

# --- two schools with the same reference; a line that is let go is listed --------------------
put "$X" "$(order A-16 0003 '')" "$Y" "$(order A-17 0006 '' | sed 's/43210/43211/')" \
    "$(delivery 0001 0006 | sed 's/43210/43211/')" "$(order A-15 0002 '')" \
    "$(report 010N | sed 's/A-17/A-15/')" "$(order A-17 0008 '' | sed 's/43210     VD/43210     IB/')" >schools.bwa
run book --new schools.book schools.bwa
expect_code 0 "two schools"
list_of_run() { sed -n '/^School/,$p' out | sed 's/  */ /g' | grep -v '^ to do'; }
list_of_run >got
cat >wanted <<'LIST'
School 43210 IB
 chase 8 24000 VD A-17 9783442756841 EN 8 0 8 - 0 0 no report yet
 total: 1 line 8 0 8 0 0

School 43210 VD
 reorder 2 24000 VD A-15 9783442756841 EN 2 0 0 N 2 0 010 no day named out of stock for a short time, order not kept
 chase 3 24000 VD A-16 9783442756841 EN 3 0 3 - 0 0 no report yet
 chase 6 24000 VD A-17 9783442756841 EN 10 4 6 - 0 0 no report yet
 total: 3 lines 15 4 9 2 0

School 43211 VD
 complete: 1 line 6 6 0 0 0
 total: 1 line 6 6 0 0 0

All schools
 total: 5 lines 29 10 17 2 0
 used: 5 of 512 lines, 2 of 1024 slips
LIST
expect_text got wanted "two schools' list"
run list schools.book
expect_code 0 "list alone"
list_of_run >got
expect_text got wanted "list alone"
expect_silent "list alone"

# --- each fixed field is named where it breaks its rule ---------------------------------------
base_B=$X
base_L=$Y
base_M=$(report 010N)
while read -r kind place name; do
    eval "base=\$base_$kind"
    byte='~'
    case $name in reference | "slip number") byte=' ' ;; esac
    printf '%s%s%s\r\n' "$(printf '%s' "$base" | head -c "$place")" "$byte" \
        "$(printf '%s' "$base" | tail -c +$((place + 2)))"
    echo "${kind}101 5 a field breaks its rule: $name (place $place)" >>wanted_fields
done >fields.bwa <<'FIELDS'
B 4 school
B 14 school qualifier
B 16 supplier
B 26 supplier qualifier
B 28 date
B 36 reference
B 46 article
B 59 article qualifier
B 61 quantity
B 65 order qualifier
L 4 supplier
L 14 supplier qualifier
L 16 school
L 26 school qualifier
L 28 date
L 36 slip number
L 46 position
L 50 reference
L 60 article
L 73 article qualifier
L 75 quantity
L 79 price
L 94 price qualifier
L 96 currency
L 99 discount
L 107 tax mark
M 4 supplier
M 14 supplier qualifier
M 16 school
M 26 school qualifier
M 28 slip number
M 38 reference
M 48 article
M 61 article qualifier
M 63 message
M 66 hold mark
M 67 expected date
M 75 partial quantity
FIELDS
run book --new fields.book fields.bwa
expect_code 1 "each field"
sed -n '/^records:/q;s/^fields.bwa:[0-9]* //;s/ |.*//;p' out >got
expect_text got wanted_fields "each field"

# --- odd records ------------------------------------------------------------------------------
long=$(printf '%5000s' '' | tr ' ' 'x')
most=$(printf '%947s' '' | tr ' ' 'x')
fields=$(number=0; while [ $number -lt 97 ]; do printf '*8888'; number=$((number + 1)); done)
put "$X" "$long" "" "$(order A-18 0010 "*8888$most")" "$(order A-19 0010 "*8888x$most")" \
    "$(printf 'B\r101')" "$(printf '%s\n' "$(order A-21 0001)" x)" "$Y" \
    "$(order A-22 0001 '*12')" "$(order A-22 0001 '*9999')" "$(order A-22 0001 "$fields")" \
    "$(order A-22 0001 '*1029030')" "$(order A-22 0000 '')" "$(order A-17 0012 '')" \
    "$(delivery 0002 0001 | sed 's/A-17/A-99/')" "$(delivery 0001 0009 | sed 's/A-17/A-18/')" \
    "$(delivery 0003 0300 | sed 's/A-17/A-18/')" "$(delivery 0003 0044)" >odd.bwa
run book --new odd.book odd.bwa
expect_code 1 "odd records"
sed '/^records:/q' out >got
who="school 43210 VD, supplier 24000 VD"
whom="supplier 24000 VD, school 43210 VD, date 20240226, slip number 70012345"
item="article 9783442756841 EN"
cat >wanted <<ANSWERS
odd.bwa:1 B101 0 done | $who, reference A-17, $item, quantity 0010 | ordered 10, filled 0, open 10, let go 0, extra 0
odd.bwa:2 ? 1 the record is over 1024 bytes: 5000 bytes (place 1024)
odd.bwa:3 ? 2 no known kind of record: blank (place 0)
odd.bwa:4 B101 0 done | $who, reference A-18, $item, quantity 0010 | ordered 10, filled 0, open 10, let go 0, extra 0
odd.bwa:5 ? 1 the record is over 1024 bytes: 1025 bytes (place 1024)
odd.bwa:6 ? 2 no known kind of record: B\x0D10 (place 0)
odd.bwa:7 B101 4 a byte that is not allowed: byte 10 (place 72) | $who, reference A-21, $item, quantity 0001
odd.bwa:8 L101 0 done | $whom, position 0001, reference A-17, $item, quantity 0004 | ordered 10, filled 4, open 6, let go 0, extra 0
odd.bwa:9 B101 6 an optional field has no star or no four digits (place 67) | $who, reference A-22, $item, quantity 0001
odd.bwa:10 B101 7 *9999 is missing or not last (place 67) | $who, reference A-22, $item, quantity 0001
odd.bwa:11 B101 8 more than 96 optional fields (place 547) | $who, reference A-22, $item, quantity 0001
odd.bwa:12 B101 9 an optional field has a wrong content: field *1029 (place 67) | $who, reference A-22, $item, quantity 0001
odd.bwa:13 B101 11 the quantity is 0 | $who, reference A-22, $item, quantity 0000
odd.bwa:14 B101 14 the book has an order with this school, supplier and reference already | $who, reference A-17, $item, quantity 0012 | in the book: $item, quantity 0010
odd.bwa:15 L101 16 the book has no order with this school, supplier and reference | $whom, position 0002, reference A-99, $item, quantity 0001
odd.bwa:16 L101 18 this slip is booked already with another reference or quantity | $whom, position 0001, reference A-18, $item, quantity 0009 | in the book: reference A-17, quantity 0004, ordered as ${item#article }
odd.bwa:17 L101 0 done | $whom, position 0003, reference A-18, $item, quantity 0300 | ordered 10, filled 10, open 0, let go 0, extra 290
odd.bwa:18 L101 18 this slip is booked already with another reference or quantity | $whom, position 0003, reference A-17, $item, quantity 0044 | in the book: reference A-18, quantity 0300, ordered as ${item#article }
records: 4 booked, 0 with nothing to book, 14 refused
ANSWERS
expect_text got wanted "odd records"
sed -n '/^Refused records, once more: 14$/,$p' out | sed 1d >got
grep -v -e ' 0 done' -e '^records:' wanted >again
expect_text got again "refused records, repeated at the end"
put "$X" >tail.bwa
printf '%s\r' "$Y" >>tail.bwa
run book --new tail.book tail.bwa
expect_answers "1 B101 0 10 0 10 0 0
2 L101 4" "a lone CR at the end"
number=0
while [ $number -lt 1003 ]; do printf 'x\r\n'; number=$((number + 1)); done >trash.bwa
run book --new trash.book trash.bwa
expect_out "and 3 more, each in its place above" "very many refused records"
[ "$(grep -c '^trash.bwa:1000 ' out)" -eq 2 ] && [ "$(grep -c '^trash.bwa:1001 ' out)" -eq 1 ] ||
    fail "very many refused records: not the first 1000 are repeated"
pass

# --- 13 and 17 are no fault ---------------------------------------------------------------------
put "$Y" "$(delivery 0007 0004 | sed 's/70012345/        /')" >usual.bwa
copy_book schools.book usual.book
run book usual.book usual.bwa
expect_code 0 "a repeated slip and an advance notice need no look"
expect_out "records: 0 booked, 2 with nothing to book, 0 refused" "a repeated slip"
expect_not "Refused records" out "a repeated slip"
