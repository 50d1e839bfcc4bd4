# Digests, damaged books, and files that were booked before.

# --- the digests are those that the system's own program reckons ----------------------------------------
for book in day.book schools.book void.book trash.book sixty.book; do
    grep -q "^$(digest $book) 20..-..-..T..:..:..Z\$" $book.digests || fail "digest of $book: not in its list"
    pass
done
lengths="0 1 54 55 56 57 63 64 65 118 119 120 127 128 129 1000"
run book --new digest.book
for length in $lengths; do
    printf "%${length}s" '' | tr ' ' 'x' >"length$length"
    run book digest.book "length$length"
    grep -q " file $(digest "length$length"), 0 booked, 0 with nothing to book, [01] refused, no roster: length$length\$" digest.book.log ||
        fail "digest of a file of $length bytes: not in the log"
    pass
done
copy_book day.book log.book
grep -q "^20..-..-..T..:..:..Z from $(printf '\0\0\0\0\0' | sha256sum | cut -c 1-16) to $(digest day.book | cut -c 1-16): file $(digest day.bwa), 16 booked, 3 with nothing to book, 9 refused, no roster: day.bwa\$" log.book.log ||
    fail "log: no line of the day"
pass

earliest=$(date -u +%Y-%m-%dT%H)
TZ=XYZ-13 timeout 30 "$host" book log.book four.bwa >out 2>err
latest=$(date -u +%Y-%m-%dT%H)
case $(tail -n 1 log.book.log) in "$earliest"* | "$latest"*) pass ;; *) fail "log: its time is not UTC" ;; esac

# --- damaged, changed and foreign books --------------------------------------------------------------------
refused_book() {    # the book, what is said, what it is
    cp "$1" kept
    for word in list book; do
        files=order.bwa
        [ $word = book ] || files=
        run $word "$1" $files
        expect_code 2 "$3"
        expect_err "$2" "$3"
        expect_not "total" out "$3"
        expect_same "$1" kept "$3"
    done
    expect_tidy . "$3"
}
size=$(wc -c <first.book)
foreign="this is none of the books that were saved here"
for place in 1 13 30 50 52 60 $((size - 5)) $((size - 1)); do
    copy_book first.book damaged.book
    { head -c $((place - 1)) first.book; head -c $place first.book | tail -c 1 | tr '\000-\377' '\001-\377\000'; tail -c +$((place + 1)) first.book; } >damaged.book
    refused_book damaged.book "$foreign" "book with byte $place changed"
done
head -c $((size - 1)) first.book >damaged.book
refused_book damaged.book "$foreign" "book cut short"
{ cat first.book; printf '\000'; } >damaged.book
refused_book damaged.book "$foreign" "book with a byte more"
: >damaged.book
refused_book damaged.book "$foreign" "book of no bytes"
cp first.book lonely.book
refused_book lonely.book "there are no digests beside this book" "book without digests"
expect_err "--accept-book" "book without digests"
damaged_accepted() {    # the book, the answer, what it is
    cp "$1" kept
    run book --accept-book "$1" order.bwa
    expect_code 2 "$3"
    expect_err "answer $2" "$3"
    expect_same "$1" kept "$3"
}
head -c $((size - 1)) first.book >cut.book
damaged_accepted cut.book 22 "book cut short, accepted"
number=1000
while [ $number -lt 1513 ]; do
    printf '\00143210     VD24000     VDA-%-8s9783442756841EN\001\000\000' $number
    number=$((number + 1))
done >lines
{ cat lines; printf '\000\001\002\000\000'; } >large.book
damaged_accepted large.book 23 "book of 513 lines, accepted"
head -c 84486 /dev/zero >long.book
refused_book long.book "no book is as long as this file" "book that is too long"
run book --accept-book long.book order.bwa
expect_code 2 "book that is too long, accepted"
expect_err "no book is as long as this file" "book that is too long, accepted"

# --- books of the time when two orders could share school, supplier and reference ---------------------------
saved_line() { printf '\001%-12s%-12s%-10s%s\003\000\000' "$1" "$2" "$3" "$4"; }
line_of() { saved_line '43210     VD' '24000     VD' "$1" "$2"; }
pairs=$(pwd -P)/pairs.book
shared() {          # reference, and the two articles
    echo "wizqamul-host: $pairs: reference $1 of school 43210 VD and supplier 24000 VD stands in this book for $2 and for $3"
}
refused_pairs() {   # what it is; `wanted_err` has the orders that are named
    echo "wizqamul-host: $pairs: answer 22: the book is damaged, or was saved when two orders could share school, supplier and reference; it is left untouched" >>wanted_err
    { head -n 1 first.book.digests; echo "$(digest pairs.book) 2024-02-19T08:00:00Z"; } >pairs.book.digests
    refused_book pairs.book "$(tail -n 1 wanted_err)" "$1"
    run list pairs.book
    expect_text err wanted_err "$1"
    rm pairs.book.digests
    damaged_accepted pairs.book 22 "$1, accepted"
    expect_err "$(head -n 1 wanted_err)" "$1, accepted"
}
near() {            # a line, and others that share a part of its key
    line_of A-17 9783442756841EN
    line_of A-18 9783442756841EN
    saved_line '43211     VD' '24000     VD' A-17 9783442756841EN
    saved_line '43210     IB' '24000     VD' A-17 9783442756841EN
    saved_line '43210     VD' '24001     VD' A-17 9783442756841EN
    saved_line '43210     VD' '24000     SA' A-17 9783442756841EN
}
slip='\00224000     VD43210     VD2024022670012345  0001\000\000\004\000'
{ near; printf "$slip"'\000\006\000\001\000'; } >near.book
run book --accept-book near.book
expect_code 0 "lines that share a part of a key"
{ near; line_of A-17 '12345678     KN'; printf "$slip"'\000\007\000\001\000'; } >pairs.book
shared A-17 "9783442756841 EN" "12345678 KN" >wanted_err
refused_pairs "two orders with one reference"
odd=$(printf 'A\033[2J')
{ line_of A-17 9783442756841EN; line_of "$odd" '12345678     KN'; line_of A-17 '12345678     KN'
  line_of A-17 9783442756841UM; line_of "$odd" 9783442756841EN; } >pairs.book
{ shared A-17 "9783442756841 EN" "12345678 KN"; shared A-17 "9783442756841 EN" "9783442756841 UM"
  shared 'A\x1B[2J' "12345678 KN" "9783442756841 EN"; } >wanted_err
refused_pairs "several orders with one reference, without an end"
line_of A-17 '12345678     KN' >second
{ near; head -c 52 second; } >half.book
{ near; tr '\001' '\003' <second; printf '\000\007\000\000\000'; } >kind.book
for book in half kind; do
    damaged_accepted $book.book "22: the book is damaged; it is left untouched" "no second line in $book.book"
    expect_not "stands in this book" err "no second line in $book.book"
done

# --- a book taken on purpose -----------------------------------------------------------------------------------
run book --accept-book lonely.book
expect_code 0 "accepting without a file"
expect_err "it is taken on purpose" "accepting without a file"
expect_same lonely.book first.book "accepting without a file"
run list lonely.book
expect_code 0 "an accepted book is known"
expect_silent "an accepted book is known"
run book --accept-book lonely.book
expect_code 0 "accepting a known book"
expect_silent "accepting a known book"
cp schools.book lonely.book
run book --accept-book lonely.book four.bwa
expect_code 0 "accepting and booking"
expect_same lonely.book after.book "accepting and booking"
expect_same lonely.book.old schools.book "accepting and booking"

# --- a file whose bytes were booked before -----------------------------------------------------------------------
put "$X" "$(report 010J)" >monday.bwa
put "$(report 015N)" >tuesday.bwa
run book --new twice.book monday.bwa
copy_book twice.book monday.book
run book twice.book tuesday.bwa
expect_code 0 "tuesday"
cp twice.book tuesday.book
cp monday.bwa fetched.bwa
run book twice.book fetched.bwa
expect_code 1 "monday's file once more"
expect_err "fetched.bwa: left out: these bytes were booked at 20" "monday's file once more"
expect_out "files booked before, and left out: 1" "monday's file once more"
expect_same twice.book tuesday.book "monday's file once more"
timeout 30 "$host" book twice.book - <monday.bwa >out 2>err; code=$?
expect_code 1 "monday's file on standard input"
expect_same twice.book tuesday.book "monday's file on standard input"
run book twice.book delivery.bwa monday.bwa delivery.bwa
expect_code 1 "booked before, between others"
expect_answers "1 L101 0 10 4 0 6 0" "booked before, between others"
[ "$(grep -c 'left out' err)" -eq 2 ] || fail "booked before, between others: not both are left out"
pass
copy_book twice.book again.book
run book --again again.book monday.bwa
expect_code 1 "monday's file again"
expect_answers "1 B101 14
2 M101 0 10 4 6 0 0" "monday's file again"

# --- an older book put back: what came after it is not in it --------------------------------------------------------
copy_book twice.book back.book
cp back.book.old back.book
run book back.book delivery.bwa
expect_code 0 "an older book put back"
expect_err "they do not count for this book" "an older book put back"
expect_same back.book twice.book "an older book put back"
run book back.book delivery.bwa
expect_code 1 "and booked again"
expect_err "left out" "and booked again"
expect_not "do not count" err "and booked again"
run book back.book tuesday.bwa
expect_err "left out" "what came before it counts"
cp monday.book back.book
run book back.book tuesday.bwa
expect_code 0 "a much older book put back"
expect_same back.book tuesday.book "a much older book put back"
run book back.book monday.bwa
expect_err "left out" "what came before a much older book counts"
run book back.book delivery.bwa
expect_code 0 "what came after a much older book does not count"
rm back.book
run book --new back.book monday.bwa
expect_code 0 "a new book after an old one of its name"
expect_same back.book monday.book "a new book after an old one of its name"

# --- the log is lost, or a book is taken on purpose -----------------------------------------------------------------
copy_book twice.book lost.book
rm lost.book.log
run book lost.book tuesday.bwa
expect_code 0 "the log is lost"
expect_err "does not tell this book's whole past" "the log is lost"
copy_book twice.book taken.book
cp schools.book taken.book
run book --accept-book taken.book monday.bwa
expect_code 1 "a book taken on purpose"
expect_err "left out" "files count for a book taken on purpose"
expect_not "whole past" err "a book taken on purpose"
printf 'damage \000 and no end' >>taken.book.log
printf 'damage \000 and no end' >>taken.book.digests
run book taken.book five.bwa
expect_code 0 "a log and digests with damage at their end"
run book taken.book five.bwa
expect_err "left out" "a log and digests with damage at their end"
