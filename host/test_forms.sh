# Books of the old form: they are read as they are, and saved in the new form.

# --- saved entries as bytes; numbers and marks are written as printf's escapes --------------------------
old_line() { printf '\00143210     VD24000     VD%-10s9783442756841EN'"$2" "$1"; }              # reference; ordered, mark
new_line() { printf '\00343210     VD24000     VD%-10s9783442756841EN'"$2%8s" "$1" "$3"; }      # the same, message; expected date
saved_slip() { printf '\00224000     VD43210     VD2024022670012345  %s'"$2" "$1"; }            # position; line, copies
saved_end() { printf '\000'"$1"; }                                                              # lines, slips
know() { { head -n 1 first.book.digests; echo "$(digest "$1") 2024-02-19T08:00:00Z"; } >"$1.digests"; }
expect_list() { # what it is; the rows on standard input
    rows >got
    cat >wanted
    expect_text got wanted "$1"
}
now_new="the book was of the old form and is now of the new one, which keeps messages"

none='\012\000\000' held='\012\000\001' let_go='\003\000\002'
absent='\377\377' unknown='\376\377'
old_lines() { old_line R-1 "$none"; old_line R-2 "$held"; old_line R-3 "$let_go"; }
new_lines() { new_line R-1 "$none$absent" ''; new_line R-2 "$held$unknown" ''; new_line R-3 "$let_go$unknown" ''; }
one_slip() { saved_slip 0001 '\001\000\004\000'; }
{ old_lines; one_slip; saved_end '\003\000\001\000'; } >old_form
{ new_lines; one_slip; saved_end '\003\000\001\000'; } >new_form

# --- an old book is listed and taken on purpose, and stays as it is -------------------------------------
cp old_form former.book
refused_book former.book "there are no digests beside this book" "an old book from elsewhere"
run book --accept-book former.book
expect_code 0 "an old book taken on purpose"
expect_same former.book old_form "an old book taken on purpose"
expect_not "old form" err "an old book taken on purpose"
cat >rows <<'LIST'
  chase 10       24000 VD      R-1         9783442756841 EN       10        0       10     -        0        0  no report yet
  chase 6        24000 VD      R-2         9783442756841 EN       10        4        6     J        0        0  -        not known (old book)
  reorder 3      24000 VD      R-3         9783442756841 EN        3        0        0     N        3        0  -        not known (old book)
LIST
expect_list "an old book taken on purpose" <rows
state_of_book() {   # all that stands beside a book, with its bytes
    for beside in '' .old .digests .log .lock; do
        [ ! -e "$1$beside" ] || { stat -L -c '%n %i %a %s %y' "$1$beside"; cat "$1$beside"; }
    done
}
state_of_book former.book >state
run list former.book
expect_code 0 "a list of an old book"
expect_silent "a list of an old book"
expect_list "a list of an old book" <rows
state_of_book former.book >got
expect_same got state "a list of an old book"
cp new_form new_too.book
run book --accept-book new_too.book
expect_list "the same book in the new form" <rows
expect_not "old form" err "the same book in the new form"

# --- a run that books saves it in the new form, and says so once ----------------------------------------
copy_book former.book grown.book
put "$(part_of R-1 0002 0002)" >two_copies.bwa
sed 's/       10        0       10 /       10        2        8 /;s/chase 10 /chase 8  /' rows >rows_after
run book grown.book two_copies.bwa
expect_code 0 "booking into an old book"
expect_err "grown.book: $now_new" "booking into an old book"
[ "$(grep -c 'old form' err)" -eq 1 ] || fail "booking into an old book: its form is not told once"
pass
{ new_lines; one_slip; saved_slip 0002 '\000\000\002\000'; saved_end '\003\000\002\000'; } >wanted_book
expect_same grown.book wanted_book "booking into an old book"
expect_same grown.book.old old_form "booking into an old book"
expect_list "booking into an old book" <rows_after
run list grown.book
expect_code 0 "an old book in the next run"
expect_silent "an old book in the next run"
expect_list "an old book in the next run" <rows_after
put "$(report_on R-2 015J 20240315)" "$(report_on R-1 000N 00000000)" >messages.bwa
run book grown.book messages.bwa
expect_code 0 "messages in a book that was old"
expect_not "old form" err "messages in a book that was old"
{ new_line R-1 '\012\000\002\000\000' 00000000; new_line R-2 "$held"'\017\000' 20240315; new_line R-3 "$let_go$unknown" ''
  one_slip; saved_slip 0002 '\000\000\002\000'; saved_end '\003\000\002\000'; } >messages.book
expect_same grown.book messages.book "messages in a book that was old"
run list grown.book
expect_list "messages in a book that was old" <<'LIST'
  reorder 8      24000 VD      R-1         9783442756841 EN       10        2        0     N        8        0  000      no day named  available
  chase 6        24000 VD      R-2         9783442756841 EN       10        4        6     J        0        0  015      20240315      out of stock for a short time, order kept
  reorder 3      24000 VD      R-3         9783442756841 EN        3        0        0     N        3        0  -        not known (old book)
LIST

# --- what was booked into the old book is known in the new one; the old one can be put back -------------
run book grown.book two_copies.bwa
expect_code 1 "a file booked into the old book"
expect_err "two_copies.bwa: left out" "a file booked into the old book"
expect_not "whole past" err "a file booked into the old book"
copy_book former.book back.book
run book back.book two_copies.bwa
cp back.book.old back.book
run list back.book
expect_code 0 "an old book put back"
expect_list "an old book put back" <rows
run book back.book two_copies.bwa
expect_code 0 "an old book put back, booked again"
expect_err "$now_new" "an old book put back, booked again"
expect_same back.book wanted_book "an old book put back, booked again"
run book back.book two_copies.bwa
expect_not "old form" err "an old book that is of the new form now"

# --- a run that leaves its files out leaves the form, one that refuses all records does not --------------
copy_book former.book same.book
put "$(report_on R-9 010N '')" >nobody.bwa
run book same.book nobody.bwa
expect_code 1 "refused records in an old book"
expect_err "$now_new" "refused records in an old book"
expect_same same.book new_form "refused records in an old book"
cp same.book.old same.book
grep -v "file $(digest nobody.bwa)" same.book.log >kept_log
printf '2024-02-19T08:00:00Z from any to %s: file %s, 0 booked, 0 with nothing to book, 1 refused, no roster: nobody.bwa\n' \
    "$(digest old_form | cut -c 1-16)" "$(digest nobody.bwa)" >>kept_log
cp kept_log same.book.log
run book same.book nobody.bwa
expect_code 1 "a file left out of an old book"
expect_err "nobody.bwa: left out" "a file left out of an old book"
expect_same same.book old_form "a file left out of an old book"
expect_not "old form" err "a file left out of an old book"

# --- what is no book: both forms in one, a report that is none, two lines with one key -------------------
no_book() {     # what it is; none.book holds it
    rm -f none.book.*
    damaged_accepted none.book "22: the book is damaged; it is left untouched" "$1"
    expect_not "stands in this book" err "$1"
}
{ old_line R-1 "$none"; new_line R-2 "$held$unknown" ''; saved_end '\002\000\000\000'; } >none.book
no_book "an old line, then a new one"
{ new_line R-1 "$none$absent" ''; old_line R-2 "$held"; saved_end '\002\000\000\000'; } >none.book
no_book "a new line, then an old one"
{ new_line R-1 "$none$absent" ''; new_line R-1 "$none$absent" ''; saved_end '\002\000\000\000'; } >none.book
no_book "two new lines with one key"
while read -r line expected what; do
    { new_line R-1 "$line" "${expected#-}"; saved_end '\001\000\000\000'; } >none.book
    no_book "$what"
done <<'LINES'
\012\000\000\376\377 - an unknown message without a mark
\012\000\001\377\377 - a mark without a message
\012\000\001\350\003 - message 1000
\012\000\001\017\000 20230229 a day that is none
\012\000\001\376\377 20240315 an unknown message with a day
LINES

# --- full books: 512 lines of the old form, and the longest book of the new ------------------------------
{ head -c $((512 * 53)) lines; saved_end '\000\002\000\000'; } >brim.book
know brim.book
put "$(delivery 0001 0001 | sed 's/A-17  /A-1511/')" >single_copy.bwa
run book brim.book single_copy.bwa
expect_code 0 "a full book of the old form"
[ "$(wc -c <brim.book)" -eq $((512 * 63 + 51 + 5)) ] || fail "a full book of the old form: its length is $(wc -c <brim.book)"
pass
many 1 511 >brim.bwa
awk 'BEGIN { for (n = 1; n <= 1024; n++)
    printf "L10124000     VD43210     VD2024022670012345  %04dA-1       9783442756841EN0001000000000129500LPEUR003000001*9999\r\n", n }' >>brim.bwa
put "$(order Z-1 0002 '')" "$(report_on Z-1 999J 99991231)" >>brim.bwa
run book --new longest.book brim.bwa
expect_code 0 "the longest book"
[ "$(wc -c <longest.book)" -eq 84485 ] || fail "the longest book: its length is $(wc -c <longest.book)"
pass
run list longest.book
expect_code 0 "the longest book loads"
expect_out "used: 512 of 512 lines, 1024 of 1024 slips" "the longest book loads"
rows | grep '^  chase 2        24000 VD      Z-1 ' | grep -q ' 999      99991231 ' || fail "the longest book loads: no message of its last line"
pass
