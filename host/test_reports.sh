# What the list says of each line's last report, in the run that booked it and in later ones.

report_on() {   # reference, message and hold mark, expected date
    printf 'M10124000     VD43210     VD70012345  %-10s9783442756841EN%s%8s0000*9999' "$1" "$2" "$3"
}
orders() { for reference; do put "$(order "$reference" 0010 '')"; done; }
part_of() { delivery "$2" "$3" | sed "s/A-17      /$(printf '%-10s' "$1")/"; }     # reference, position, copies
expect_rows() { # what it is; the rows without their article on standard input
    rows | sed 's/  */ /g;s/ 9783442756841 EN//' >got
    cat >wanted
    expect_text got wanted "$1"
}

# --- a day, zeros or blanks; each message is three digits, and 000 is one -------------------------------
orders Z-1 R-3 R-1 R-2 R-6 R-5 R-4 R-9 R-8 R-7 R-10 >reports.bwa
put "$(report_on R-1 000J 20240315)" "$(report_on R-2 000J 00000000)" "$(report_on R-3 000J '')" \
    "$(report_on R-4 007N 00010203)" "$(report_on R-5 015N 00000000)" "$(report_on R-6 099N '')" \
    "$(report_on R-7 100J 99991231)" "$(report_on R-8 999J 20240229)" "$(report_on R-9 010N 20241110)" \
    "$(report_on R-10 999N 10000101)" >>reports.bwa
run book --new reports.book reports.bwa
expect_code 0 "reports"
sed -n '/^School/,/^$/p' out >got
cat >list <<'LIST'
School 43210 VD
  to do          supplier      reference   article           ordered   filled     open  mark   let go    extra  message  expected      meaning
  chase 10       24000 VD      R-1         9783442756841 EN       10        0       10     J        0        0  000      20240315      available
  reorder 10     24000 VD      R-10        9783442756841 EN       10        0        0     N       10        0  999      10000101      not in the wholesalers' lists
  chase 10       24000 VD      R-2         9783442756841 EN       10        0       10     J        0        0  000      no day named  available
  chase 10       24000 VD      R-3         9783442756841 EN       10        0       10     J        0        0  000      no day named  available
  reorder 10     24000 VD      R-4         9783442756841 EN       10        0        0     N       10        0  007      00010203      out of print, order filed away
  reorder 10     24000 VD      R-5         9783442756841 EN       10        0        0     N       10        0  015      no day named  out of stock for a short time, order kept
  reorder 10     24000 VD      R-6         9783442756841 EN       10        0        0     N       10        0  099      no day named  order line cancelled
  chase 10       24000 VD      R-7         9783442756841 EN       10        0       10     J        0        0  100      99991231      not in the wholesalers' lists
  chase 10       24000 VD      R-8         9783442756841 EN       10        0       10     J        0        0  999      20240229      not in the wholesalers' lists
  reorder 10     24000 VD      R-9         9783442756841 EN       10        0        0     N       10        0  010      20241110      out of stock for a short time, order not kept
  chase 10       24000 VD      Z-1         9783442756841 EN       10        0       10     -        0        0  no report yet
  total: 11 lines                                                110        0       60             50        0

LIST
expect_text got list "the list of reports"
sed -n 's/^reports.bwa:[0-9]* M101 0 done | .*, \(message .*\) | ordered .*/\1/p' out >got
cat >wanted <<'ANSWERS'
message 000, hold mark J, expected date 20240315
message 000, hold mark J, expected date 00000000
message 000, hold mark J, expected date blank
message 007, hold mark N, expected date 00010203
message 015, hold mark N, expected date 00000000
message 099, hold mark N, expected date blank
message 100, hold mark J, expected date 99991231
message 999, hold mark J, expected date 20240229
message 010, hold mark N, expected date 20241110
message 999, hold mark N, expected date 10000101
ANSWERS
expect_text got wanted "the reports themselves"

# --- the book keeps what the reports said: the next run lists the same ---------------------------------
cp -p reports.book kept
run list reports.book
expect_code 0 "a list in the next run"
expect_silent "a list in the next run"
sed -n '/^School/,/^$/p' out >got
expect_text got list "a list in the next run"
expect_same reports.book kept "a list in the next run"

# --- a later run: what its reports say stands in place of what was said, all else stays ----------------
put "$(part_of R-1 0001 0004)" "$(report_on R-2 015J 20240401)" "$(part_of R-4 0002 0010)" "$(part_of R-6 0003 0012)" \
    "$(report_on Z-1 000N '')" "$(report_on R-9 000N 00000000)" "$(part_of R-9 0004 0001)" "$(order Z-2 0003 '')" >tuesday.bwa
run book reports.book tuesday.bwa
expect_code 0 "reports of a later run"
expect_rows "reports of a later run" <<LIST
 chase 6 24000 VD R-1 10 4 6 J 0 0 000 20240315 available
 reorder 10 24000 VD R-10 10 0 0 N 10 0 999 10000101 not in the wholesalers' lists
 chase 10 24000 VD R-2 10 0 10 J 0 0 015 20240401 out of stock for a short time, order kept
 chase 10 24000 VD R-3 10 0 10 J 0 0 000 no day named available
 reorder 10 24000 VD R-5 10 0 0 N 10 0 015 no day named out of stock for a short time, order kept
 return 2 24000 VD R-6 10 10 0 N 0 2 099 no day named order line cancelled
 chase 10 24000 VD R-7 10 0 10 J 0 0 100 99991231 not in the wholesalers' lists
 chase 10 24000 VD R-8 10 0 10 J 0 0 999 20240229 not in the wholesalers' lists
 reorder 9 24000 VD R-9 10 1 0 N 9 0 000 no day named available
 reorder 10 24000 VD Z-1 10 0 0 N 10 0 000 no day named available
 chase 3 24000 VD Z-2 3 0 3 - 0 0 no report yet
LIST
cp wanted rows
run list reports.book
expect_code 0 "the run after a later run"
expect_rows "the run after a later run" <rows
run book --again reports.book tuesday.bwa
expect_rows "reports booked again" <rows

# --- the last report counts, whatever came before it; all files of a run count as one ------------------
orders L-1 L-2 L-3 L-4 L-5 L-6 >first.bwa
put "$(report_on L-1 015J 20240315)" "$(report_on L-2 015J '')" "$(report_on L-3 010N 20240315)" "$(report_on L-4 000J 20240315)" \
    "$(report_on L-5 015J 20240315)" "$(report_on L-6 015J 20240315)" "$(report_on L-1 022J '')" "$(report_on L-2 022J 20240402)" >>first.bwa
put "$(report_on L-3 034J 00000000)" "$(report_on L-4 000J 20250630)" "$(part_of L-5 0001 0004)" "$(report_on L-6 015N 20240315)" \
    "$(part_of L-6 0002 0003)" "$(report_on L-3 034J 00000000)" >second.bwa
run book --new last.book first.bwa second.bwa
expect_code 0 "the last report"
expect_rows "the last report" <<'LIST'
 chase 10 24000 VD L-1 10 0 10 J 0 0 022 no day named order for a set day is kept
 chase 10 24000 VD L-2 10 0 10 J 0 0 022 20240402 order for a set day is kept
 chase 10 24000 VD L-3 10 0 10 J 0 0 034 no day named publication uncertain, order kept
 chase 10 24000 VD L-4 10 0 10 J 0 0 000 20250630 available
 chase 6 24000 VD L-5 10 4 6 J 0 0 015 20240315 out of stock for a short time, order kept
 reorder 7 24000 VD L-6 10 3 0 N 7 0 015 20240315 out of stock for a short time, order kept
LIST

# --- a delivery that fills the line hides it, one that passes it does not; a report after that tells ----
put "$(part_of L-1 0003 0010)" "$(part_of L-2 0004 0011)" "$(part_of L-3 0005 0011)" "$(report_on L-3 001J 20240505)" \
    "$(report_on L-1 001J 20240505)" "$(report_on L-4 999N '')" >full.bwa
run book last.book full.bwa
expect_code 0 "reports on full lines"
expect_rows "reports on full lines" <<LIST
 return 1 24000 VD L-2 10 10 0 J 0 1 022 20240402 order for a set day is kept
 return 1 24000 VD L-3 10 10 0 J 0 1 001 20240505 available within 14 days, order kept
 reorder 10 24000 VD L-4 10 0 0 N 10 0 999 no day named not in the wholesalers' lists
 chase 6 24000 VD L-5 10 4 6 J 0 0 015 20240315 out of stock for a short time, order kept
 reorder 7 24000 VD L-6 10 3 0 N 7 0 015 20240315 out of stock for a short time, order kept
LIST
expect_out "complete: 1 line " "reports on full lines"

# --- a refused report says nothing, and a report speaks for its own line alone ---------------------------
{ orders S-1 S-2; put "$(order S-1 0010 '' | sed 's/43210/43211/')" "$(order S-1 0010 '' | sed 's/24000/24001/')"
  put "$(report_on S-1 015J 20240315)" "$(report_on S-1 010N 20230229)" "$(report_on S-1 01xN '')" \
    "$(report_on S-9 010N 20240401)" "$(report_on '' 010N 20240401)" "$(report_on S-1 010N 20240401 | sed 's/43210/43212/')" \
    "$(report_on S-1 010X 20240401)" "$(report_on S-1 010N '20240401*99')"; } >single.bwa
run book --new single.book single.bwa
expect_code 1 "refused reports"
expect_out "records: 5 booked, 0 with nothing to book, 7 refused" "refused reports"
expect_rows "refused reports" <<'LIST'
 chase 10 24000 VD S-1 10 0 10 J 0 0 015 20240315 out of stock for a short time, order kept
 chase 10 24000 VD S-2 10 0 10 - 0 0 no report yet
 chase 10 24001 VD S-1 10 0 10 - 0 0 no report yet
 chase 10 24000 VD S-1 10 0 10 - 0 0 no report yet
LIST

# --- another message with the same mark, or another day, is another book ---------------------------------
sed 's/015 20240315 .*/022 no day named order for a set day is kept/' wanted >rows
cp -p single.book kept
cp -p single.book.log kept_log
put "$(report_on S-1 022J '')" >other.bwa
run book single.book other.bwa
expect_code 0 "another message"
expect_rows "another message" <rows
expect_same single.book.old kept "another message"
[ "$(wc -l <single.book.log)" -eq $(($(wc -l <kept_log) + 1)) ] || fail "another message: not one line more in the log"
pass
run list single.book
expect_rows "another message, in the next run" <rows
cp -p single.book kept
put "$(report_on S-1 022J 20240501)" >another.bwa
run book single.book another.bwa
expect_code 0 "another day"
expect_same single.book.old kept "another day"
sed 's/022 no day named/022 20240501/' rows >later
run list single.book
expect_rows "another day, in the next run" <later

# --- a report that says the same once more leaves the saved book as it is; the log names its file ---------
cp -p single.book kept
cp -p single.book.old kept_old
cp -p single.book.log kept_log
put "$(report_on S-1 022J 20240501)" "$(report_on S-1 022J 20240501)" >same.bwa
run book single.book same.bwa
expect_code 0 "the same message"
expect_same single.book kept "the same message"
expect_same single.book.old kept_old "the same message"
[ "$(wc -l <single.book.log)" -eq $(($(wc -l <kept_log) + 1)) ] || fail "the same message: not one line more in the log"
pass
