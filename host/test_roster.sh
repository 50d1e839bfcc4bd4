# The roster of schools: its file, answers 24 and 25, the table of ceilings, and no roster.

table() { sed -n '/^Open copies against/,/^  on the roster/p' out; }
expect_table() {    # the rows, without the two lines of the head; what it is
    table | sed 1,2d >got
    printf '%s\n' "$1" >wanted
    expect_text got wanted "$2"
}
complaints() { for words; do echo "wizqamul-host: $words"; done; }
silence="no roster was named"

# --- the example day with its roster: the same answers, and the table behind the list ---------
cp "$parts/../examples/roster.txt" roster.txt
run book --new --roster roster.txt listed.book day.bwa
expect_code 1 "a day with a roster"
table >got
cat >wanted <<'TABLE'
Open copies against the ceilings of roster.txt
  school               open    ceiling
  40017 VD                4         60  56 left
  43210 VD                1         40  39 left
  43211 VD                2          8  6 left
  on the roster: 3 of 64 schools
TABLE
expect_text got wanted "the table of a day"
sed '/^Open copies against/,/^$/d' out >got
expect_text got "$parts/test_day.txt" "a day with a roster"
expect_same listed.book day.book "a day with a roster"
expect_not "$silence" err "a day with a roster"
tail -n 1 listed.book.log | grep -q " 9 refused, roster $(digest roster.txt | cut -c 1-16): day.bwa\$" ||
    fail "a day with a roster: the log does not name the roster"
pass

# --- a file with all its liberties, listed alone ------------------------------------------------
printf '\357\273\277# The desk\r\n43210 VD 20\r\n\r\n \t43211\tVD \t 0000000015\t # second 1\n   \n40017 IB 0#none\rABCDEFGHI9 SA 4294967295 \n#\nZ VD 00000000000000000007' >free.txt
run book --new --roster free.txt none.book
expect_code 0 "a new book with a roster"
expect_not "$silence" err "a new book with a roster"
rows='  40017 IB                0          0  FULL
  43210 VD                0         20  20 left
  43211 VD                0         15  15 left
  ABCDEFGHI9 SA           0 4294967295  4294967295 left
  Z VD                    0          7  7 left
  on the roster: 5 of 64 schools'
expect_table "$rows" "a new book with a roster"
run list --roster free.txt none.book
expect_code 0 "a roster with all liberties"
expect_silent "a roster with all liberties"
expect_table "$rows" "a roster with all liberties"
cp free.txt "$(printf 'a\033b.txt')"
run list --roster "$(printf 'a\033b.txt')" none.book
expect_out 'the ceilings of a\x1Bb.txt' "the name of a roster"
run list none.book
expect_not "Open copies against" out "a list without a roster"

# --- each way to be wrong: nothing is done, and the book stands ---------------------------------
wrong_roster() {    # what it is; then what is said of the file wrong.txt, line by line
    what=$1
    shift
    rm -f wrong.book.lock
    run book --roster wrong.txt wrong.book order.bwa
    expect_code 2 "$what"
    complaints "$@" "wrong.book: nothing was done, since the roster cannot be used" >wanted
    expect_text err wanted "$what"
    [ ! -s out ] || fail "$what: something is printed"
    expect_same wrong.book none.book "$what"
    expect_none wrong.book.lock "$what"
}
wrong_line() {      # the line; then what is said of it
    line=$1
    printf '# schools\r\n43210 VD 20\n%s\n43211 VD 15\n' "$line" >wrong.txt
    shift
    for words; do shift; set -- "$@" "wrong.txt: line 3: $words"; done
    wrong_roster "the line $line" "$@"
}
copy_book none.book wrong.book
for words in "1 43212" "2 43212 VD" "2 43212 100" "2 43212 VD # 100" "4 43212 VD 1 000" "5 43 212 VD 100 copies"; do
    wrong_line "${words#* }" "${words%% *} instead of 3 words (address, qualifier and ceiling)"
done
wrong_line "12345678901 VD 100" "the address 12345678901 is longer than 10 letters"
wrong_line "12345678901234 VD 100" "the address 1234567890123.. is longer than 10 letters"
for address in 4321a 4321/ 4321: 4321@ 4321[ -43210 43210,; do
    wrong_line "$address VD 100" "the address $address holds something other than capital letters and digits"
done
wrong_line "$(printf '43\002\374 VD 100')" "the address $(printf '43\\x02\303\274') holds something other than capital letters and digits"
for qualifier in vd V VDX EN VB; do
    wrong_line "43212 $qualifier 100" "the qualifier $qualifier is none of VD, IB and SA"
done
for ceiling in -1 +5 5.000 1e3 0x10 100: 100/; do
    wrong_line "43212 VD $ceiling" "the ceiling $ceiling is not a number of digits alone"
done
wrong_line "43212 VD 4294967296" "the ceiling 4294967296 is above the highest, 4294967295"
wrong_line "43212 VD 18446744073709551617" "the ceiling 1844674407370.. is above the highest, 4294967295"
wrong_line "4321a vd x" "the address 4321a holds something other than capital letters and digits" \
    "the qualifier vd is none of VD, IB and SA" "the ceiling x is not a number of digits alone"
printf '\r\n\r\n43210 VD\r43211 VD x\n\n# x\n43212 VD 5\n43212 VD 6\n43213 vd 7' >wrong.txt
wrong_roster "several wrong lines" "wrong.txt: line 3: 2 instead of 3 words (address, qualifier and ceiling)" \
    "wrong.txt: line 4: the ceiling x is not a number of digits alone" \
    "wrong.txt: line 8: 43212 VD with ceiling 6 does not count, since it stands on line 7 already, with ceiling 5" \
    "wrong.txt: line 9: the qualifier vd is none of VD, IB and SA"
printf '\377\3764\0003\000' >wrong.txt
wrong_roster "UTF-16" "wrong.txt: this is UTF-16 text; save it as UTF-8 or plain text"
printf '\376\377\0004\0003' >wrong.txt
wrong_roster "UTF-16, turned" "wrong.txt: this is UTF-16 text; save it as UTF-8 or plain text"
wrong_lines() { awk -v count="$1" 'BEGIN { for (n = 1; n <= count; n++) print n % 2 ? "x" : "43210 VD x" }'; }
wrong_lines 64 >wrong.txt
run book --roster wrong.txt wrong.book order.bwa
[ "$(grep -c '^wizqamul-host: wrong.txt: line ' err)" -eq 64 ] || fail "64 wrong lines: not all are told"
expect_not "more lines are wrong" err "64 wrong lines"
wrong_lines 67 >wrong.txt
run book --roster wrong.txt wrong.book order.bwa
[ "$(grep -c '^wizqamul-host: wrong.txt: line ' err)" -eq 64 ] || fail "67 wrong lines: not the first 64 are told"
expect_err "wrong.txt: 3 more lines are wrong" "67 wrong lines"
run book --new --roster wrong.txt absent.book order.bwa
expect_code 2 "a new book with a wrong roster"
expect_none absent.book "a new book with a wrong roster"
run list --roster wrong.txt wrong.book
expect_code 2 "a list with a wrong roster"
expect_not "total" out "a list with a wrong roster"

# --- files that cannot be read --------------------------------------------------------------------
no_roster() {       # the file; what is said of it
    run book --roster "$1" wrong.book order.bwa
    expect_code 2 "$1 as a roster"
    expect_err "$1: $2" "$1 as a roster"
    expect_err "wrong.book: nothing was done, since the roster cannot be used" "$1 as a roster"
    expect_same wrong.book none.book "$1 as a roster"
}
no_roster absent.txt "cannot open: No such file or directory"
no_roster . "cannot read: it is a directory"
for ending in '' .digests .log; do
    no_roster wrong.book$ending "this is the book or a file that belongs to it"
done
{ cat free.txt; printf '\n'; head -c 1048576 /dev/zero | tr '\000' '#'; } >huge.txt
no_roster huge.txt "cannot read to the end: File too large"
head -c 1048576 huge.txt >large.txt
run list --roster large.txt none.book
expect_code 0 "a very large roster"
if [ "$clerk" != none ]; then
    cp free.txt shut.txt
    chmod 000 shut.txt
    run_as_clerk list --roster shut.txt none.book
    expect_code 2 "a roster that may not be read"
    expect_err "shut.txt: cannot open: Permission denied" "a roster that may not be read"
fi

# --- 64 schools, and more -----------------------------------------------------------------------------
schools() { awk -v count="$1" 'BEGIN { print "# schools"; for (n = 1; n <= count; n++) print 43000 + n, "VD", n }'; }
put "$(order A-1 0001 '' | sed 's/43210/43001/')" "$(order A-1 0064 '' | sed 's/43210/43064/')" \
    "$(order A-2 0001 '' | sed 's/43210/43064/')" >ends.bwa
schools 64 >most.txt
run book --new --roster most.txt most.book ends.bwa
expect_answers "1 B101 0 1 0 1 0 0
2 B101 0 64 0 64 0 0
3 B101 25" "64 schools"
expect_out "on the roster: 64 of 64 schools" "64 schools"
expect_not "most.txt" err "64 schools"
schools 66 >wrong.txt
wrong_roster "66 schools" "wrong.txt: there are 66 schools in this file, and a roster has at most 64; line 66 has the first one too many"
schools 65 >wrong.txt
wrong_roster "65 schools" "wrong.txt: there are 65 schools in this file, and a roster has at most 64; line 66 has the first one too many"
{ cat most.txt; echo "43001 VD 99"; } >most_twice.txt
run list --roster most_twice.txt most.book
expect_code 1 "64 schools, one of them twice"
expect_out "on the roster: 64 of 64 schools; lines that do not count: 1" "64 schools, one of them twice"

# --- an account that stands twice: the first line counts ----------------------------------------------
printf '43210 VD 12\n43211 VD 15\n43210 VD 100\n43210 IB 3\n43210 VD 0\n' >twice.txt
put "$(order A-1 0012 '')" "$(order A-2 0001 '')" "$(order A-1 0003 '' | sed 's/43210     VD/43210     IB/')" >twelve.bwa
put "$(order A-1 0012 '')" >only.bwa
run book --new --roster twice.txt double.book twelve.bwa
complaints "twice.txt: line 3: 43210 VD with ceiling 100 does not count, since it stands on line 1 already, with ceiling 12" \
    "twice.txt: line 5: 43210 VD with ceiling 0 does not count, since it stands on line 1 already, with ceiling 12" >wanted
grep -F twice.txt err >got
expect_text got wanted "an account twice"
expect_answers "1 B101 0 12 0 12 0 0
2 B101 25
3 B101 0 3 0 3 0 0" "an account twice"
expect_table '  43210 IB                3          3  FULL
  43210 VD               12         12  FULL
  43211 VD                0         15  15 left
  on the roster: 3 of 64 schools; lines that do not count: 2' "an account twice"
run book --new --roster twice.txt double2.book only.bwa
expect_out "records: 1 booked, 0 with nothing to book, 0 refused" "an account twice, all booked"
expect_code 1 "an account twice, all booked"
run list --roster twice.txt double2.book
expect_code 1 "an account twice, listed"

# --- 24: the account is not on the roster, for each kind ------------------------------------------------
cat >similar.txt <<'ROSTER'
43201 IB 9
43210 VD 9
43210 IB 9
43211 VD 9
43212 VD 9
43220 VD 9
43102 VD 9
93201 VD 9
4320 VD 9
34201 VD 9
432010 VD 9
43025 VD 9
24000 VD 9
ROSTER
slip() { sed 's/43210/43201/'; }
put "$(order A-17 0010 '' | slip)" "$(delivery 0001 0004 | slip)" "$(report 010N | slip)" "$(order A-17 0001 '')" \
    "$(order A-17 0001 '' | sed 's/43210/ABCDE/')" "$(order A-17 0000 '' | slip)" \
    "$(delivery 0001 0004 | slip | sed 's/70012345/        /')" >slip.bwa
put "$(order A-17 0010 '' | slip)" >slip_order.bwa
run book --new typed.book slip_order.bwa
run book --roster similar.txt typed.book slip.bwa
expect_code 1 "not on the roster"
like="43201 VD is not on the roster; similar there: 43201 IB, 43210 VD, 43211 VD, 93201 VD, 4320 VD, 34201 VD, 432010 VD"
sed '/^records:/q' out >got
cat >wanted <<ANSWERS
slip.bwa:1 B101 24 the school is not on the roster | school 43201 VD, supplier 24000 VD, reference A-17, $item, quantity 0010 | $like
slip.bwa:2 L101 24 the school is not on the roster | supplier 24000 VD, school 43201 VD, date 20240226, slip number 70012345, position 0001, reference A-17, $item, quantity 0004 | $like
slip.bwa:3 M101 24 the school is not on the roster | supplier 24000 VD, school 43201 VD, slip number 70012345, reference A-17, $item, message 010, hold mark N, expected date blank | $like
slip.bwa:4 B101 0 done | school 43210 VD, supplier 24000 VD, reference A-17, $item, quantity 0001 | ordered 1, filled 0, open 1, let go 0, extra 0
slip.bwa:5 B101 24 the school is not on the roster | school ABCDE VD, supplier 24000 VD, reference A-17, $item, quantity 0001 | ABCDE VD is not on the roster
slip.bwa:6 B101 11 the quantity is 0 | school 43201 VD, supplier 24000 VD, reference A-17, $item, quantity 0000
slip.bwa:7 L101 13 closing record or advance notice: nothing to book | supplier 24000 VD, school 43201 VD, date 20240226, slip number blank, position 0001, reference A-17, $item, quantity 0004
records: 1 booked, 1 with nothing to book, 5 refused
ANSWERS
expect_text got wanted "not on the roster"
sed -n '/^Refused records, once more: 5$/,$p' out | sed 1d >got
grep ' \(24\|11\) ' wanted >again
expect_text got again "not on the roster, repeated at the end"
table >got
grep -qx '  43201 VD               10          -  NOT ON THE ROSTER' got || fail "a school that is not on the roster: not in the table"
grep -qx '  43210 VD                1          9  8 left' got || fail "a school of the roster: not in the table"
pass

# --- the slip set right: the file is left out, --again books what was refused -----------------------------
echo "43201 VD 50" >>similar.txt
run book --roster similar.txt typed.book slip.bwa
expect_code 1 "a corrected roster, the file as it was"
expect_err "left out" "a corrected roster, the file as it was"
run book --again --roster similar.txt typed.book slip.bwa
expect_answers "1 B101 14
2 L101 0 10 4 6 0 0
3 M101 0 10 4 0 6 0
4 B101 14
5 B101 24
6 B101 11
7 L101 13" "a corrected roster, the file again"

# --- 25: up to the ceiling and not above, and a J past it ---------------------------------------------------
printf '43210 VD 20\n43211 VD 9999\n43999 SA 5\n40017 VD 0\n' >ceilings.txt
put "$(order A-1 0010 '')" "$X" "$(order A-3 0001 '')" "$Y" "$(order A-3 0005 '')" "$(order A-3 0004 '')" \
    "$(report 010N)" "$(order A-4 0007 '')" "$(order A-4 0006 '')" "$(report 015J)" "$(order A-5 1234 '')" \
    "$(order A-1 0010 '')" "$(order A-1 9999 '' | sed 's/43210/43211/')" "$(order A-1 0001 '' | sed 's/43210/40017/')" >ceilings.bwa
run book --new --roster ceilings.txt ceilings.book ceilings.bwa
expect_code 1 "ceilings"
expect_answers "1 B101 0 10 0 10 0 0
2 B101 0 10 0 10 0 0
3 B101 25
4 L101 0 10 4 6 0 0
5 B101 25
6 B101 0 4 0 4 0 0
7 M101 0 10 4 0 6 0
8 B101 25
9 B101 0 6 0 6 0 0
10 M101 0 10 4 6 0 0
11 B101 25
12 B101 14
13 B101 0 9999 0 9999 0 0
14 B101 25" "ceilings"
passed_ceiling() {  # number, school, reference, quantity, copies open, with this order, ceiling
    echo "ceilings.bwa:$1 B101 25 the order would bring the school above its ceiling | school $2 VD, supplier 24000 VD, reference $3, $item, quantity $4 | open for the school $5, with this order $6, ceiling $7"
}
{
    passed_ceiling 3 43210 A-3 0001 20 21 20
    passed_ceiling 5 43210 A-3 0005 16 21 20
    passed_ceiling 8 43210 A-4 0007 14 21 20
    passed_ceiling 11 43210 A-5 1234 26 1260 20
    passed_ceiling 14 40017 A-1 0001 0 1 0
} >wanted
sed '/^records:/q' out | grep ' 25 ' >got
expect_text got wanted "ceilings, in words"
sed -n '/^Refused records/,$p' out | grep ' 25 ' >got
expect_text got wanted "ceilings, repeated at the end"
expect_out "records: 8 booked, 0 with nothing to book, 6 refused" "ceilings"
expect_table '  40017 VD                0          0  FULL
  43210 VD               26         20  OVER BY 6
  43211 VD             9999       9999  FULL
  43999 SA                0          5  5 left
  on the roster: 4 of 64 schools' "the table of ceilings"
run list --roster ceilings.txt ceilings.book
expect_code 0 "a school above its ceiling, listed"
expect_silent "a school above its ceiling, listed"
printf '43210 VD 25\n43211 VD 10000\n' >changed.txt
run list --roster changed.txt ceilings.book
expect_table '  43210 VD               26         25  OVER BY 1
  43211 VD             9999      10000  1 left
  on the roster: 2 of 64 schools' "changed ceilings"

# --- an empty roster: nobody stands on it ---------------------------------------------------------------------
: >empty.txt
printf '# no school yet\r\n\r\n' >comment.txt
put "$(delivery 0001 0004 | sed 's/70012345/        /')" >notice.bwa
for roster in empty.txt comment.txt; do
    copy_book ceilings.book nobody.book
    run book --roster $roster nobody.book notice.bwa
    expect_code 1 "an empty roster, with nothing to book"
    run book --roster $roster nobody.book order.bwa
    expect_code 1 "an empty roster"
    expect_err "$roster: there is no school in this file: nobody stands on the roster, so no record can be booked" "an empty roster"
    expect_answers "1 B101 24" "an empty roster"
    expect_not "$silence" err "an empty roster"
    expect_same nobody.book ceilings.book "an empty roster"
    run list --roster $roster nobody.book
    expect_code 1 "an empty roster, listed"
    expect_table '  43210 VD               26          -  NOT ON THE ROSTER
  43211 VD             9999          -  NOT ON THE ROSTER
  on the roster: 0 of 64 schools' "an empty roster, listed"
done

# --- no roster: it is said where something is booked, and nothing is refused for it ------------------------------
many 1 512 | sed 's/EN0001ST/EN9999ST/' >most.bwa
run book --new free.book most.bwa
expect_code 0 "no roster"
expect_out "records: 512 booked" "no roster"
[ "$(grep -c "free.book: $silence (--roster), so nothing is refused for a school or a ceiling" err)" -eq 1 ] ||
    fail "no roster: it is not said once"
expect_not "Open copies against" out "no roster"
tail -n 1 free.book.log | grep -q ' 0 refused, no roster: most.bwa$' || fail "no roster: the log does not say so"
run list free.book
expect_not "$silence" err "a list without a roster"
run book --new silent.book
expect_not "$silence" err "a new book without a roster"
run book free.book notice.bwa order.bwa
[ "$(grep -c "$silence" err)" -eq 1 ] || fail "no roster, two files: it is not said once"
pass
