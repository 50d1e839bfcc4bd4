# The chase list: what to do, messages in words, by school and by supplier, chosen lines, csv.

line_of() {     # school, its qualifier, supplier, its qualifier, reference, copies, article where it is another
    printf 'B101%-10s%-2s%-10s%-2s20240219%-10s%-15s%04dST*9999\r\n' "$1" "$2" "$3" "$4" "$5" "${7:-9783442756841EN}" "$6"
}
came_for() {    # the same up to the reference, copies, position
    printf 'L101%-10s%-2s%-10s%-2s2024022670012345  %04d%-10s9783442756841EN%04d000000000129500LPEUR003000001*9999\r\n' \
        "$3" "$4" "$1" "$2" "$7" "$5" "$6"
}
told_of() {     # the same up to the reference, message and hold mark, expected date
    printf 'M101%-10s%-2s%-10s%-2s70012345  %-10s9783442756841EN%s%8s0000*9999\r\n' "$3" "$4" "$1" "$2" "$5" "$6" "$7"
}
both() { line_of "$1" "$2" "$3" "$4" "$5" "$6"; told_of "$1" "$2" "$3" "$4" "$5" "$7" "$8"; }
sums_are() { printf '  %-57s %8d %8d %8d %5s %8d %8d\n' "$1" "$2" "$3" "$4" '' "$5" "$6"; }

# --- a small day: both wholesalers and two others, schools that share an address with each other or a wholesaler ---
{ both 43211 VD BUCH2 SA A-17 9 015J 20241224
  line_of 43210 VD BUCH2 SA A-19 3
  came_for 43210 VD BUCH2 SA A-19 5 1
  both 43210 VD 24000 VD A-17 10 015J 20240315
  came_for 43210 VD 24000 VD A-17 4 2
  line_of 43210 VD 24000 VD A-1 1
  line_of 43210 VD 24000 VD A-16 8
  came_for 43210 VD 24000 VD A-16 8 3
  both 43210 VD 14914 VD A-18 5 015N ''
  both 43210 IB 24000 VD B-1 7 015J 00000000
  both 43211 VD 14914 VD D-2 3 012J 00000000
  line_of 43211 VD 14914 VD A-17 6
  came_for 43211 VD 14914 VD A-17 6 4
  both 43211 VD 24000 VD A-2 2 012J ''
  both 43211 VD 24000 SA C-1 1 010N 20240401
  both 24000 VD 14914 VD D-1 4 010J 00010203
  both 50000 VD BUCH2 SA E-1 2 004N ''; } >chase.bwa
run book --new chase.book chase.bwa
expect_code 0 "the chase list"
sed '1,/^records:/d' out >listed
cat >by_school <<'LIST'

Open orders by school (mark: J held, N let go, - no report)

School 24000 VD
  to do          supplier      reference   article           ordered   filled     open  mark   let go    extra  message  expected      meaning
  chase 4        14914 VD      D-1         9783442756841 EN        4        0        4     J        0        0  010      00010203      Umbreit: out of stock for a short time, order not kept
  total: 1 line                                                    4        0        4              0        0

School 43210 IB
  to do          supplier      reference   article           ordered   filled     open  mark   let go    extra  message  expected      meaning
  chase 7        24000 VD      B-1         9783442756841 EN        7        0        7     J        0        0  015      no day named  out of stock for a short time, order kept
  total: 1 line                                                    7        0        7              0        0

School 43210 VD
  to do          supplier      reference   article           ordered   filled     open  mark   let go    extra  message  expected      meaning
  reorder 5      14914 VD      A-18        9783442756841 EN        5        0        0     N        5        0  015      no day named  not available for a short time
  chase 1        24000 VD      A-1         9783442756841 EN        1        0        1     -        0        0  no report yet
  chase 6        24000 VD      A-17        9783442756841 EN       10        4        6     J        0        0  015      20240315      out of stock for a short time, order kept
  return 2       BUCH2 SA      A-19        9783442756841 EN        3        3        0     -        0        2  no report yet
  complete: 1 line                                                 8        8        0              0        0
  total: 5 lines                                                  27       15        7              5        2

School 43211 VD
  to do          supplier      reference   article           ordered   filled     open  mark   let go    extra  message  expected      meaning
  chase 3        14914 VD      D-2         9783442756841 EN        3        0        3     J        0        0  012      no day named  not yet available
  reorder 1      24000 SA      C-1         9783442756841 EN        1        0        0     N        1        0  010      20240401      Umbreit: out of stock for a short time, order not kept
  chase 2        24000 VD      A-2         9783442756841 EN        2        0        2     J        0        0  012      no day named  KNV Zeitfracht: not yet available
  chase 9        BUCH2 SA      A-17        9783442756841 EN        9        0        9     J        0        0  015      20241224      Umbreit: out of stock for a short time, order kept / KNV Zeitfracht: not available for a short time
  complete: 1 line                                                 6        6        0              0        0
  total: 5 lines                                                  21        6       14              1        0

School 50000 VD
  to do          supplier      reference   article           ordered   filled     open  mark   let go    extra  message  expected      meaning
  reorder 2      BUCH2 SA      E-1         9783442756841 EN        2        0        0     N        2        0  004      no day named  Umbreit: not yet published, order kept
  total: 1 line                                                    2        0        0              2        0

All schools
  total: 13 lines                                                 61       21       32              8        2
  used: 13 of 512 lines, 4 of 1024 slips
LIST
expect_text listed by_school "the list of a run that books"
run list chase.book
expect_code 0 "the list by school"
expect_silent "the list by school"
expect_text out by_school "the list by school"
run list chase.book --by school
expect_text out by_school "the list by school, asked for"
run list --by supplier chase.book
expect_code 0 "the list by supplier"
expect_silent "the list by supplier"
cat >by_supplier <<'LIST'

Open orders by supplier (mark: J held, N let go, - no report)

Supplier 14914 VD (KNV Zeitfracht)
  to do          school        reference   article           ordered   filled     open  mark   let go    extra  message  expected      meaning
  chase 4        24000 VD      D-1         9783442756841 EN        4        0        4     J        0        0  010      00010203      Umbreit: out of stock for a short time, order not kept
  reorder 5      43210 VD      A-18        9783442756841 EN        5        0        0     N        5        0  015      no day named  not available for a short time
  chase 3        43211 VD      D-2         9783442756841 EN        3        0        3     J        0        0  012      no day named  not yet available
  complete: 1 line                                                 6        6        0              0        0
  total: 4 lines                                                  18        6        7              5        0

Supplier 24000 SA
  to do          school        reference   article           ordered   filled     open  mark   let go    extra  message  expected      meaning
  reorder 1      43211 VD      C-1         9783442756841 EN        1        0        0     N        1        0  010      20240401      Umbreit: out of stock for a short time, order not kept
  total: 1 line                                                    1        0        0              1        0

Supplier 24000 VD (Umbreit)
  to do          school        reference   article           ordered   filled     open  mark   let go    extra  message  expected      meaning
  chase 7        43210 IB      B-1         9783442756841 EN        7        0        7     J        0        0  015      no day named  out of stock for a short time, order kept
  chase 1        43210 VD      A-1         9783442756841 EN        1        0        1     -        0        0  no report yet
  chase 6        43210 VD      A-17        9783442756841 EN       10        4        6     J        0        0  015      20240315      out of stock for a short time, order kept
  chase 2        43211 VD      A-2         9783442756841 EN        2        0        2     J        0        0  012      no day named  KNV Zeitfracht: not yet available
  complete: 1 line                                                 8        8        0              0        0
  total: 5 lines                                                  28       12       16              0        0

Supplier BUCH2 SA
  to do          school        reference   article           ordered   filled     open  mark   let go    extra  message  expected      meaning
  return 2       43210 VD      A-19        9783442756841 EN        3        3        0     -        0        2  no report yet
  chase 9        43211 VD      A-17        9783442756841 EN        9        0        9     J        0        0  015      20241224      Umbreit: out of stock for a short time, order kept / KNV Zeitfracht: not available for a short time
  reorder 2      50000 VD      E-1         9783442756841 EN        2        0        0     N        2        0  004      no day named  Umbreit: not yet published, order kept
  total: 3 lines                                                  14        3        9              2        2

All suppliers
  total: 13 lines                                                 61       21       32              8        2
  used: 13 of 512 lines, 4 of 1024 slips
LIST
expect_text out by_supplier "the list by supplier"

# --- one account: whole groups of the whole list, and the sums over them; the rooms are those of the whole book ------
groups_of() {   # the whole list, how the heads of groups begin; the sums of all lines that are listed
    sed -n 1,3p "$1"
    awk -v heads="$2" 'BEGIN { RS = ""; ORS = "\n\n" } $0 ~ "^(" heads ")"' "$1"
    echo "All lines listed"
    sums_are "$3" "$4" "$5" "$6" "$7" "$8"
    tail -n 1 "$1"
}
expect_groups() {   # what it is, then as groups_of
    expect_code 0 "$1"
    expect_silent "$1"
    what=$1
    shift
    groups_of "$@" >wanted
    expect_text out wanted "$what"
}
run list chase.book --school 43210
expect_groups "a school by its address" by_school 'School 43210' 'total: 6 lines' 34 15 14 5 2
run list chase.book --school '43210 VD'
expect_groups "a school by its address and qualifier" by_school 'School 43210 VD' 'total: 5 lines' 27 15 7 5 2
run list chase.book --school '43210 IB'
expect_groups "a school that shares its address" by_school 'School 43210 IB' 'total: 1 line' 7 0 7 0 0
run list --supplier 24000 chase.book --by supplier
expect_groups "a supplier by its address" by_supplier 'Supplier 24000' 'total: 6 lines' 29 12 16 1 0
run list chase.book --by supplier --supplier '14914 VD'
expect_groups "a supplier by its address and qualifier" by_supplier 'Supplier 14914 VD' 'total: 4 lines' 18 6 7 5 0

# --- choices by the other account, of open copies, and together -----------------------------------------------------
expect_chosen() {   # what it is; heads and rows, and what is listed in all, without what stands behind the figures
    expect_code 0 "$1"
    expect_silent "$1"
    sed -n -e '1,3d;/^ *to do/d;/^$/d;/^  used: 13 of 512 lines, 4 of 1024 slips$/d' \
        -e 's/ 9783442756841 EN//;s/  *[0-9]* *no day named.*//;s/  *0[01][0-9]      *[0-9]\{8\} .*//;s/  *no report yet//' \
        -e 's/  */ /g;p' out >got
    cat >wanted
    expect_text got wanted "$1"
}
run list chase.book --open
expect_chosen "open copies" <<'LIST'
School 24000 VD
 chase 4 14914 VD D-1 4 0 4 J 0 0
 total: 1 line 4 0 4 0 0
School 43210 IB
 chase 7 24000 VD B-1 7 0 7 J 0 0
 total: 1 line 7 0 7 0 0
School 43210 VD
 chase 1 24000 VD A-1 1 0 1 - 0 0
 chase 6 24000 VD A-17 10 4 6 J 0 0
 total: 2 lines 11 4 7 0 0
School 43211 VD
 chase 3 14914 VD D-2 3 0 3 J 0 0
 chase 2 24000 VD A-2 2 0 2 J 0 0
 chase 9 BUCH2 SA A-17 9 0 9 J 0 0
 total: 3 lines 14 0 14 0 0
All lines listed
 total: 7 lines 36 4 32 0 0
LIST
run list chase.book --supplier BUCH2
expect_chosen "a supplier in the list by school" <<'LIST'
School 43210 VD
 return 2 BUCH2 SA A-19 3 3 0 - 0 2
 total: 1 line 3 3 0 0 2
School 43211 VD
 chase 9 BUCH2 SA A-17 9 0 9 J 0 0
 total: 1 line 9 0 9 0 0
School 50000 VD
 reorder 2 BUCH2 SA E-1 2 0 0 N 2 0
 total: 1 line 2 0 0 2 0
All lines listed
 total: 3 lines 14 3 9 2 2
LIST
run list chase.book --school '43211 VD' --supplier 24000
expect_chosen "a school and a supplier" <<'LIST'
School 43211 VD
 reorder 1 24000 SA C-1 1 0 0 N 1 0
 chase 2 24000 VD A-2 2 0 2 J 0 0
 total: 2 lines 3 0 2 1 0
All lines listed
 total: 2 lines 3 0 2 1 0
LIST
run list chase.book --open --by supplier --school 43211 --supplier 24000
expect_chosen "a school's and a supplier's open copies" <<'LIST'
Supplier 24000 VD (Umbreit)
 chase 2 43211 VD A-2 2 0 2 J 0 0
 total: 1 line 2 0 2 0 0
All lines listed
 total: 1 line 2 0 2 0 0
LIST

# --- an account that no line has is said, and somebody should look; one with nothing open is not ----------------------
chased=$(pwd -P)/chase.book
expect_no_line() {  # the account as it is told, then the choice
    none=$1
    shift
    run list chase.book "$@"
    expect_code 1 "no $none"
    echo "wizqamul-host: $chased: no line of this book has $none" >wanted
    expect_text err wanted "no $none"
    expect_out "  total: 0 lines " "no $none"
    expect_not "All schools" out "no $none"
}
expect_no_line "school 43212" --school 43212
expect_no_line "school 4321" --school 4321
expect_no_line "school 43210 SA" --school '43210 SA'
expect_no_line "school 43210VD" --school 43210VD
expect_no_line "school 43210  VD" --school '43210  VD'
expect_no_line "school 43210 " --school '43210 '
expect_no_line 'school \x1B[2J43210' --school "$(printf '\033[2J43210')"
expect_no_line "supplier 43210" --supplier 43210 --by supplier
expect_no_line "supplier 14914 SA" --supplier '14914 SA' --open
expect_no_line "school 50000 and supplier 24000" --school 50000 --supplier 24000
run list chase.book --open --school 50000
expect_chosen "a school with nothing open" <<'LIST'
All lines listed
 total: 0 lines 0 0 0 0 0
LIST

# --- the roster's table: of a chosen school its row alone, of any other choice the whole of it -------------------------
printf '43210 VD 7\n43211 VD 20\n70000 VD 5\n' >chase.txt
run list --roster chase.txt chase.book --supplier BUCH2 --open
expect_code 0 "ceilings with a supplier chosen"
sed -n '/^Open copies/,$p' out >got
cat >whole_table <<'TABLE'
Open copies against the ceilings of chase.txt
  school               open    ceiling
  24000 VD                4          -  NOT ON THE ROSTER
  43210 IB                7          -  NOT ON THE ROSTER
  43210 VD                7          7  FULL
  43211 VD               14         20  6 left
  50000 VD                0          -  NOT ON THE ROSTER
  70000 VD                0          5  5 left
  on the roster: 3 of 64 schools
TABLE
expect_text got whole_table "ceilings with a supplier chosen"
run list --roster chase.txt chase.book --school 43210
sed -n '/^Open copies/,$p' out >got
grep -vE '  (24000|43211|50000|70000) ' whole_table >wanted
expect_text got wanted "ceilings with a school chosen"
run list --roster chase.txt chase.book --school '70000 VD'
expect_code 1 "a school of the roster without a line"
expect_err "no line of this book has school 70000 VD" "a school of the roster without a line"
sed -n '/^Open copies/,$p' out >got
grep -vE '  (24000|4321.|50000) ' whole_table >wanted
expect_text got wanted "a school of the roster without a line"

# --- csv: the rows of the list and nothing else, sorted as it is -----------------------------------------------------
csv_is() { { echo "$csv_head"; cat; } | sed "s/\$/$(printf '\r')/" >wanted; expect_text out wanted "$1"; }
csv_head='to do;copies;school;school qualifier;supplier;supplier qualifier;reference;article;article qualifier;ordered;filled;open;let go;extra;mark;message;meaning;expected'
run list --csv chase.book --roster chase.txt
expect_code 0 "csv"
expect_silent "csv"
cat >csv_rows <<'CSV'
chase;4;24000;VD;14914;VD;D-1;9783442756841;EN;4;0;4;0;0;J;010;Umbreit: out of stock for a short time, order not kept;0001-02-03
chase;7;43210;IB;24000;VD;B-1;9783442756841;EN;7;0;7;0;0;J;015;out of stock for a short time, order kept;
reorder;5;43210;VD;14914;VD;A-18;9783442756841;EN;5;0;0;5;0;N;015;not available for a short time;
chase;1;43210;VD;24000;VD;A-1;9783442756841;EN;1;0;1;0;0;;;no report yet;
chase;6;43210;VD;24000;VD;A-17;9783442756841;EN;10;4;6;0;0;J;015;out of stock for a short time, order kept;2024-03-15
return;2;43210;VD;BUCH2;SA;A-19;9783442756841;EN;3;3;0;0;2;;;no report yet;
chase;3;43211;VD;14914;VD;D-2;9783442756841;EN;3;0;3;0;0;J;012;not yet available;
reorder;1;43211;VD;24000;SA;C-1;9783442756841;EN;1;0;0;1;0;N;010;Umbreit: out of stock for a short time, order not kept;2024-04-01
chase;2;43211;VD;24000;VD;A-2;9783442756841;EN;2;0;2;0;0;J;012;KNV Zeitfracht: not yet available;
chase;9;43211;VD;BUCH2;SA;A-17;9783442756841;EN;9;0;9;0;0;J;015;Umbreit: out of stock for a short time, order kept / KNV Zeitfracht: not available for a short time;2024-12-24
reorder;2;50000;VD;BUCH2;SA;E-1;9783442756841;EN;2;0;0;2;0;N;004;Umbreit: not yet published, order kept;
CSV
csv_is "csv" <csv_rows
run list chase.book --csv --by supplier --open
grep '^chase' csv_rows | sort -t ';' -k 5,5 -k 6,6 -k 3,3 -k 4,4 -k 7,7 >got
csv_is "csv by supplier of open copies" <got
run list chase.book --csv --school 43211 --supplier '24000 VD'
grep ';43211;VD;24000;VD;' csv_rows >got
csv_is "csv of a school and a supplier" <got
run list chase.book --csv --school 43212
expect_code 1 "csv of no line"
expect_err "$chased: no line of this book has school 43212" "csv of no line"
csv_is "csv of no line" </dev/null
if [ -c /dev/full ]; then
    timeout 30 "$host" list chase.book --csv >/dev/full 2>err; code=$?
    expect_code 2 "csv on a full disk"
    expect_err "standard output: cannot write" "csv on a full disk"
fi

# --- csv: cells that hold semicolons, quotes and letters; articles of each kind ----------------------------------------
{ line_of 43210 VD 24000 VD 'A;1' 1
  line_of 43210 VD 24000 VD 'say "B"' 2 '1234567      KN'
  line_of 43210 VD 24000 VD '";"' 3 '123     45678RK'
  line_of 43210 VD 24000 VD letters 4 '043942089X   IB' | sed "s/letters /$(printf '\304";\374\337\200\\\\') /"
  line_of 43210 VD 24000 VD 'x, y' 5 '1            UM'; } >cells.bwa
run book --new cells.book cells.bwa
run list cells.book --csv
expect_code 0 "cells of csv"
csv_is "cells of csv" <<'CSV'
chase;3;43210;VD;24000;VD;""";""";123     45678;RK;3;0;3;0;0;;;no report yet;
chase;1;43210;VD;24000;VD;"A;1";9783442756841;EN;1;0;1;0;0;;;no report yet;
chase;2;43210;VD;24000;VD;"say ""B""";1234567;KN;2;0;2;0;0;;;no report yet;
chase;5;43210;VD;24000;VD;x, y;1;UM;5;0;5;0;0;;;no report yet;
chase;4;43210;VD;24000;VD;"Ä"";üß€\x5C";043942089X;IB;4;0;4;0;0;;;no report yet;
CSV

# --- an empty book; what an old book does not know ---------------------------------------------------------------------
run book --new bare_list.book
run list bare_list.book --csv
expect_code 0 "csv of an empty book"
csv_is "csv of an empty book" </dev/null
run list bare_list.book --by supplier
expect_code 0 "an empty book"
{ sed -n 1,3p by_supplier; echo "All suppliers"; sums_are 'total: 0 lines' 0 0 0 0 0
  echo "  used: 0 of 512 lines, 0 of 1024 slips"; } >wanted
expect_text out wanted "an empty book by supplier"
run list bare_list.book --school 43210
expect_code 1 "a school of an empty book"
expect_err "no line of this book has school 43210" "a school of an empty book"
{ printf '\00143210     VD14914     VDR-1       9783442756841EN\012\000\001'
  printf '\00143210     VD14914     VDR-2       9783442756841EN\003\000\002'
  printf '\00143210     VD14914     VDR-3       9783442756841EN\003\000\000\000\003\000\000\000'; } >old_list.book
run book --accept-book old_list.book
run list old_list.book --csv
csv_is "csv of an old book" <<'CSV'
chase;10;43210;VD;14914;VD;R-1;9783442756841;EN;10;0;10;0;0;J;;not known (old book);
reorder;3;43210;VD;14914;VD;R-2;9783442756841;EN;3;0;0;3;0;N;;not known (old book);
chase;3;43210;VD;14914;VD;R-3;9783442756841;EN;3;0;3;0;0;;;no report yet;
CSV
run list old_list.book --by supplier
cat >wanted <<'LIST'
  chase 10       43210 VD      R-1         9783442756841 EN       10        0       10     J        0        0  -        not known (old book)
  reorder 3      43210 VD      R-2         9783442756841 EN        3        0        0     N        3        0  -        not known (old book)
  chase 3        43210 VD      R-3         9783442756841 EN        3        0        3     -        0        0  no report yet
LIST
rows >got
expect_text got wanted "an old book by supplier"

# --- each number from 000 to 102 and some above, from Umbreit: those of its paper and no others have a meaning ------------
number=0
while [ "$number" -le 105 ]; do
    digits=$(printf '%03d' "$number")
    case $digits in 103) digits=110 ;; 104) digits=256 ;; 105) digits=999 ;; esac
    both 43210 VD 24000 VD "$digits" 1 "${digits}J" ''
    number=$((number + 1))
done >numbers.bwa
run book --new numbers.book numbers.bwa
run list numbers.book --csv
sed -n 's/\r$//;s/^chase;1;43210;VD;24000;VD;\([0-9]*\);.*;J;\1;\(.*\);$/\1 \2/p' out >meanings
[ "$(wc -l <meanings)" -eq 106 ] || fail "message numbers: not each has its row"
pass
cat >wanted <<'MEANINGS'
000 available
001 available within 14 days, order kept
002 available within 6 weeks, order kept
003 available within 6 months, order kept
004 not yet published, order kept
006 out of print, will be offered anew before it is published
007 out of print, order filed away
009 order unclear, please order again with new details
010 out of stock for a short time, order not kept
012 KNV Zeitfracht: not yet available
015 out of stock for a short time, order kept
017 can be ordered from the publisher, not carried (any more)
018 procured on demand, firm purchase without return
019 fixed price lifted, no longer carried
020 not yet published, order not kept
022 order for a set day is kept
023 not yet in stock, order not kept
024 will not be published, says the publisher
025 not yet in stock, order kept
026 no longer stocked, will not be procured
029 not in the catalogue
034 publication uncertain, order kept
035 publication uncertain, order not kept
041 sold out at the wholesaler, please order from the publisher
050 please give the publisher's order number
051 available within 14 days, order not kept
052 available within 6 weeks, order not kept
053 available within 6 months, order not kept
059 please note the following information: ..
060 not available, on the index of media harmful to the young
062 not available at present because of a legal dispute, order kept
063 not available at present because of a legal dispute, order not kept
070 compulsory continuation, please order in writing
071 continuation noted, delivery follows
079 not to be had in the book trade
082 cannot be delivered abroad
090 being produced for you, order kept
091 being produced for you, firm purchase without return, please keep it on order
093 procured on demand, firm purchase without return, available within 1 week
096 not available because of the publisher's insufficient terms, please order from the publisher
098 digital product, available by download only
099 order line cancelled
MEANINGS
grep -v "^[0-9]* not in the wholesalers' lists\$" meanings >got
expect_text got wanted "what Umbreit's numbers mean"
numbers_with() { grep -E "$1" meanings | cut -c 2-3 | tr '\n' ' '; }
expect_numbers() { [ "$1" = "$2 " ] || fail "message numbers: $3 are $1"; pass; }
# As the paper lists them: all, those with "vorgemerkt", and those with "nicht vorgemerkt".
expect_numbers "$(grep -v -e 'KNV Zeitfracht' -e "wholesalers' lists" meanings | cut -c 2-3 | tr '\n' ' ')" \
    "00 01 02 03 04 06 07 09 10 15 17 18 19 20 22 23 24 25 26 29 34 35 41 50 51 52 53 59 60 62 63 70 71 79 82 90 91 93 96 98 99" \
    "those of Umbreit"
expect_numbers "$(numbers_with '(order|is) kept$')" "01 02 03 04 15 22 25 34 62 90" "those that keep an order"
expect_numbers "$(numbers_with 'order not kept$')" "10 20 23 35 51 52 53 63" "those that do not keep an order"

# --- the same numbers from KNV Zeitfracht, and from somebody else ------------------------------------------------------
sed 's/24000     VD/14914     VD/' numbers.bwa >numbers_knv.bwa
run book --new numbers_knv.book numbers_knv.bwa
run list numbers_knv.book --csv
sed -n 's/\r$//;s/^chase;1;43210;VD;14914;VD;\([0-9]*\);.*;J;\1;\(.*\);$/\1 \2/p' out >got
sed -e "/ not in the wholesalers' lists\$/b" -e 's/ / Umbreit: /' -e 's/^012 .*/012 not yet available/' \
    -e 's/^015 .*/015 not available for a short time/' meanings >wanted
expect_text got wanted "the numbers from KNV Zeitfracht"
sed 's/24000     VD/24000     IB/' numbers.bwa >numbers_other.bwa
run book --new numbers_other.book numbers_other.bwa
run list numbers_other.book --csv
sed -n 's/\r$//;s/^chase;1;43210;VD;24000;IB;\([0-9]*\);.*;J;\1;\(.*\);$/\1 \2/p' out >got
sed -e "/ not in the wholesalers' lists\$/b" -e '/^012 /b' -e 's/ / Umbreit: /' \
    -e 's/^015 .*/&  KNV Zeitfracht: not available for a short time/;s/  KNV/ \/ KNV/' meanings >wanted
expect_text got wanted "the numbers from another supplier"
