# Books with digital parts: what is said below a delivery that is a bundle, and where nothing is.

bundle() {      # position, reference, what stands between the fixed part and *9999
    printf 'L10124000     VD43210     VD2024022670012345  %s%-10s9783131464712EN0001000000000229900LPEUR002500006%s*9999' "$@"
}
loop() {        # tax mark, net amount, list amount and its qualifier, article, its qualifier, medium
    printf '*1019%s*1029%s*1030NO*1032EUR*1029%s*1030%s*1032EUR*1101%s*1102%s*1151%s' "$@"
}
repeat() { number=0; while [ $number -lt "$1" ]; do printf '%s' "$2"; number=$((number + 1)); done; }
first=$(loop 1 126200 180000 LP 9783131464712-1 VB PHY)
second=$(loop 2 31400 49900 LP 9783131464712-2 VB DIG)
small=$(loop 1 10000 20000 LP a EN PHY)
set_of='9783131464712EN'
cannot="  parts cannot be told:"
broken="$cannot 26 a bundle without parts, or with parts that are not as they must be; booked all the same"
many_parts="$cannot 27 a bundle of more than eight parts; booked all the same"
told_parts() { sed '/^$/,$d' out | grep -e '^  ' -e '^bundles'; }

# --- the bundles of both wholesalers' papers, word for word -------------------------------------------
put 'B10133333     VD14914     VD2015031285601     9783131464712EN0001ST*9999' \
    'L10114914     VD33333     VD20150314982478    000185601     9783131464712EN0001000000000229900LPEUR002500006*1003KIENZLER*1029157600*1030NO*1032EUR*10191*1029126200*1030NO*1032EUR*1029180000*1030LP*1032EUR*11019783131464712-1*1102VB*1151PHY*10192*102931400*1030NO*1032EUR*102949900*1030LP*1032EUR*11019783131464712-2*1102VB*1151DIG*9999' \
    'B101900900    VD24000     VD20170505202020    9783131464712EN0001ST*9999' \
    'L10124000     VD900900    VD2017050624123456  0001202020    9783131464712EN0001000000000229900LPEUR002300006*1003MEIER*90901*904000000000*90430000000000000000*10191*1029126200*1030NO*1032EUR*1029180000*1030LP*1032EUR*11019783131464712-1*1102VB*1151PHY*10192*102931400*1030NO*1032EUR*102949900*1030LP*1032EUR*11019783131464712-2*1102VB*1151DIG*9999' >papers.bwa
run book --new papers.book papers.bwa
expect_code 0 "the papers' bundles"
sed '/^$/,$d' out >got
cat >wanted <<'ANSWERS'
papers.bwa:1 B101 0 done | school 33333 VD, supplier 14914 VD, reference 85601, article 9783131464712 EN, quantity 0001 | ordered 1, filled 0, open 1, let go 0, extra 0
papers.bwa:2 L101 0 done | supplier 14914 VD, school 33333 VD, date 20150314, slip number 982478, position 0001, reference 85601, article 9783131464712 EN, quantity 0001 | ordered 1, filled 1, open 0, let go 0, extra 0
  part 1 of 2: physical, article 9783131464712-1 VB, tax mark 1, net 12.62 EUR, list 18.00 EUR (LP)
  part 2 of 2: digital, article 9783131464712-2 VB, tax mark 2, net 3.14 EUR, list 4.99 EUR (LP)
papers.bwa:3 B101 0 done | school 900900 VD, supplier 24000 VD, reference 202020, article 9783131464712 EN, quantity 0001 | ordered 1, filled 0, open 1, let go 0, extra 0
papers.bwa:4 L101 0 done | supplier 24000 VD, school 900900 VD, date 20170506, slip number 24123456, position 0001, reference 202020, article 9783131464712 EN, quantity 0001 | ordered 1, filled 1, open 0, let go 0, extra 0
  part 1 of 2: physical, article 9783131464712-1 VB, tax mark 1, net 12.62 EUR, list 18.00 EUR (LP)
  part 2 of 2: digital, article 9783131464712-2 VB, tax mark 2, net 3.14 EUR, list 4.99 EUR (LP)
records: 4 booked, 0 with nothing to book, 0 refused
ANSWERS
expect_text got wanted "the papers' bundles"
run list papers.book
expect_not "part " out "a list after bundles"
run book --again papers.book papers.bwa
expect_answers "1 B101 14
2 L101 17
3 B101 14
4 L101 17" "bundles that come again"
expect_not "  part" out "bundles that come again"

# --- one part and eight, digital ones first, each value of each field ---------------------------------
put "$(order A-17 0100 '' | as "$set_of")" >set.bwa
run book --new set.book set.bwa
eight=$(loop 0 00000 00001 FP b EN DIG; loop 1 00010 00100 LP bb IB PHY; loop 2 00101 01000 FP bbb KN DIG
    loop 0 126250 126205 LP 12345678 UM PHY; loop 1 000000000126200 000000000000099 LP 9783442756841 EN DIG
    loop 2 999999999999999 4294967296 FP b RK DIG; loop 0 1234567890 100000000000000 LP b VB PHY
    loop 1 65536 9990000 LP last ZZ DIG)
put "$(bundle 0001 A-17 "$(loop 2 31400 49900 FP 9783131464712-2 VB DIG)")" \
    "$(bundle 0002 A-17 "$(repeat 16 '*8888')$eight")" \
    "$(bundle 0003 A-17 "$second$first$second")" \
    "$(bundle 0004 A-17 "$(printf '%s' "$first" | sed 's/EUR/CHF/2')$(printf '%s' "$second" | sed 's/EUR/USD/1')")" >some.bwa
run book set.book some.bwa
expect_code 0 "one part and eight"
told_parts >got
cat >wanted <<'PARTS'
  part 1 of 1: digital, article 9783131464712-2 VB, tax mark 2, net 3.14 EUR, list 4.99 EUR (FP)
  part 1 of 8: digital, article b EN, tax mark 0, net 0.00 EUR, list 0.0001 EUR (FP)
  part 2 of 8: physical, article bb IB, tax mark 1, net 0.0010 EUR, list 0.01 EUR (LP)
  part 3 of 8: digital, article bbb KN, tax mark 2, net 0.0101 EUR, list 0.10 EUR (FP)
  part 4 of 8: physical, article 12345678 UM, tax mark 0, net 12.6250 EUR, list 12.6205 EUR (LP)
  part 5 of 8: digital, article 9783442756841 EN, tax mark 1, net 12.62 EUR, list 0.0099 EUR (LP)
  part 6 of 8: digital, article b RK, tax mark 2, net 99999999999.9999 EUR, list 429496.7296 EUR (FP)
  part 7 of 8: physical, article b VB, tax mark 0, net 123456.7890 EUR, list 10000000000.00 EUR (LP)
  part 8 of 8: digital, article last ZZ, tax mark 1, net 6.5536 EUR, list 999.00 EUR (LP)
  part 1 of 3: digital, article 9783131464712-2 VB, tax mark 2, net 3.14 EUR, list 4.99 EUR (LP)
  part 2 of 3: physical, article 9783131464712-1 VB, tax mark 1, net 12.62 EUR, list 18.00 EUR (LP)
  part 3 of 3: digital, article 9783131464712-2 VB, tax mark 2, net 3.14 EUR, list 4.99 EUR (LP)
  part 1 of 2: physical, article 9783131464712-1 VB, tax mark 1, net 12.62 EUR, list 18.00 CHF (LP)
  part 2 of 2: digital, article 9783131464712-2 VB, tax mark 2, net 3.14 USD, list 4.99 EUR (LP)
PARTS
expect_text got wanted "one part and eight"
expect_out "records: 4 booked, 0 with nothing to book, 0 refused" "one part and eight"

# --- articles of parts are texts: Windows-1252, escapes, blanks, the longest -------------------------
backslashes=$(repeat 35 '\')
longest=$(printf '%35s' '' | tr ' ' 'x')
put "$(bundle 0005 A-17 "$(loop 1 10000 20000 LP "$(printf 'B\374ro\2261')" VB PHY; loop 1 10000 20000 LP "$backslashes" VB PHY)")" \
    "$(bundle 0006 A-17 "$(loop 1 10000 20000 LP "$longest" VB PHY; loop 1 10000 20000 LP 'c  ' VB DIG
        loop 1 10000 20000 LP ' ' VB DIG; loop 1 10000 20000 LP ' d' VB DIG)")" >signs.bwa
run book set.book signs.bwa
expect_code 0 "articles of parts"
told_parts | sed 's/^.*, article \(.*\), tax mark .*$/\1/' >got
printf '%s VB\n' "$(printf 'B\303\274ro\342\200\2231')" "$(repeat 35 '\x5C')" "$longest" c blank ' d' >wanted
expect_text got wanted "articles of parts"

# --- parts that cannot be told: the delivery is booked, and needs no look ----------------------------
put "$(bundle 0011 A-17 "$(repeat 9 "$small")")" "$(bundle 0012 A-17 "*8888*8888$(repeat 9 "$small")*8888")" \
    "$(bundle 0013 A-17 '')" "$(bundle 0014 A-17 '*1003MEIER')" "$(bundle 0015 A-17 "$first$second*1003MEIER")" \
    "$(bundle 0016 A-17 "$(printf '%s' "$first" | sed 's/1030NO/1030XX/;s/1030LP/1030NO/;s/1030XX/1030LP/')")" \
    "$(bundle 0017 A-17 "$(loop 1 10000 20000 LA b VB PHY)")" "$(bundle 0018 A-17 "${first%\*1151PHY}")" \
    "$(bundle 0019 A-17 "$first*10191")" "$(bundle 0020 A-17 "$(repeat 6 '*8888')$(repeat 9 "$small")")" >untold.bwa
run book set.book untold.bwa
expect_code 0 "parts that cannot be told"
told_parts >got
{ printf '%s\n' "$many_parts"; for record in 12 13 14 15 16 17 18 19; do printf '%s\n' "$broken"; done
  printf '%s\n' "$many_parts" "bundles booked whose parts cannot be told: 10"; } >wanted
expect_text got wanted "parts that cannot be told"
expect_out "records: 10 booked, 0 with nothing to book, 0 refused" "parts that cannot be told"
expect_not "Refused records" out "parts that cannot be told"
put "$(bundle 0020 A-17 '')" "$(bundle 0007 A-17 "$first*1003MEIER")" >one.bwa
run book set.book one.bwa
expect_out "bundles booked whose parts cannot be told: 1" "one bundle whose parts cannot be told"

# --- no bundle, and bundles that were not booked: nothing is said of parts ---------------------------
loops=$first$second
put "$(bundle 0021 A-17 "$loops" | sed 's/002500006/002500001/')" "$(order A-18 0001 "$loops" | as "$set_of")" \
    "$(bundle 0022 A-18 '' | sed 's/002500006/002500002/')" "$(report 015J | as "$set_of" | sed "s/\*9999/$loops*9999/")" \
    "$(bundle 0003 A-17 "$loops")" "$(bundle 0013 A-17 '')" "$(bundle 0003 A-18 "$loops")" \
    "$(bundle 0023 A-99 "$loops")" "$(bundle 0024 A-99 '')" "$(bundle 0025 A-17 "$loops" | sed 's/70012345/        /')" \
    "$(bundle 0026 A-17 "$loops*9")" "$(bundle 0027 A-17 "$(repeat 97 '*8888')")" >without.bwa
run book set.book without.bwa
expect_code 1 "no bundle, or not booked"
expect_answers "1 L101 0 100 18 82 0 0
2 B101 0 1 0 1 0 0
3 L101 0 1 1 0 0 0
4 M101 0 100 18 82 0 0
5 L101 17
6 L101 17
7 L101 18
8 L101 16
9 L101 16
10 L101 13
11 L101 6
12 L101 8" "no bundle, or not booked"
expect_not "  part" out "no bundle, or not booked"
expect_not "bundles" out "no bundle, or not booked"

# --- each below its own record, under another article too; counted over all files --------------------
put "$(order A-30 0004 '')" "$(bundle 0031 A-30 "$first")" "$(bundle 0032 A-30 '')" "$(bundle 0033 A-30 "$second")" >mixed.bwa
put "$(bundle 0034 A-30 "$first*1003MEIER")" "$(bundle 0032 A-30 '')" "$(delivery 0035 0001)" >later.bwa
run book --new mixed.book mixed.bwa order.bwa later.bwa
expect_code 0 "bundles under another article"
sed '/^$/,$d;s/ | .*//' out >got
cat >wanted <<ANSWERS
mixed.bwa:1 B101 0 done
mixed.bwa:2 L101 0 done
  part 1 of 1: physical, article 9783131464712-1 VB, tax mark 1, net 12.62 EUR, list 18.00 EUR (LP)
mixed.bwa:3 L101 0 done
$broken
mixed.bwa:4 L101 0 done
  part 1 of 1: digital, article 9783131464712-2 VB, tax mark 2, net 3.14 EUR, list 4.99 EUR (LP)
order.bwa:1 B101 0 done
later.bwa:1 L101 0 done
$broken
later.bwa:2 L101 17 this slip is booked already: not booked twice
later.bwa:3 L101 0 done
records: 7 booked, 1 with nothing to book, 0 refused
booked under another article than the order's: 4
bundles booked whose parts cannot be told: 2
ANSWERS
expect_text got wanted "each below its own record"
expect_out "another article: ordered as 9783442756841 EN, answered as 9783131464712 EN | ordered 4, filled 1" "bundles under another article"
run list mixed.book
expect_not "bundles" out "a list after parts that cannot be told"
