# The wish list: its structure, header, encodings and cells, and the reason for each refusal.

run book --new no_wishes.book
wishes_head='school;supplier;date;reference;article;article qualifier;quantity'
order_wishes() {    # the file, then options; what is put out stands in ordered.txt without its CR
    wish_file=$1
    shift
    today=
    while [ "$today" != "$(date +%Y%m%d)" ]; do
        today=$(date +%Y%m%d)
        rm -rf wished
        mkdir wished
        copy_book no_wishes.book wished.book
        run order "$@" wished.book "$wish_file" wished
    done
    cat wished/*.bwa 2>/dev/null | tr -d '\r' >ordered.txt
}
# Of each wish its line and what came of it: the record that is put out, the reason why there is
# none, or the book's answer with the column that decides it.
came_of() {
    LC_ALL=C awk 'BEGIN { while ((getline record < "ordered.txt") > 0) records[++count] = record }
        /^wishes: / || /^nothing was saved/ { exit }
        { sub(/^[^:]*:/, ""); line = $1 }
        $3 == 0 { print line, records[++taken]; next }
        $2 != "refused:" || $3 != "B101" { print; next }
        { column = index($0, " | column "); print line, $4 (column ? substr($0, column) : "") }' out
}
expect_came() {     # what should come of each wish; what it is
    came_of >got
    printf '%s\n' "$1" >wanted
    expect_text got wanted "$2"
}
# On standard input a line for each case: a wish, " => ", and what comes of it.
cases() {           # the header; what it is
    : >told
    LC_ALL=C awk -v header="$1" 'BEGIN { print header >"wishes.csv" }
        { at = index($0, " => "); print substr($0, 1, at - 1) >"wishes.csv"
          print NR + 1, substr($0, at + 4) >"told" }'
    order_wishes wishes.csv
    sed "s/YYYYMMDD/$today/" told >wanted
    came_of >got
    [ -s wanted ] || fail "$2: there are no cases"
    expect_text got wanted "$2"
}

# --- fixed cells: what is filled in, what is refused -------------------------------------------------
cases "supplier;supplier qualifier;school;school qualifier;date;reference;article;article qualifier;quantity;measure" \
    "accounts and defaults" <<'CASES'
24000;IB;43210;IB;;A-1;1;UM;1;ST => B10143210     IB24000     IBYYYYMMDDA-1       1            UM0001ST*9999
24000;SA;43210;SA;;A-2;1;UM;1;NP => B10143210     SA24000     SAYYYYMMDDA-2       1            UM0001NP*9999
24000;VD;43210;VD;20240219;A-3;1;UM;1;ST => B10143210     VD24000     VD20240219A-3       1            UM0001ST*9999
24000;;43210;;;A-4;1;;1; => B10143210     VD24000     VDYYYYMMDDA-4       1            UM0001ST*9999
24000; ;43210;	; ;A-5;1; ;1; => B10143210     VD24000     VDYYYYMMDDA-5       1            UM0001ST*9999
 24000	; VD;ABCDEFGHI9;VD  ;	20240219;	 A 6 b\ ; 1	;UM ; 1	; ST => B101ABCDEFGHI9VD24000     VD20240219A 6 b\    1            UM0001ST*9999
;;43210;;;A;1;;1; => refused: column supplier: empty is not what it may hold: 1 to 10 capital letters or digits
24000;;;;;A;1;;1; => refused: column school: empty is not what it may hold: 1 to 10 capital letters or digits
24000;; 	;;;A;1;;1; => refused: column school: empty is not what it may hold: 1 to 10 capital letters or digits
24000;;4321o;;;A;1;;1; => refused: column school: 4321o is not what it may hold: 1 to 10 capital letters or digits
24000;;12345678901;;;A;1;;1; => refused: column school: 12345678901 is not what it may hold: 1 to 10 capital letters or digits
24 00;;43210;;;A;1;;1; => refused: column supplier: 24 00 is not what it may hold: 1 to 10 capital letters or digits
12345678901;;43210;;;A;1;;1; => refused: column supplier: 12345678901 is not what it may hold: 1 to 10 capital letters or digits
24000;vd;43210;;;A;1;;1; => refused: column supplier qualifier: vd is not what it may hold: VD, IB or SA
24000;VDX;43210;;;A;1;;1; => refused: column supplier qualifier: VDX is not what it may hold: VD, IB or SA
24000;;43210;V;;A;1;;1; => refused: column school qualifier: V is not what it may hold: VD, IB or SA
24000;;43210;;;A;1;;1;st => refused: column measure: st is not what it may hold: ST or NP
24000;;43210;;;A;1;;1;STK => refused: column measure: STK is not what it may hold: ST or NP
24000;;43210;;;12345678901;1;;1; => refused: column reference: 12345678901 is not what it may hold: 1 to 10 signs, none of them * + : ? '
24000;;43210;;;A*1;1;;1; => refused: column reference: A*1 is not what it may hold: 1 to 10 signs, none of them * + : ? '
24000;;43210;;;A+1;1;;1; => refused: column reference: A+1 is not what it may hold: 1 to 10 signs, none of them * + : ? '
24000;;43210;;;A:1;1;;1; => refused: column reference: A:1 is not what it may hold: 1 to 10 signs, none of them * + : ? '
24000;;43210;;;A?1;1;;1; => refused: column reference: A?1 is not what it may hold: 1 to 10 signs, none of them * + : ? '
24000;;43210;;;A'1;1;;1; => refused: column reference: A'1 is not what it may hold: 1 to 10 signs, none of them * + : ? '
24000;;43210;;;1234567890;1;;1; => B10143210     VD24000     VDYYYYMMDD12345678901            UM0001ST*9999
CASES
expect_code 1 "accounts and defaults"
expect_out "wishes: 7 ordered, 18 refused" "accounts and defaults"

{   cat <<'CASES'
24000;43210;20240219;D-1;1;;1 => B10143210     VD24000     VD20240219D-1       1            UM0001ST*9999
24000;43210;2024-02-29;D-2;1;;01 => B10143210     VD24000     VD20240229D-2       1            UM0001ST*9999
24000;43210;19.02.2024;D-3;1;;9999 => B10143210     VD24000     VD20240219D-3       1            UM9999ST*9999
24000;43210;9.2.2024;D-4;1;;010 => B10143210     VD24000     VD20240209D-4       1            UM0010ST*9999
24000;43210;09.2.0001;D-5;1;;0000000123 => B10143210     VD24000     VD00010209D-5       1            UM0123ST*9999
24000;43210;1.12.9999;D-6;1;;00000 => 11 | column quantity: a number of 1 to 9999
24000;43210;;D;1;; => refused: column quantity: empty is not what it may hold: a number of 1 to 9999
24000;43210;;D;1; => refused: column quantity: empty is not what it may hold: a number of 1 to 9999
CASES
    for day in 20230229 2023-02-29 29.2.2023 2024-2-19 2024-02-9 24-02-19 19.02.24 019.2.2024 19.002.2024 \
        19..2024 .2.2024 19.02.20244 19.02.2024. 2024-02-19- 2024-02-19T00:00 2024.02.19 19-02-2024 2024-02.19 \
        19.02 19.02. 2024-02 2024021 202402190 '2024 0219' '19. 2. 2024' 19/02/2024 today 00000000; do
        echo "24000;43210;$day;D;1;;1 => refused: column date: $day is not what it may hold: a day that there is, as 20240219, 2024-02-19 or 19.02.2024"
    done
    for many in 10000 00010000 -1 +1 1.0 1,5 '1 000' 0x5 5/ 5: five; do
        echo "24000;43210;;D;1;;$many => refused: column quantity: $many is not what it may hold: a number of 1 to 9999"
    done; } >day.cases
cases "supplier;school;date;reference;article;article qualifier;quantity" "days and quantities" <day.cases

# --- articles, and what tells their qualifiers ------------------------------------------------------------
any='13 digits of an EAN (EN), 10 signs of an ISBN (IB), three digits, blanks and five digits (RK), 7 or 8 digits (KN), or 1 to 13 digits (UM)'
say='column article qualifier has to say'
cases "school;supplier;date;reference;quantity;article;article qualifier" "articles" <<CASES
43210;24000;20240219;R-1;1;9783442756841 => B10143210     VD24000     VD20240219R-1       9783442756841EN0001ST*9999
43210;24000;20240219;R-2;1;978-3-442-75684-1 => B10143210     VD24000     VD20240219R-2       9783442756841EN0001ST*9999
43210;24000;20240219;R-3;1;3442756847; => B10143210     VD24000     VD20240219R-3       3442756847   IB0001ST*9999
43210;24000;20240219;R-4;1;3-442-75684-7; => B10143210     VD24000     VD20240219R-4       3442756847   IB0001ST*9999
43210;24000;20240219;R-5;1;080442957X; => B10143210     VD24000     VD20240219R-5       080442957X   IB0001ST*9999
43210;24000;20240219;R-6;1;0-8044-2957-X-; => B10143210     VD24000     VD20240219R-6       080442957X   IB0001ST*9999
43210;24000;20240219;R-7;1;123 45678; => B10143210     VD24000     VD20240219R-7       123     45678RK0001ST*9999
43210;24000;20240219;R-8;1;123     45678; => B10143210     VD24000     VD20240219R-8       123     45678RK0001ST*9999
43210;24000;20240219;R-9;1;123  	    45678;RK => B10143210     VD24000     VD20240219R-9       123     45678RK0001ST*9999
43210;24000;20240219;R-10;1;1 => B10143210     VD24000     VD20240219R-10      1            UM0001ST*9999
43210;24000;20240219;R-11;1;012345 => B10143210     VD24000     VD20240219R-11      012345       UM0001ST*9999
43210;24000;20240219;R-12;1;1234567;KN => B10143210     VD24000     VD20240219R-12      1234567      KN0001ST*9999
43210;24000;20240219;R-13;1;12345678; UM => B10143210     VD24000     VD20240219R-13      12345678     UM0001ST*9999
43210;24000;20240219;R-14;1;978-3-442-75684-2;UM => B10143210     VD24000     VD20240219R-14      9783442756842UM0001ST*9999
43210;24000;20240219;R-15;1;9783442756841;UM => B10143210     VD24000     VD20240219R-15      9783442756841UM0001ST*9999
43210;24000;20240219;R-16;1;123456789012;UM => B10143210     VD24000     VD20240219R-16      123456789012 UM0001ST*9999
43210;24000;20240219;R;1;1234567; => refused: column article: 1234567 may be KN or UM; $say which
43210;24000;20240219;R;1;12345678; => refused: column article: 12345678 may be KN or UM; $say which
43210;24000;20240219;R;1;123456789; => refused: column article: 123456789 has 9 digits, as an ISBN that lost a sign; if it is right, $say UM
43210;24000;20240219;R;1;3442756848; => refused: column article: 3442756848 has a wrong check digit; if it is right all the same, $say UM
43210;24000;20240219;R;1;080442958X; => refused: column article: 080442958X has a wrong check digit
43210;24000;20240219;R;1;12345678901; => refused: column article: 12345678901 has 11 or 12 digits, as an EAN that lost a sign; if it is right, $say UM
43210;24000;20240219;R;1;978344275684; => refused: column article: 978344275684 has 11 or 12 digits, as an EAN that lost a sign; if it is right, $say UM
43210;24000;20240219;R;1;978-3-442-75684-2; => refused: column article: 978-3-442-75684-2 has a wrong check digit; if it is right all the same, $say UM
43210;24000;20240219;R;1;97834427568410; => refused: column article: 97834427568410 is not what it may hold: $any
43210;24000;20240219;R;1;978-3-442-75684-10; => refused: column article: 978-3-442-75684-10 is not what it may hold: $any
43210;24000;20240219;R;1; ; => refused: column article: empty is not what it may hold: $any
43210;24000;20240219;R;1;- => refused: column article: - is not what it may hold: $any
43210;24000;20240219;R;1;1234-5678;KN => refused: column article: 1234-5678 is not what it may hold: 7 or 8 digits (KN)
43210;24000;20240219;R;1;9,78344E+12 => refused: column article: 9,78344E+12 is not what it may hold: $any
43210;24000;20240219;R;1;080442957x => refused: column article: 080442957x is not what it may hold: $any
43210;24000;20240219;R;1;978344275684X => refused: column article: 978344275684X is not what it may hold: $any
43210;24000;20240219;R;1;123456789X123 => refused: column article: 123456789X123 is not what it may hold: $any
43210;24000;20240219;R;1;abc 45678;RK => refused: column article: abc 45678 is not what it may hold: three digits, blanks and five digits (RK)
43210;24000;20240219;R;1;12 345678 => refused: column article: 12 345678 is not what it may hold: $any
43210;24000;20240219;R;1;1234 5678 => refused: column article: 1234 5678 is not what it may hold: $any
43210;24000;20240219;R;1;123 456789 => refused: column article: 123 456789 is not what it may hold: $any
43210;24000;20240219;R;1;123 4567 => refused: column article: 123 4567 is not what it may hold: $any
43210;24000;20240219;R;1;123 45678 9 => refused: column article: 123 45678 9 is not what it may hold: $any
43210;24000;20240219;R;1;9783442756842;EN => refused: column article: 9783442756842 is not what it may hold: 13 digits, the last one a right check digit (EN)
43210;24000;20240219;R;1;3442756848;IB => refused: column article: 3442756848 is not what it may hold: 10 signs, nine digits and a right check digit or X (IB)
43210;24000;20240219;R;1;123456;KN => refused: column article: 123456 is not what it may hold: 7 or 8 digits (KN)
43210;24000;20240219;R;1;12a;UM => refused: column article: 12a is not what it may hold: 1 to 13 digits (UM)
43210;24000;20240219;R;1;12345678901234;UM => refused: column article: 12345678901234 is not what it may hold: 1 to 13 digits (UM)
43210;24000;20240219;R;1;080442957X;UM => refused: column article: 080442957X is not what it may hold: 1 to 13 digits (UM)
43210;24000;20240219;R;1;12345678;RK => refused: column article: 12345678 is not what it may hold: three digits, blanks and five digits (RK)
43210;24000;20240219;R;1;;EN => refused: column article: empty is not what it may hold: 13 digits, the last one a right check digit (EN)
43210;24000;20240219;R;1;9783442756841;XX => refused: column article qualifier: XX is not what it may hold: EN, IB, KN, UM or RK
43210;24000;20240219;R;1;12345678901234;en => refused: column article qualifier: en is not what it may hold: EN, IB, KN, UM or RK
43210;24000;20240219;R;1;1;UMX => refused: column article qualifier: UMX is not what it may hold: EN, IB, KN, UM or RK
CASES

# --- the book's answers that one column decides --------------------------------------------------------
printf '43210 VD 5\n' >wish_roster.txt
cat >wishes.csv <<'WISHES'
school;supplier;reference;article;quantity
43210;24000;A-1;1;3
43210;24000;A-1;2;2
43210;24000;A-2;1;3
43211;24000;A-1;1;1
43210;24000;;1;1
43210;24000;A-3;1;0
WISHES
order_wishes wishes.csv --roster wish_roster.txt
expect_came "2 B10143210     VD24000     VD${today}A-1       1            UM0003ST*9999
3 14 | column reference: another one, since this school has it with this supplier already
4 25 | column quantity: fewer copies
5 24 | column school: one of the roster
6 12 | column reference: 1 to 10 signs, none of them * + : ? '
7 11 | column quantity: a number of 1 to 9999" "answers of the book"

# --- optional fields: as they stand, each with its words --------------------------------------------------
guarded="none of them * + : ? '"
cat >optional.txt <<CONTENTS
1001 Klasse 7b => a?b => 1 to 35 signs, $guarded
1003 "x; y" => a+b => 1 to 35 signs, $guarded
1005 BP => bp => two capital letters
1007 AB => A1 => two capital letters
1009 BP  => BP => three signs, none of them *
1013 AB => ABC => two capital letters
1017 Titel => 1234567890123456789012345678901234567890 => 1 to 39 signs, none of them *
1018 AB => A => two capital letters
1019 1 => 3 => 0, 1 or 2
1021 J => j => J or N
1025 12345 => 1234 => 5 to 8 digits
1029 12345 => 1234 => 5 to 15 digits
1030 NO => no => two capital letters
1032 EUR => EU => three capital letters
1045 N => X => J or N
1047 J => N => J
1051 12345 => a:b => 1 to 5 signs, $guarded
1101 A => a*b => 1 to 35 signs, none of them *
1102 VB => V => two capital letters
1107 1 => 12345 => 1 to 4 digits
1108 AB => 12 => two capital letters
1113 a => 123456 => 1 to 5 signs, none of them *
1114 AB => ab => two capital letters
1115 a => 12345678901 => 1 to 10 signs, none of them *
1116 AB => ab => two capital letters
1129 1 => 1234567 => 1 to 6 digits
1131 a => abcd => 1 to 3 signs, none of them *
1151 PHY => phy => PHY or DIG
1201 20240219 => 2024-02-19 => a day that there is, as 20240219
1202 AB => ab => two capital letters
1203 360 => 361 => 1 to 3 digits, a number of 1 to 360
1204 AB => ab => two capital letters
9001 a => ab => one sign, but no *
9003 U => N => J or U
9007 1 => 1a => 1 to 4 digits
9010 a => a'b => 1 to 40 signs, $guarded
9011 1 => 1- => 1 to 14 digits
9012 1234567890123 => 1234567890 => 13 digits
9016 1 => -1 => 1 to 4 digits
0000 anything => a*b => any signs, but no *
9998 "say ""yes""" => * => any signs, but no *
CONTENTS
LC_ALL=C awk -v front="43210;24000;20240219;A-%s;1;;1" -F ' => ' '
    { id = substr($0, 1, 4); ids = ids ";" id; right = right ";" substr($1, 6); wrong[NR] = $2
      shown = $2; told[NR] = "refused: column " id ": " shown " is not what it may hold: " $3
      content = substr($1, 6); gsub(/^"|"$/, "", content); gsub(/""/, "\"", content)
      record = record "*" id content; blanks[NR] = blanks[NR - 1] ";" }
    END { print ids >"optional.ids"
          printf front "%s => B10143210     VD24000     VD20240219A-0       1            UM0001ST%s*9999\n", 0, right, record
          for (n = 1; n <= NR; n++) printf front "%s => %s\n", n, blanks[n] wrong[n], told[n] }' optional.txt >optional.cases
grep -q '^43210;24000;20240219;A-0;.*BP ;' optional.cases && grep -c ' => refused: column' optional.cases >count
[ "$(cat count)" -eq 41 ] || fail "optional fields: the cases are not made"
cases "$wishes_head$(cat optional.ids)" "optional fields" <optional.cases

group='belong side by side in this order, each of them filled'
# The cells of each case by the numbers of their columns.
LC_ALL=C awk -F ' => ' '{ count = split($1, given, " "); row = ""; at = 8
    for (n = 1; n <= count; n++) { column = given[n] + 0
        while (at < column) { row = row ";"; at++ }
        row = row ";" substr(given[n], index(given[n], "=") + 1); at++ }
    printf "43210;24000;20240219;G-%d;1;;1%s => %s\n", NR, row, $2 }' >groups.cases <<CASES
9=a 10=AB 11=12345 12=NO 13=EUR => B10143210     VD24000     VD20240219G-1       1            UM0001ST*1017a*1018AB*102912345*1030NO*1032EUR*9999
29=x 30=y => B10143210     VD24000     VD20240219G-2       1            UM0001ST*0042x*0042y*9999
15=? 16=a 17=AB 29=* => refused: column 0042 (column 29): * is not what it may hold: any signs, but no *
8=AB => refused: column 1018 (column 8): 1017 and 1018 $group
9=a => refused: column 1017: 1017 and 1018 $group
11=12345 => refused: column 1029: 1029, 1030 and 1032 $group
11=12345 12=NO => refused: column 1030 (column 12): 1029, 1030 and 1032 $group
13=EUR => refused: column 1032: 1029, 1030 and 1032 $group
14=NO => refused: column 1030 (column 14): 1029, 1030 and 1032 $group
16=a => refused: column 1101: 1101 and 1102 $group
17=AB => refused: column 1102: 1101 and 1102 $group
18=1 => refused: column 1107: 1107 and 1108 $group
19=AB => refused: column 1108: 1107 and 1108 $group
20=a => refused: column 1113: 1113 and 1114 $group
22=a => refused: column 1115: 1115 and 1116 $group
24=20240219 => refused: column 1201: 1201 and 1202 $group
26=1 => refused: column 1203: 1203 and 1204 $group
26=1 27=AB 28=AB => refused: column 1204 (column 28): 1203 and 1204 $group
CASES
cases "$wishes_head;1018;1017;1018;1029;1030;1032;1030;8888;1101;1102;1107;1108;1113;1114;1115;1116;1201;1202;1203;1204;1204;0042;0042" \
    "groups" <groups.cases
cases "$wishes_head;8888;1009" "blanks in optional fields" <<'CASES'
43210;24000;20240219;B-1;1;;1; ;BP  => B10143210     VD24000     VD20240219B-1       1            UM0001ST*1009BP *9999
43210;24000;20240219;B-2;1;;1; x ;" BP" => B10143210     VD24000     VD20240219B-2       1            UM0001ST*8888 x *1009 BP*9999
43210;24000;20240219;B-3;1;;1;" 	";"   " => B10143210     VD24000     VD20240219B-3       1            UM0001ST*9999
43210;24000;20240219;B-4;1;;1;;"" => B10143210     VD24000     VD20240219B-4       1            UM0001ST*9999
43210;24000;20240219;B;1;;1;;BP   => refused: column 1009: "BP  " is not what it may hold: three signs, none of them *
43210;24000;20240219;B;1;;1;; BPX => refused: column 1009: " BPX" is not what it may hold: three signs, none of them *
43210;24000;20240219;B;1;;1;;1234567890123456789012345678901234567890 => refused: column 1009: 1234567890123456789012345678901234567890 is not what it may hold: three signs, none of them *
43210;24000;20240219;B;1;;1;;12345678901234567890123456789012345678901 => refused: column 1009: 1234567890123456789012345678901234567890.. is not what it may hold: three signs, none of them *
CASES

# --- as much as a record holds -----------------------------------------------------------------------------
LC_ALL=C awk -v head="$wishes_head" 'function fill(count, cell,  n, row) { for (n = 0; n < count; n++) row = row ";" cell; return row }
    function long(length_,  n, text) { for (n = 0; n < length_; n++) text = text "a"; return text }
    BEGIN { print head fill(121, "8888")
            print "43210;24000;20240219;F-1;1;;1" fill(96, "x")
            print "43210;24000;20240219;F-2;1;;1" fill(97, "x")
            print "43210;24000;20240219;F-3;1;;1;" long(947)
            print "43210;24000;20240219;F-4;1;;1;" long(948)
            print "43210;24000;20240219;F-5;1;;1" fill(121, long(5000)) }' >wishes.csv
order_wishes wishes.csv
came_of | cut -c 1-90 >got
cat >wanted <<'WANTED'
2 B10143210     VD24000     VD20240219F-1       1            UM0001ST*8888x*8888x*8888x*88
3 refused: 97 optional fields are filled, and an order has at most 96
4 B10143210     VD24000     VD20240219F-3       1            UM0001ST*8888aaaaaaaaaaaaaaaa
5 refused: the order would be over 1024 bytes; its optional fields have to be shorter
6 refused: 121 optional fields are filled, and an order has at most 96
WANTED
expect_text got wanted "as much as a record holds"
[ "$(LC_ALL=C awk '{ printf "%s ", length($0) }' ordered.txt)" = "648 1024 " ] || fail "as much as a record holds: other lengths"
pass

# --- rows and columns ----------------------------------------------------------------------------------------
cat >wishes.csv <<'WISHES'

  ;	;
  QUANTITY ;"article";	Reference;Supplier  	 Qualifier;supplier;SCHOOL;#my notes;;Date;"1003";school qualifier;# 2;1003
1;1;A-1;;24000;43210
 ;;	;;;

1;1;A-2;VD;24000;43210;č "no" ♥ ;;20240219;one;VD;x;two;;	;
1;1;A-3;VD;24000;43210;;5
1;1;A-3;VD;24000;43210;;;;;;;;;6;
1;1;A-3;VD;24000;43210;note;;;;;;;;;7
;;;;;;note
1;1;A-4;VD;24000;43210;;;20240219;;;;
WISHES
order_wishes wishes.csv
expect_came "4 B10143210     VD24000     VD${today}A-1       1            UM0001ST*9999
7 B10143210     VD24000     VD20240219A-2       1            UM0001ST*1003one*1003two*9999
8 refused: column 8: 5 stands under no name; the header has to name the column
9 refused: cell 15 is filled, but the header names no more than 13 columns
10 refused: cell 16 is filled, but the header names no more than 13 columns
11 refused: column article: empty is not what it may hold: $any
12 B10143210     VD24000     VD20240219A-4       1            UM0001ST*9999" "rows and columns"

wrong_wishes() {    # what it is; then what is said of the file wishes.csv, line by line
    what=$1
    shift
    order_wishes wishes.csv
    expect_code 2 "$what"
    grep -F "wishes.csv: " err >got
    complaints "$@" >wanted
    expect_text got wanted "$what"
    expect_same wished.book no_wishes.book "$what"
    [ -z "$(ls wished)" ] || fail "$what: something is put out"
}
known="wishes.csv: known are school, school qualifier, supplier, supplier qualifier, date, reference, article, article qualifier, quantity, measure, and optional fields by four digits, 0000 to 9998; a name that begins with # is passed over"
wrong_header() {    # the header; then what is said of it
    header=$1
    printf '\n%s\n43210;24000;A;1;1\n' "$header" >wishes.csv
    shift
    for words; do shift; set -- "$@" "wishes.csv: line 2: $words"; done
    wrong_wishes "the header $header" "$@" "$known"
}
needed='school;supplier;reference;article;quantity'
wrong_header "$needed;titel" "column 6, titel, is not known"
wrong_header "$needed;9999;100;10030;10a3;schoolqualifier;school  qualifiers" "column 6, 9999, is not known" \
    "column 7, 100, is not known" "column 8, 10030, is not known" "column 9, 10a3, is not known" \
    "column 10, schoolqualifier, is not known" "column 11, school  qualifiers, is not known"
wrong_header "$needed;School;date; SUPPLIER ;Date" "column 6, School, stands twice" \
    "column 8, SUPPLIER, stands twice" "column 9, Date, stands twice"
wrong_header "$needed;measure;article qualifier;measure;article  qualifier" "column 8, measure, stands twice" \
    "column 9, article  qualifier, stands twice"
wrong_header "date;#school;1003;measure" "the column school is missing" "the column supplier is missing" \
    "the column reference is missing" "the column article is missing" "the column quantity is missing"
wrong_header "school;supplier;reference;article;menge" "column 5, menge, is not known" "the column quantity is missing"
wrong_header "$needed;\"date\"x" "column 6, date, has something behind its closing quote"
wrong_header "$needed;$(printf 'a\001\303\274')123456789012345678901234567890" \
    "column 6, $(printf 'a\\x01\303\274')123456789012345678901234567.., is not known"
wrong_header "school" "the column supplier is missing" "the column reference is missing" \
    "the column article is missing" "the column quantity is missing"
for between in ',' '	'; do
    printf '%s\n' "$needed" | tr ';' "$between" >wishes.csv
    wrong_wishes "columns that are parted otherwise" \
        "wishes.csv: line 1: there is no semicolon; columns are parted by semicolons, not by commas or tabs"
done
printf 'a,b;%s\n' "$needed" >wishes.csv
wrong_wishes "a comma in a name" "wishes.csv: line 1: column 1, a,b, is not known" "$known"
names() { LC_ALL=C awk -v head="$needed" -v count="$1" 'BEGIN { printf "%s", head; for (n = 5; n < count; n++) printf ";#"; print ""; print "43210;24000;A-1;1;1" }'; }
names 129 >wishes.csv
wrong_wishes "129 columns" "wishes.csv: line 1: there are more than 128 columns"
names 128 >wishes.csv
order_wishes wishes.csv
expect_code 0 "128 columns"
expect_out "wishes: 1 ordered, 0 refused" "128 columns"
for nothing in '' '\n' ' ;; \r\n\t\r' '\357\273\277'; do
    printf "$nothing" >wishes.csv
    wrong_wishes "nothing in a file" "wishes.csv: there is nothing in this file; its first line has to name the columns" "$known"
done
printf '%s' "$needed" >wishes.csv
order_wishes wishes.csv
expect_code 0 "no wishes"
expect_out "wishes: 0 ordered, 0 refused" "no wishes"

# --- line ends and quotes ------------------------------------------------------------------------------------
printf '%s;1003\r\n43210;24000;A-1;1;1;LF\n43210;24000;A-2;1;1;CR\r43210;24000;A-3;1;1;CR LF\r\n\r\r\n\n43210;24000;A-4;1;1;' "$needed" >wishes.csv
order_wishes wishes.csv
expect_came "2 B10143210     VD24000     VD${today}A-1       1            UM0001ST*1003LF*9999
3 B10143210     VD24000     VD${today}A-2       1            UM0001ST*1003CR*9999
4 B10143210     VD24000     VD${today}A-3       1            UM0001ST*1003CR LF*9999
8 B10143210     VD24000     VD${today}A-4       1            UM0001ST*9999" "line ends"
cat >wishes.csv <<'WISHES'
"school";"supplier";"reference";"article";"quantity";"1001";"#
notes";"8888"
"43210";"24000";"A-1";"9783442756841";"10";"a;b";"
one
""two""
";"x"
"43210" ;"24000"	;"A-2";"1";"1";"";"";""
43210;24000;A-3;1;1;say "a"; "b ;""""""
43210;24000;A-4;1;1;"say ""a""";"";"""a"" and ""b"""
43210;24000;A-5;1;1;"a"b;;
43210;24000;A-5;1;1;"a" "b";;
43210;24000;A-5;1;1;;"note"x
43210;24000;A-5;1;1;;;;"x"
43210;24000;A-5;1;1;;;"a
b"
43210;24000;A-5;1;1;;;""" "
43210;24000;A-6;1;1;;;;"
";
 "43210";24000;A-7;1;1
""x;
43210;24000;A-8;1;1;;;" last"
WISHES
order_wishes wishes.csv
expect_came "3 B10143210     VD24000     VD${today}A-1       9783442756841EN0010ST*1001a;b*8888x*9999
7 B10143210     VD24000     VD${today}A-2       1            UM0001ST*9999
8 B10143210     VD24000     VD${today}A-3       1            UM0001ST*1001say \"a\"*8888\"\"*9999
9 B10143210     VD24000     VD${today}A-4       1            UM0001ST*1001say \"a\"*8888\"a\" and \"b\"*9999
10 refused: column 1001: something stands behind the closing quote
11 refused: column 1001: something stands behind the closing quote
12 refused: column 7: something stands behind the closing quote
13 refused: cell 9 is filled, but the header names no more than 8 columns
14 refused: column 8888: a\\x0Ab holds a line end, which is no letter or sign
16 B10143210     VD24000     VD${today}A-5       1            UM0001ST*8888\" *9999
17 refused: cell 9 is filled, but the header names no more than 8 columns
19 refused: column school: \"43210\" is not what it may hold: 1 to 10 capital letters or digits
20 refused: column school: something stands behind the closing quote
21 B10143210     VD24000     VD${today}A-8       1            UM0001ST*8888 last*9999" "quotes"
open_quote() {      # the line on which it opens; the file stands in wishes.csv
    wrong_wishes "a quote that stays open" "wishes.csv: line $1: a quote is opened here and never closed"
}
printf '%s\n43210;24000;A-1;1;1\n43210;24000;"A-2;1;1\n43210;24000;A-3;1;1\n' "$needed" >wishes.csv
open_quote 3
printf '%s\r\n"43\r\n210";24000;A-1;1;1\r"43210""";24000;"A""' "$needed" >wishes.csv
open_quote 4
printf '%s\n"' "$needed" >wishes.csv
open_quote 2
printf '"%s\n43210;24000;A-1;1;1\n' "$needed" >wishes.csv
open_quote 1

# --- letters: UTF-8 or Windows-1252 in, Windows-1252 out ------------------------------------------------------
# Every sign that Windows-1252 has but ASCII, in UTF-8 by the system's own table where there is one.
signs=$(bytes 128 128; bytes 130 140; bytes 142 142; bytes 145 156; bytes 158 255)
utf_8_signs='€‚ƒ„…†‡ˆ‰Š‹ŒŽ‘’“”•–—˜™š›œžŸ'
byte=160
while [ "$byte" -le 255 ]; do
    utf_8_signs=$utf_8_signs$(printf "\\$(printf '%03o' $((192 + byte / 64)))\\$(printf '%03o' $((128 + byte % 64)))")
    byte=$((byte + 1))
done
{ printf '%s;8888\n43210;24000;L-1;1;1;%s\n' "$needed" "$utf_8_signs"; printf '43210;24000;\303\204-\342\200\236\342\202\254;1;1;' ; } >utf_8.csv
{ printf '%s;8888\n43210;24000;L-1;1;1;%s\n' "$needed" "$signs"; printf '43210;24000;\304-\204\200;1;1;' ; } >windows.csv
for encoding in utf_8 windows; do
    order_wishes $encoding.csv
    expect_code 0 "letters, $encoding"
    expect_not "$encoding.csv" err "letters, $encoding"
    { printf 'B10143210     VD24000     VD%sL-1       1            UM0001ST*8888%s*9999\n' "$today" "$signs"
      printf 'B10143210     VD24000     VD%s\304-\204\200      1            UM0001ST*9999\n' "$today"; } >wanted
    expect_same ordered.txt wanted "letters, $encoding"
done
{ printf '\357\273\277'; cat utf_8.csv; } >marked.csv
cp ordered.txt wanted
order_wishes marked.csv
expect_code 0 "letters, UTF-8 with its mark"
expect_same ordered.txt wanted "letters, UTF-8 with its mark"

# What has no byte in Windows-1252, and what no record may hold.
{ printf '%s;8888;#\n' "$needed"
  printf '43210;24000;A-1;1;1;no\304\215 no\305\231;\n'
  printf '43210;24000;A-1;\302\205;1;;\n'
  printf '43210;24000;\360\237\223\226;1;1;;\n'
  printf '43210;24000;A-1;1;1;u\314\210;\n'
  printf '43210;24000;A-1;1;1;\302\240x\302\240;\304\215\n'
  printf '\302\24043210 \302\240;24000;A-2;123 \302\240 45678;\302\2401;\302\240 \302\240;"note"\302\240 \n'
  printf '43210;24000;A-3;1;1;a\000b;\n'
  printf '43210;24000;\000;1;1;;\n'
  printf '43210;24000;A-3;1;1;a\tb\177;\001\n'
  printf '43210;24000;A-3;1;1;"a\rb\001";\n'
  printf '43210\177;24000;A-3;1;1;;\n'
  printf '\000\n\357\273\27743210;24000;A-3;1;1\n'
  printf '43210;24000;A-3;1;1;\303\274\342\202\254~ *;\n'; } >wishes.csv
order_wishes wishes.csv
no_sign='which is no letter or sign'
expect_came "2 refused: column 8888: the letter č (U+010D) is not one of Windows-1252
3 refused: column article: the letter \\xC2\\x85 (U+0085) is not one of Windows-1252
4 refused: column reference: the letter 📖 (U+1F4D6) is not one of Windows-1252
5 refused: column 8888: the letter $(printf '\314\210') (U+0308) is not one of Windows-1252
6 B10143210     VD24000     VD${today}A-1       1            UM0001ST*8888$(printf '\240x\240')*9999
7 B10143210     VD24000     VD${today}A-2       123     45678RK0001ST*9999
8 refused: column 8888: a\\x00b holds the byte \\x00, $no_sign
9 refused: column reference: \\x00 holds the byte \\x00, $no_sign
10 refused: column 8888: a\\x09b\\x7F holds a tab, $no_sign
11 refused: column 8888: a\\x0Db\\x01 holds a line end, $no_sign
13 refused: column school: 43210\\x7F holds the byte \\x7F, $no_sign
14 refused: column article: empty is not what it may hold: $any
15 refused: column school: the letter $(printf '\357\273\277') (U+FEFF) is not one of Windows-1252
16 refused: column 8888: ü€~ * is not what it may hold: any signs, but no *" "letters that a record cannot hold"
expect_not "UTF-8" err "letters that a record cannot hold"
{ printf '%s;8888\n' "$needed"
  for byte in 201 215 217 220 235; do printf '43210;24000;A-1;1;1;x'; printf "\\$byte"; printf '\n'; done; } >wishes.csv
order_wishes wishes.csv
expect_came "2 refused: column 8888: x\\x81 holds the byte \\x81, $no_sign
3 refused: column 8888: x\\x8D holds the byte \\x8D, $no_sign
4 refused: column 8888: x\\x8F holds the byte \\x8F, $no_sign
5 refused: column 8888: x\\x90 holds the byte \\x90, $no_sign
6 refused: column 8888: x\\x9D holds the byte \\x9D, $no_sign" "bytes that stand for nothing"

# Neither the one nor the other.
printf '%s;1003;#\n43210;24000;A-1;1;1;\374\n43210;24000;A-2;1;1;;"a\nb"\n43210;24000;A-3;1;1;\303\274\n43210;24000;A-4;1;1;\303\274' "$needed" >wishes.csv
order_wishes wishes.csv
expect_code 1 "mixed encodings"
grep -F "wishes.csv: " err >got
complaints "wishes.csv: line 5: a letter of UTF-8 stands here, but the file is not UTF-8 as a whole; it is taken as Windows-1252" >wanted
expect_text got wanted "mixed encodings"
expect_out "wishes: 4 ordered, 0 refused" "mixed encodings"
expect_came "2 B10143210     VD24000     VD${today}A-1       1            UM0001ST*1003$(printf '\374')*9999
3 B10143210     VD24000     VD${today}A-2       1            UM0001ST*9999
5 B10143210     VD24000     VD${today}A-3       1            UM0001ST*1003$(printf '\303\274')*9999
6 B10143210     VD24000     VD${today}A-4       1            UM0001ST*1003$(printf '\303\274')*9999" "mixed encodings"
printf '%s\n43210;24000;\2261;1;1\n43210;24000;\303\274;1;1' "$needed" >wishes.csv
order_wishes wishes.csv
expect_err "wishes.csv: line 3: a letter of UTF-8 stands here, but the file is not UTF-8 as a whole" "a mark of Windows-1252 and a letter of UTF-8"
expect_came "2 B10143210     VD24000     VD${today}$(printf '\226')1        1            UM0001ST*9999
3 B10143210     VD24000     VD${today}$(printf '\303\274')        1            UM0001ST*9999" "a mark of Windows-1252 and a letter of UTF-8"
# Overlong letters, half letters, letters beyond the last one and cut ones are none.
none='\301\274 \340\203\274 \360\202\202\254 \355\240\200 \364\221\200\200 \365\202\202\202 \303 \342\202 \342\202'
printf "%s;8888\n43210;24000;A-1;1;1;$none\n" "$needed" >wishes.csv
order_wishes wishes.csv
expect_code 0 "letters that are none"
expect_came "2 B10143210     VD24000     VD${today}A-1       1            UM0001ST*8888$(printf "$none")*9999" "letters that are none"
printf '\357\273\277%s;1003\r43210;24000;A-1;1;1;\303\274\r43210;24000;A-2;1;1;\374\r43210;24000;A-3;1;1;\374\r' "$needed" >wishes.csv
wrong_wishes "the mark of UTF-8 and other bytes" "wishes.csv: line 3: this is not UTF-8, though the file has its mark at the front"
for mark in '\377\376' '\376\377'; do
    printf "${mark}s\\000c\\000" >wishes.csv
    wrong_wishes "UTF-16" "wishes.csv: this is UTF-16 text; save it as UTF-8 or plain text"
done

# --- files --------------------------------------------------------------------------------------------------
printf '%s\n43210;24000;A-1;1;1\n' "$needed" >wishes.csv
rm -rf wished
mkdir wished
copy_book no_wishes.book wished.book
timeout 30 "$host" order wished.book - wished <wishes.csv >out 2>err
code=$?
expect_code 0 "wishes on standard input"
expect_out "-:2 B101 0 done" "wishes on standard input"
order_wishes absent.csv
expect_code 2 "no wish list"
expect_err "absent.csv: cannot open: No such file or directory" "no wish list"
order_wishes .
expect_code 2 "a directory as wish list"
expect_err ".: cannot read: it is a directory" "a directory as wish list"
order_wishes wished.book.log
expect_code 2 "the log as wish list"
expect_err "wished.book.log: this is the book or a file that belongs to it" "the log as wish list"
LC_ALL=C awk -v head="$needed" 'BEGIN { print head; for (n = 2; n <= 10001; n++) print "43210;24000;A-" n ";1;" (n % 20 ? "x" : 1) }' >many.csv
order_wishes many.csv
expect_code 1 "10000 wishes"
expect_out "wishes: 500 ordered, 9500 refused" "10000 wishes"
expect_out "many.csv:10001 refused: column quantity: x is not what it may hold: a number of 1 to 9999" "10000 wishes"
[ "$(wc -l <ordered.txt)" -eq 500 ] || fail "10000 wishes: not all are put out"
pass
