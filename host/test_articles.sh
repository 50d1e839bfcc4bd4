# Suppliers that answer with their own number: what is said where a record names another article
# than the order's, and where it does not.

own='12345678     KN'       # another number, with another qualifier
title='9783120060017EN'     # another number, with the same one
plain='9783442756841UM'     # the same number, with another one
as() { sed "s/9783442756841EN/$1/"; }
for_line() { sed "s/$1/$2/"; }

# --- each way to name an article, for each kind and each answer that could speak of it -----------
put "$X" "$(order A-18 0003 '' | as "$own")" "$(order A-17 0006 '' | for_line 43210 43211 | as '123     45678RK')" \
    "$(order A-17 0005 '' | for_line 24000 24001 | as '3442756847   IB')" \
    "$Y" "$(delivery 0002 0001 | as "$own")" "$(delivery 0003 0001 | as "$title")" "$(delivery 0004 0001 | as "$plain")" \
    "$(report 015J)" "$(report 015J | as "$own")" "$(report 015J | as "$title")" "$(report 015J | as "$plain")" \
    "$(delivery 0005 0001 | for_line A-17 A-18)" "$(delivery 0006 0001 | for_line 43210 43211 | as "$own")" \
    "$(report 010N | for_line 24000 24001 | as "$own")" \
    "$X" "$(order A-17 0012 '' | as "$own")" "$(order A-17 0010 '' | as "$plain")" \
    "$(delivery 0001 0004 | as "$own")" "$(delivery 0002 0001)" "$(delivery 0002 0002 | as "$own")" \
    "$(delivery 0002 0001 | for_line A-17 A-18 | as "$own")" \
    "$(delivery 0007 0001 | for_line A-17 A-99 | as "$own")" "$(report 010N | for_line A-17 A-99 | as "$own")" \
    "$(delivery 0008 0000 | as "$own")" "$(delivery 0009 0001 | as "$own" | for_line 70012345 '        ')" \
    "$(order A-17 0010 '' | as "$title")" >articles.bwa
run book --new articles.book articles.bwa
expect_code 1 "articles"
ordered="| another article: ordered as 9783442756841 EN, answered as"
from="supplier 24000 VD, school 43210 VD, slip number 70012345, reference A-17"
held="message 015, hold mark J, expected date blank"
cat >wanted <<ANSWERS
articles.bwa:1 B101 0 done | $who, reference A-17, $item, quantity 0010 | ordered 10, filled 0, open 10, let go 0, extra 0
articles.bwa:2 B101 0 done | $who, reference A-18, article 12345678 KN, quantity 0003 | ordered 3, filled 0, open 3, let go 0, extra 0
articles.bwa:3 B101 0 done | school 43211 VD, supplier 24000 VD, reference A-17, article 123     45678 RK, quantity 0006 | ordered 6, filled 0, open 6, let go 0, extra 0
articles.bwa:4 B101 0 done | school 43210 VD, supplier 24001 VD, reference A-17, article 3442756847 IB, quantity 0005 | ordered 5, filled 0, open 5, let go 0, extra 0
articles.bwa:5 L101 0 done | $whom, position 0001, reference A-17, $item, quantity 0004 | ordered 10, filled 4, open 6, let go 0, extra 0
articles.bwa:6 L101 0 done | $whom, position 0002, reference A-17, article 12345678 KN, quantity 0001 $ordered 12345678 KN | ordered 10, filled 5, open 5, let go 0, extra 0
articles.bwa:7 L101 0 done | $whom, position 0003, reference A-17, article 9783120060017 EN, quantity 0001 $ordered 9783120060017 EN | ordered 10, filled 6, open 4, let go 0, extra 0
articles.bwa:8 L101 0 done | $whom, position 0004, reference A-17, article 9783442756841 UM, quantity 0001 $ordered 9783442756841 UM | ordered 10, filled 7, open 3, let go 0, extra 0
articles.bwa:9 M101 0 done | $from, $item, $held | ordered 10, filled 7, open 3, let go 0, extra 0
articles.bwa:10 M101 0 done | $from, article 12345678 KN, $held $ordered 12345678 KN | ordered 10, filled 7, open 3, let go 0, extra 0
articles.bwa:11 M101 0 done | $from, article 9783120060017 EN, $held $ordered 9783120060017 EN | ordered 10, filled 7, open 3, let go 0, extra 0
articles.bwa:12 M101 0 done | $from, article 9783442756841 UM, $held $ordered 9783442756841 UM | ordered 10, filled 7, open 3, let go 0, extra 0
articles.bwa:13 L101 0 done | $whom, position 0005, reference A-18, $item, quantity 0001 | another article: ordered as 12345678 KN, answered as 9783442756841 EN | ordered 3, filled 1, open 2, let go 0, extra 0
articles.bwa:14 L101 0 done | supplier 24000 VD, school 43211 VD, date 20240226, slip number 70012345, position 0006, reference A-17, article 12345678 KN, quantity 0001 | another article: ordered as 123     45678 RK, answered as 12345678 KN | ordered 6, filled 1, open 5, let go 0, extra 0
articles.bwa:15 M101 0 done | supplier 24001 VD, school 43210 VD, slip number 70012345, reference A-17, article 12345678 KN, message 010, hold mark N, expected date blank | another article: ordered as 3442756847 IB, answered as 12345678 KN | ordered 5, filled 0, open 0, let go 5, extra 0
articles.bwa:16 B101 14 the book has an order with this school, supplier and reference already | $who, reference A-17, $item, quantity 0010 | in the book: $item, quantity 0010
articles.bwa:17 B101 14 the book has an order with this school, supplier and reference already | $who, reference A-17, article 12345678 KN, quantity 0012 | in the book: another article, 9783442756841 EN, quantity 0010
articles.bwa:18 B101 14 the book has an order with this school, supplier and reference already | $who, reference A-17, article 9783442756841 UM, quantity 0010 | in the book: another article, 9783442756841 EN, quantity 0010
articles.bwa:19 L101 17 this slip is booked already: not booked twice | $whom, position 0001, reference A-17, article 12345678 KN, quantity 0004
articles.bwa:20 L101 17 this slip is booked already: not booked twice | $whom, position 0002, reference A-17, $item, quantity 0001
articles.bwa:21 L101 18 this slip is booked already with another reference or quantity | $whom, position 0002, reference A-17, article 12345678 KN, quantity 0002 | in the book: reference A-17, quantity 0001, ordered as 9783442756841 EN
articles.bwa:22 L101 18 this slip is booked already with another reference or quantity | $whom, position 0002, reference A-18, article 12345678 KN, quantity 0001 | in the book: reference A-17, quantity 0001, ordered as 9783442756841 EN
articles.bwa:23 L101 16 the book has no order with this school, supplier and reference | $whom, position 0007, reference A-99, article 12345678 KN, quantity 0001
articles.bwa:24 M101 16 the book has no order with this school, supplier and reference | supplier 24000 VD, school 43210 VD, slip number 70012345, reference A-99, article 12345678 KN, message 010, hold mark N, expected date blank
articles.bwa:25 L101 11 the quantity is 0 | $whom, position 0008, reference A-17, article 12345678 KN, quantity 0000
articles.bwa:26 L101 13 closing record or advance notice: nothing to book | supplier 24000 VD, school 43210 VD, date 20240226, slip number blank, position 0009, reference A-17, article 12345678 KN, quantity 0001
articles.bwa:27 B101 14 the book has an order with this school, supplier and reference already | $who, reference A-17, article 9783120060017 EN, quantity 0010 | in the book: another article, 9783442756841 EN, quantity 0010
records: 15 booked, 3 with nothing to book, 9 refused
booked under another article than the order's: 9
ANSWERS
sed '/^$/,$d' out >got
expect_text got wanted "articles"
sed -n '/^Refused records, once more: 9$/,$p' out | sed 1d >got
grep -e ' 1[1468] the ' -e ' 18 this slip ' wanted >again
expect_text got again "articles, repeated at the end"

# --- the list has the order's article, after whatever answer ------------------------------------------
rows | sed 's/  */ /g' >got
cat >wanted <<'LIST'
 chase 3 24000 VD A-17 9783442756841 EN 10 7 3 J 0 0 015 no day named out of stock for a short time, order kept
 chase 2 24000 VD A-18 12345678 KN 3 1 2 - 0 0 no report yet
 reorder 5 24001 VD A-17 3442756847 IB 5 0 0 N 5 0 010 no day named Umbreit: out of stock for a short time, order not kept
 chase 5 24000 VD A-17 123 45678 RK 6 1 5 - 0 0 no report yet
LIST
expect_text got wanted "the list after articles that differ"

# --- it needs no look, is counted over all files, and is not said where there is none -----------------
said="booked under another article than the order's"
put "$(delivery 0002 0001 | as "$own")" "$(delivery 0003 0001)" >own.bwa
put "$(report 015J | as "$own")" "$(delivery 0002 0001 | as "$title")" "$(delivery 0004 0001 | as "$title")" >names.bwa
run book --new own.book order.bwa own.bwa names.bwa delivery.bwa
expect_code 0 "articles in two files"
expect_out "records: 6 booked, 1 with nothing to book, 0 refused" "articles in two files"
grep "$said" out >got
echo "$said: 3" >wanted
expect_text got wanted "articles in two files"
run list own.book
expect_code 0 "a list after articles that differ"
expect_not "$said" out "a list after articles that differ"
run book --again own.book delivery.bwa order.bwa
expect_out "records: 0 booked, 1 with nothing to book, 1 refused" "no article that differs"
expect_not "$said" out "no article that differs"
