# From a wish list to the chase list, as a day at the desk goes.

# --- the day of the examples ---------------------------------------------------------------------------------
mkdir out_day
for example in wishes.csv answers.bwa roster.txt; do cp "$parts/../examples/$example" .; done
run book --new round.book
expect_code 0 "a book for the day"
run order --roster roster.txt round.book wishes.csv out_day
expect_code 1 "the wishes of the day"
expect_silent "the wishes of the day"
book=$(digest round.book | cut -c 1-16)
sed "s/$book/BOOK/; s|$work/||" out >got
expect_text got "$parts/test_orders.txt" "the wishes of the day"
ls -A out_day >got
printf '%s\n' 24000-VD-$book.bwa BUCH2-SA-$book.bwa >wanted
expect_text got wanted "the files of the day"
put "$(printf 'B10143210     VD24000     VD20240219A-17      9783442756841EN0010ST*1003Frau \326zdemir*9999')" \
    'B10143211     VD24000     VD20240219A-17      9783442756841EN0006ST*1003Class 7b; shelf 3*9999' \
    'B10140017     VD24000     VD20240219K-2       1234567      KN0004ST*9999' >wanted
expect_same out_day/24000-VD-$book.bwa wanted "the orders for one supplier"
put 'B10140017     VDBUCH2     SA202402192024/031  9783120060017EN0025ST*9999' \
    'B10143210     VDBUCH2     SA20240219A-18      3442756847   IB0003ST*9999' >wanted
expect_same out_day/BUCH2-SA-$book.bwa wanted "the orders for the other supplier"
# The files hold exactly the orders that the book accepted: booked elsewhere they give this book.
cp out_day/24000-VD-$book.bwa out_day/BUCH2-SA-$book.bwa .
run book --new elsewhere.book 24000-VD-$book.bwa BUCH2-SA-$book.bwa
expect_code 0 "the orders of the day, booked elsewhere"
run list elsewhere.book
cp out wanted
run list round.book
expect_text out wanted "the orders of the day, booked elsewhere"
expect_silent "a list after the orders are out"
# --- the log, and the same wishes again -------------------------------------------------------------------------
sed -n 's/^.\{20\} from \([0-9a-z]*\) to \([0-9a-f]*\): orders [0-9a-f]\{16\} /\1 \2 /p' round.book.log >got
printf '%s\n' "$book $book wait in $work/out_day" "$book $book are out" >wanted
expect_text got wanted "the log of the orders"
grep -q " to $book: file $(digest wishes.csv), 5 booked, 0 with nothing to book, 2 refused, roster $(digest roster.txt | cut -c 1-16): wishes.csv\$" round.book.log ||
    fail "the log of the wishes"
pass
cp round.book.log kept.log
copy_book round.book kept_round.book
run order --roster roster.txt round.book wishes.csv out_day
expect_code 1 "wishes that were ordered before"
expect_err "wishes.csv: left out: these bytes were ordered at 20" "wishes that were ordered before"
[ ! -s out ] || fail "wishes that were ordered before: something is printed"
expect_same round.book kept_round.book "wishes that were ordered before"
expect_same round.book.log kept.log "wishes that were ordered before"
[ "$(ls -A out_day | wc -l)" -eq 2 ] || fail "wishes that were ordered before: a file came out"
run order --again --roster roster.txt round.book wishes.csv out_day
expect_code 1 "wishes once more"
expect_out "wishes: 0 ordered, 7 refused" "wishes once more"
expect_out "wishes.csv:4 refused: B101 14" "wishes once more"
[ "$(ls -A out_day | wc -l)" -eq 2 ] || fail "wishes once more: a file came out"
expect_same round.book kept_round.book "wishes once more"

# --- the answers come, and the chase list -----------------------------------------------------------------------
run book --roster roster.txt round.book answers.bwa
expect_code 0 "the answers of the day"
expect_silent "the answers of the day"
run list round.book --by supplier
expect_code 0 "the chase list of the day"
expect_text out "$parts/test_chase.txt" "the chase list of the day"

# --- a mended list: what was refused is ordered, into a file of its own ------------------------------------------
sed 's/^43211;24000;;A-19;20240219;9783442756842/43211;24000;;A-19;20240219;9783442756841/' wishes.csv >mended.csv
run order --roster roster.txt round.book mended.csv out_day
expect_code 1 "a mended wish list"
expect_out "wishes: 2 ordered, 5 refused" "a mended wish list"
expect_out "mended.csv:8 B101 0 done" "a wish that the ceiling takes after a delivery"
[ "$(ls out_day | wc -l)" -eq 3 ] || fail "a mended wish list: no file of its own"
pass

# --- without a roster, from standard input, by another desk's clock ----------------------------------------------
mkdir out_plain
run book --new empty.book
printf 'school;supplier;reference;article;quantity\n43210;24000;T-1;9783442756841;7\n' >today.csv
# Of these two zones, one at least has another day than the world's clock.
for zone in XYZ-13 XYZ11; do
    copy_book empty.book plain_round.book
    rm -f out_plain/*
    before=$(TZ=$zone date +%Y%m%d)
    TZ=$zone timeout 30 "$host" order plain_round.book - out_plain <today.csv >out 2>err; code=$?
    after=$(TZ=$zone date +%Y%m%d)
    expect_code 0 "wishes from standard input"
    expect_err "no roster was named" "wishes from standard input"
    expect_out "-:2 B101 0 done | school 43210 VD, supplier 24000 VD, reference T-1" "wishes from standard input"
    case $(cut -c 29-36 out_plain/*) in "$before" | "$after") pass ;; *) fail "an order without a date is not of today" ;; esac
done
printf '43210;24000;T-2;9783442756841;1\n43210;24000;T-2;9783442756841;1\n43210;24000;T-3;9783442756841;0\n43210;24000; ;9783442756841;1\n' >>today.csv
run order plain_round.book today.csv out_plain
expect_code 1 "wishes of which some are new"
expect_out "wishes: 1 ordered, 4 refused" "wishes of which some are new"
expect_out "today.csv:2 refused: B101 14" "wishes of which some are new"
expect_out "today.csv:4 refused: B101 14" "the same wish twice"
expect_out "today.csv:5 refused: B101 11 the quantity is 0" "a wish of no copies"
expect_out "quantity 0000 | column quantity: " "a wish of no copies"
expect_out "today.csv:6 refused: " "a wish without a reference"

# --- no wish is accepted: no file, and the list is known ---------------------------------------------------------
echo "40017 VD 60" >other_roster
copy_book plain_round.book none.book
mkdir out_none
printf 'school;supplier;reference;article;quantity\n43210;24000;U-1;9783442756841;7\n' >none.csv
run order --roster other_roster none.book none.csv out_none
expect_code 1 "no wish is accepted"
expect_out "none.csv:2 refused: B101 24 the school is not on the roster" "no wish is accepted"
expect_same none.book plain_round.book "no wish is accepted"
[ -z "$(ls -A out_none)" ] || fail "no wish is accepted: a file came out"
tail -n 1 none.book.log | grep -q ': none.csv$' || fail "no wish is accepted: the log tells of orders"
run list none.book
expect_code 0 "no wish was accepted"
expect_silent "no wish was accepted"
run order --roster other_roster none.book none.csv out_none
expect_err "none.csv: left out" "no wish was accepted"
run order --roster roster.txt --again none.book none.csv out_none
expect_code 0 "a wish that another roster takes"
[ "$(ls -A out_none | wc -l)" -eq 1 ] || fail "a wish that another roster takes: no file"

# --- a doubtful roster, a book that is not known, two suppliers with one address, a book that is nearly full ----
printf '43210 VD 60\n43210 VD 50\n' >twice_roster
copy_book plain_round.book doubt.book
rm out_none/*
run order --roster twice_roster doubt.book none.csv out_none
expect_code 1 "an order with a doubtful roster"
expect_out "wishes: 1 ordered, 0 refused" "an order with a doubtful roster"
rm out_none/*
cp plain_round.book strange.book
run order strange.book none.csv out_none
expect_code 2 "an order into a book that is not known"
run order --accept-book strange.book none.csv out_none
expect_code 0 "an order that accepts a book"
rm out_none/*
copy_book plain_round.book address.book
printf 'school;supplier;supplier qualifier;reference;article;quantity\n43210;24000;VD;Y-1;9783442756841;7\n43210;24000;SA;Y-1;9783442756841;7\n' >address.csv
run order address.book address.csv out_none
expect_code 0 "two suppliers with one address"
book=$(digest address.book | cut -c 1-16)
ls -A out_none >got
printf '%s\n' 24000-SA-$book.bwa 24000-VD-$book.bwa >wanted
expect_text got wanted "two suppliers with one address"
rm out_none/*
copy_book full.book near.book
awk 'BEGIN { print "school;supplier;reference;article;quantity"; for (n = 1; n <= 12; n++) print "43210;24000;Z-" n ";9783442756841;" 300 + n }' >near.csv
run order near.book near.csv out_none
expect_code 0 "a book that is nearly full"
expect_err "the book is nearly full: 39 of 512 lines are left" "a book that is nearly full"
expect_out ": 12 orders put out" "a book that is nearly full"

# --- more wishes than the book has room for ----------------------------------------------------------------------
awk 'BEGIN { print "school;supplier;reference;article;quantity"; for (n = 1; n <= 10000; n++) printf "43210;%s;R-%d;9783442756841;1\n", n % 2 ? "24000" : "BUCH2", n }' >many.csv
mkdir out_many
run book --new many_wishes.book
run order many_wishes.book many.csv out_many
expect_code 1 "10000 wishes for one book"
expect_out "wishes: 512 ordered, 9488 refused" "10000 wishes for one book"
expect_out "many.csv:513 B101 0 done" "10000 wishes for one book"
expect_out "many.csv:514 refused: B101 15 all 512 lines of the book are used | school 43210 VD" "10000 wishes for one book"
expect_out "many.csv:10001 refused: B101 15 all 512 lines of the book are used" "10000 wishes for one book"
expect_out "Refused wishes, once more: 9488" "10000 wishes for one book"
expect_out "and 8488 more, each in its place above" "10000 wishes for one book"
expect_err "the book is nearly full: 0 of 512 lines are left" "10000 wishes for one book"
cut -c 37-46 out_many/* | sort -t - -k 2n | tr -d ' ' >got
awk 'BEGIN { for (n = 1; n <= 512; n++) print "R-" n }' >wanted
expect_text got wanted "10000 wishes for one book"
[ "$(ls out_many | wc -l)" -eq 2 ] || fail "10000 wishes for one book: not two files"

# --- a book that was taken back: its orders are not put out over those of before ----------------------------------
copy_book plain_round.book back.book
mkdir out_back
printf 'school;supplier;reference;article;quantity;1003\n43210;24000;V-1;9783442756841;7;one\n43210;BUCH2;V-1;9783442756841;7;one\n' >back.csv
sed 's/one/two/' back.csv >other.csv
run order back.book back.csv out_back
expect_code 0 "before the book is taken back"
book=$(digest back.book | cut -c 1-16)
cp back.book.old back.book
cp -r out_back kept_back
run order back.book other.csv out_back
expect_code 2 "orders that were put out before the book was taken back"
expect_err "24000-VD-$book.bwa: there is such a file already: these orders were put out before, by this book or one like it" "orders that were put out before the book was taken back"
expect_err "back.book: nothing was saved, and nothing new was ordered" "orders that were put out before the book was taken back"
[ "$(tail -n 1 out)" = "nothing was saved: the book stands as it was before this run" ] || fail "orders that were put out before the book was taken back: this is not the last word"
expect_not "wishes:" out "orders that were put out before the book was taken back"
expect_same back.book plain_round.book "orders that were put out before the book was taken back"
diff -r out_back kept_back >/dev/null || fail "orders that were put out before: files changed"
rm out_back/24000-*
run order back.book other.csv out_back
expect_code 2 "one of these orders was put out before"
expect_err "BUCH2-VD-$book.bwa: there is such a file already" "one of these orders was put out before"
[ "$(ls -A out_back | wc -l)" -eq 1 ] || fail "one of these orders was put out before: a file came out"
rm out_back/*
ln -s nowhere out_back/BUCH2-VD-$book.bwa
run order back.book other.csv out_back
expect_code 2 "a link to nothing under the name of a file of orders"
expect_same back.book plain_round.book "a link to nothing under the name of a file of orders"
[ "$(ls -A out_back | wc -l)" -eq 1 ] || fail "a link to nothing under the name of a file of orders: a file came out"
rm out_back/*
run order back.book other.csv out_back
expect_code 0 "orders after the book was taken back"
grep -q 'two\*9999' out_back/24000-VD-$book.bwa || fail "orders after the book was taken back: not those"
pass
run order back.book back.csv out_back
expect_not "left out" err "wishes of a run that was taken back"
expect_out "wishes: 0 ordered, 2 refused" "wishes of a run that was taken back"

# --- places that are none -------------------------------------------------------------------------------------------
copy_book plain_round.book place.book
refused_order() {   # what is said; then the arguments
    said=$1
    shift
    copy_book plain_round.book place.book
    run order "$@"
    expect_code 2 "$said"
    expect_err "$said" "$said"
    expect_same place.book plain_round.book "$said"
    [ -z "$(ls -A wrong_out)" ] || fail "$said: a file came out"
}
refused_order "absent: cannot open the directory for the orders: No such file or directory" place.book back.csv absent
refused_order "back.csv: cannot open the directory for the orders: Not a directory" place.book back.csv back.csv
expect_err "place.book: nothing was done" "no directory for the orders"
refused_order "absent.csv: cannot open: No such file or directory" place.book absent.csv wrong_out
expect_err "place.book: nothing was done" "no wish list"
refused_order "this is the book or a file that belongs to it" place.book place.book wrong_out
refused_order "absent.book: there is no such book" absent.book back.csv wrong_out
refused_order "nothing was done, since the roster cannot be used" --roster back.csv place.book back.csv wrong_out
refused_order "desk.bwa: " place.book desk.bwa wrong_out
if [ "$clerk" != none ]; then
    mkdir desk_out shut_out
    copy_book plain_round.book desk_out/book
    chmod 755 shut_out
    [ -z "$clerk" ] || chown -R 65534:65534 desk_out
    [ -n "$clerk" ] || chmod 555 shut_out
    run_as_clerk order desk_out/book back.csv shut_out
    expect_code 2 "a directory that may not be written"
    expect_err "shut_out: cannot make a new file: Permission denied" "a directory that may not be written"
    expect_same desk_out/book plain_round.book "a directory that may not be written"
    chmod 755 shut_out
fi
if [ -c /dev/full ]; then
    timeout 30 "$host" order place.book back.csv wrong_out >/dev/full 2>err; code=$?
    expect_code 2 "answers that cannot be printed"
    expect_err "standard output: " "answers that cannot be printed"
    expect_same place.book plain_round.book "answers that cannot be printed"
    [ -z "$(ls -A wrong_out)" ] || fail "answers that cannot be printed: a file came out"
fi
# Out may be the directory of the book; its own name may be odd, and that of the wishes.
wishes=$(printf 'w\033.csv')
cp back.csv "$wishes"
for odd in . "$(printf 'o\\x41 d\303\244\377\n: orders')"; do
    [ -e "$odd" ] || mkdir "$odd"
    copy_book plain_round.book place.book
    run order place.book "$wishes" "$odd"
    expect_code 0 "an odd directory"
    expect_out 'w\x1B.csv:2 B101 0 done' "an odd wish list"
    [ -s "$odd/24000-VD-$book.bwa" ] || fail "an odd directory: no file"
    [ "$odd" = . ] || expect_out '/o\x5Cx41 dä\xFF\x0A: orders/24000-VD-' "an odd directory"
    rm "$odd"/*-VD-$book.bwa
done
copy_book plain_round.book place.book
(umask 027; timeout 30 "$host" order place.book back.csv wrong_out >out 2>err)
expect_mode wrong_out/24000-VD-$book.bwa "-rw-r-----" "the rights of a file of orders"
rm -f wrong_out/*
