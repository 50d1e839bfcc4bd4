# Full rooms, saves that fail, runs that are killed, two runs at once.

# --- rooms that are full or nearly so -----------------------------------------------------------------
many 1 460 >lines.bwa
many 461 461 >line.bwa
run book --new full.book lines.bwa
expect_not "nearly full" err "460 lines"
run book full.book line.bwa
expect_err "the book is nearly full: 51 of 512 lines are left" "461 lines"
expect_not "slips" err "461 lines"
run list full.book
expect_code 0 "list of 461 lines"
expect_err "the book is nearly full: 51 of 512 lines are left" "list of 461 lines"
deliveries() {  # the first position, the last, copies
    awk -v first="$1" -v last="$2" -v copies="$3" 'BEGIN { for (n = first; n <= last; n++)
        printf "L10124000     VD43210     VD2024022670012345  %04dA-17      9783442756841EN%s000000000129500LPEUR003000001*9999\r\n", n, copies }'
}
deliveries 1 921 9999 >slips.bwa
deliveries 922 922 9999 >slip.bwa
run book --new slips.book order.bwa slips.bwa
expect_code 0 "921 slips"
expect_not "nearly full" err "921 slips"
run book slips.book slip.bwa
expect_err "the book is nearly full: 102 of 1024 slips are left" "922 slips"
expect_not "lines" err "922 slips"
{ deliveries 923 1001 9999; deliveries 1002 1026 0001; } >last.bwa
run book slips.book last.bwa
expect_code 1 "more than 1024 slips"
expect_out "last.bwa:79 L101 21 more than 9999999 copies on one line | supplier" "a sum over the limit"
expect_out "last.bwa:104 L101 19 all 1024 slips of the book are used | supplier" "more than 1024 slips"
expect_out "records: 102 booked, 0 with nothing to book, 2 refused" "more than 1024 slips"
expect_err "0 of 1024 slips are left" "more than 1024 slips"
copy_book first.book new.book
run book new.book many.bwa
expect_code 1 "more orders than lines"
expect_out "many.bwa:511 B101 0 done" "more orders than lines"
expect_out "many.bwa:512 B101 15 all 512 lines of the book are used | school" "more orders than lines"
run list new.book
expect_code 0 "a full book loads"

# --- as many refused records as are told again, and no more -----------------------------------------------
head -n 1000 trash.bwa >thousand.bwa
copy_book first.book thousand.book
run book thousand.book thousand.bwa
expect_out "Refused records, once more: 1000" "1000 refused records"
expect_not "each in its place above" out "1000 refused records"

# --- saves that fail --------------------------------------------------------------------------------------
save_failed() {     # what it is; the book is old.book
    expect_code 2 "$1"
    expect_err "nothing was saved" "$1"
    expect_same old.book first.book "$1"
    expect_tidy . "$1"
}
copy_book first.book old.book
for blocks in 0 1; do      # both streams are pipes here, so only the host's files are limited
    { (ulimit -f $blocks; "$host" book old.book many.bwa; echo "exit $?") | cat >out; } 2>&1 | cat >err
    code=$(sed -n 's/^exit //p' out)
    save_failed "file size limit $blocks"
    [ "$(grep -v '^exit' out | tail -n 1)" = "nothing was saved: the book stands as it was before this run" ] ||
        fail "file size limit $blocks: this is not the last word on standard output"
    expect_not "records:" out "file size limit $blocks"
    expect_err "File too large" "file size limit $blocks"
done
put "$(order A-1 0001 '')" "$(order A-2 0001 '')" >pair.bwa
rm -f after.out
{ (ulimit -f 1; "$host" book --new limit.book pair.bwa >after.out; echo "exit $?") | cat >out; } 2>&1 | cat >err
code=$(sed -n 's/^exit //p' out)
expect_code 3 "standard output that is full after the save"
expect_err "standard output: cannot write: File too large" "standard output that is full after the save"
expect_err "limit.book: the book is saved" "standard output that is full after the save"
run list limit.book
expect_out "used: 2 of 512 lines" "standard output that is full after the save"
if [ -c /dev/full ]; then
    timeout 30 "$host" book old.book many.bwa >/dev/full 2>err; code=$?
    save_failed "full standard output"
    expect_err "standard output:" "full standard output"
    timeout 30 "$host" list old.book >/dev/full 2>err; code=$?
    expect_code 2 "list to a full standard output"
fi
mkfifo gone
exec 5<>gone 6>gone 5>&-       # a pipe that nobody reads
timeout 30 "$host" book old.book many.bwa >&6 2>err; code=$?
exec 6>&-
save_failed "standard output that nobody reads"
expect_err "Broken pipe" "standard output that nobody reads"
run_with_names() {  # numbers of names that are taken; then the program's arguments
    names=$1
    shift
    sh -c 'names=$1; shift; for number in $names; do echo mine >".wizqamul-new-$$-$number"; done; exec "$@"' \
        sh "$names" "$host" "$@" >out 2>err
    code=$?
}
mkdir names
copy_book schools.book names/book
cd names || exit 1
cp ../four.bwa .
run_with_names "1 2 3 4 6" book book four.bwa
expect_code 0 "names of new files that are taken"
[ "$(cat .wizqamul-new-*-[12346] | sort | uniq -c | sed 's/^ *//')" = "5 mine" ] || fail "names of new files that are taken: lost"
expect_same book ../after.book "names of new files that are taken"
rm -f .wizqamul*
copy_book ../schools.book book
run_with_names "$(seq 0 999)" book book four.bwa
expect_code 2 "all names of new files taken"
expect_err "cannot make a new file: File exists" "all names of new files taken"
[ "$(cat .wizqamul-new-* | sort | uniq -c | sed 's/^ *//')" = "1000 mine" ] || fail "all names of new files taken: lost"
expect_same book ../schools.book "all names of new files taken"
cd .. || exit 1

# --- runs that are killed ----------------------------------------------------------------------------------
round=0
while [ $round -lt 10 ]; do
    rm -f killed.book*
    copy_book first.book killed.book
    "$host" book killed.book many.bwa >/dev/null 2>&1 & child=$!
    moment=0
    while [ $moment -lt $((round * 600)) ]; do moment=$((moment + 1)); done
    kill -9 $child 2>/dev/null
    wait $child 2>/dev/null
    child=
    cmp -s killed.book first.book || cmp -s killed.book new.book ||
        fail "killed run: the book is neither the old one nor the new one"
    round=$((round + 1))
done
pass
run book killed.book many.bwa
expect_code 1 "run after a killed run"
expect_same killed.book new.book "run after a killed run"
rm -f .wizqamul*

# --- two runs at once ----------------------------------------------------------------------------------------
# The first run prints more than a pipe holds, so it waits while it holds the lock.
mkfifo pipe
copy_book first.book shared.book
timeout 30 "$host" book shared.book many.bwa >pipe 2>first.err & child=$!
exec 4<pipe
head -c 1 <&4 >/dev/null
run book shared.book four.bwa
expect_code 2 "book in use"
expect_err "another run is booking into this book" "book in use"
expect_same shared.book first.book "book in use"
run list shared.book
expect_code 0 "list of a book in use"
cat <&4 >/dev/null
exec 4<&-
wait $child; code=$?
child=
expect_code 1 "the run that held the book"
expect_same shared.book new.book "the run that held the book"
