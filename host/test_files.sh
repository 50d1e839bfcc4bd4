# The book and the files beside it; wrong use.

# --- a new book only on purpose, and a missing one is an error ---------------------------------------
run list nowhere.book
expect_code 2 "list of a missing book"
expect_err "nowhere.book: there is no such book; --new makes a new one" "list of a missing book"
expect_not "total" out "list of a missing book"
run book nowhere.book order.bwa
expect_code 2 "booking into a missing book"
expect_none nowhere.book "booking into a missing book"
expect_none nowhere.book.lock "booking into a missing book"
run book --accept-book nowhere.book order.bwa
expect_code 2 "accepting a missing book"
run book --new desk.book order.bwa
expect_code 2 "new over a book"
expect_err "there is such a book already" "new over a book"
expect_same desk.book first.book "new over a book"
run book --new void.book
expect_code 0 "a new book without a file"
expect_err "void.book: a new book was made" "a new book without a file"
printf '\000\000\000\000\000' >wanted
expect_same void.book wanted "a new book without a file"
run book void.book order.bwa
expect_code 0 "a new book goes on"
echo "wizqamul-host: $(pwd -P)/void.book: no roster was named (--roster), so nothing is refused for a school or a ceiling" >wanted_err
expect_text err wanted_err "a new book goes on"
expect_same void.book.old wanted "a new book goes on"

# --- the book before the last run is kept; a run that changes nothing keeps it too ---------------------
copy_book schools.book kept.book
put "$(delivery 0004 0001)" >four.bwa
put "$(delivery 0005 0001)" >five.bwa
run book kept.book four.bwa
expect_code 0 "the book before"
expect_same kept.book.old schools.book "the book before"
cp kept.book after.book
run book --again kept.book usual.bwa
expect_code 0 "nothing changes"
expect_same kept.book after.book "nothing changes"
expect_same kept.book.old schools.book "nothing changes"
expect_tidy . "the book before"

# --- files that are not the host's own are never touched -------------------------------------------------
copy_book schools.book mine.book
cp order.bwa mine.book.new
run book mine.book mine.book.new
expect_same mine.book.new order.bwa "a file of records named BOOK.new"
run book --new other.new four.bwa
cp other.new other.kept
run book --new other four.bwa
expect_same other.new other.kept "a second book named BOOK.new"
for ending in '' .old .digests .log .lock; do
    copy_book kept.book own.book
    : >>own.book.lock
    cp "own.book$ending" before
    run book own.book "own.book$ending"
    expect_code 2 "own file$ending as a file of records"
    expect_err "this is the book or a file that belongs to it" "own file$ending as a file of records"
    expect_same "own.book$ending" before "own file$ending as a file of records"
    timeout 30 "$host" book own.book - <"own.book$ending" >out 2>err; code=$?
    expect_code 2 "own file$ending as standard input"
    ln -f "own.book$ending" alias
    run book own.book alias
    expect_code 2 "own file$ending by another name"
    rm alias
    timeout 30 "$host" book own.book four.bwa >>"own.book$ending" 2>err; code=$?
    expect_code 2 "own file$ending as standard output"
    expect_same "own.book$ending" before "own file$ending as standard output"
    expect_err "is a file of this book" "own file$ending as standard output"
    timeout 30 "$host" book own.book four.bwa 2>>"own.book$ending" >out; code=$?
    expect_code 2 "own file$ending as standard error"
    expect_same "own.book$ending" before "own file$ending as standard error"
    expect_out "is a file of this book" "own file$ending as standard error"
done
timeout 30 "$host" book own.book four.bwa >>own.book.log 2>>own.book.old; code=$?
expect_code 2 "own files as both streams"
expect_same own.book.old kept.book.old "own files as both streams"
for ending in .old .digests .log; do
    copy_book schools.book own.book
    rm -f "own.book$ending"
    echo "a clerk's own notes" >"own.book$ending"
    run book own.book four.bwa
    expect_code 2 "somebody's file named BOOK$ending"
    expect_err "move it away" "somebody's file named BOOK$ending"
    [ "$(cat "own.book$ending")" = "a clerk's own notes" ] || fail "somebody's file named BOOK$ending: lost"
    expect_same own.book schools.book "somebody's file named BOOK$ending"
    rm "own.book$ending"
    copy_book kept.book own.book
    mv "own.book$ending" moved
    ln -s moved "own.book$ending"
    run book own.book five.bwa
    expect_code 2 "BOOK$ending as a link"
    expect_err "Too many levels of symbolic links" "BOOK$ending as a link"
    rm "own.book$ending"
    mkfifo "own.book$ending"
    run book own.book five.bwa
    expect_code 2 "BOOK$ending as a FIFO"
    [ $ending = .old ] || expect_err "this is not an ordinary file" "BOOK$ending as a FIFO"
    rm "own.book$ending"
done
copy_book schools.book own.book
rm -f own.book.lock
echo "not a lock" >target
ln -s target own.book.lock
run book own.book four.bwa
expect_code 2 "the lock as a link"
expect_err "cannot open the lock file" "the lock as a link"
rm own.book.lock
mkfifo own.book.lock
run book own.book four.bwa
expect_code 2 "the lock as a FIFO"
expect_err "the lock file is not an ordinary file" "the lock as a FIFO"
rm own.book.lock

# --- ways to hand over records -----------------------------------------------------------------------------
run book --new desk2.book desk.bwa
timeout 30 "$host" book --new input.book - <desk.bwa >out 2>err; code=$?
expect_code 1 "standard input"
expect_same input.book first.book "standard input"
run book --new two.book order.bwa delivery.bwa
expect_code 0 "two files"
expect_out "records: 2 booked, 0 with nothing to book, 0 refused" "two files"
expect_same two.book open.book "two files"
number=0
set --
while [ $number -lt 60 ]; do
    put "$(order "F-$number" 0001 '')" >"file$number.bwa"
    set -- "$@" "file$number.bwa"
    number=$((number + 1))
done
(ulimit -n 24; timeout 30 "$host" book --new sixty.book "$@" >out 2>err; echo $? >code)
code=$(cat code)
expect_code 0 "more files than may be open"
expect_out "used: 60 of 512 lines" "more files than may be open"
(put "$X"; cat usual.bwa; sleep 0.2; cat four.bwa) | timeout 30 "$host" book --new parts.book - >out 2>err; code=$?
expect_code 0 "standard input that comes in parts"
expect_answers "1 B101 0 10 0 10 0 0
2 L101 0 10 4 6 0 0
3 L101 13
4 L101 0 10 5 5 0 0" "standard input that comes in parts"
(head -c 67108865 /dev/zero; put "$X") | timeout 30 "$host" book --new huge.book - >out 2>err; code=$?
expect_code 2 "a file without end"
expect_err "cannot read to the end: File too large" "a file without end"
expect_none huge.book "a file without end"

# --- wrong use ------------------------------------------------------------------------------------------------
wrong_use() {   # what it is; then the arguments
    expect_usage "$@"
    expect_same two.book open.book "$what"
}
wrong_use "no arguments"
for word in book ''; do     # without a word too
    wrong_use "options without a book" $word --again
    wrong_use "unknown option" $word --agian two.book four.bwa
    wrong_use "an option of another word" $word --csv two.book four.bwa
    wrong_use "standard input twice" $word two.book - -
    wrong_use "standard input as the book" $word - four.bwa
    wrong_use "no name" $word "" four.bwa
    wrong_use "no roster behind the option" $word --roster
    wrong_use "no roster behind the book" $word two.book four.bwa --roster
    wrong_use "no book behind the roster" $word --roster roster.txt
    wrong_use "an option as the roster" $word --roster --again two.book four.bwa
    wrong_use "standard input as the roster" $word --roster - two.book four.bwa
    wrong_use "no name of the roster" $word --roster "" two.book four.bwa
    wrong_use "two rosters" $word --roster roster.txt --roster roster.txt two.book four.bwa
done
run book two.book four.bwa absent.bwa
expect_code 2 "missing file"
expect_err "absent.bwa: cannot open: No such file or directory" "missing file"
expect_err "nothing was booked" "missing file"
expect_same two.book open.book "missing file"
run book two.book four.bwa .
expect_code 2 "directory as a file"
expect_err "it is a directory" "directory as a file"
expect_same two.book open.book "directory as a file"
run book --new absent/two.book order.bwa
expect_code 2 "missing directory"
mkdir shelf
run book shelf order.bwa
expect_code 2 "directory as the book"
expect_err "not an ordinary file" "directory as the book"
mkfifo pipe.book
run list pipe.book
expect_code 2 "list of a FIFO"
run book pipe.book order.bwa
expect_code 2 "FIFO as the book"
expect_err "not an ordinary file" "FIFO as the book"
expect_none pipe.book.lock "FIFO as the book"
cp order.bwa records.bwa
run list records.bwa
expect_code 2 "file of records as the book"
expect_err "this is a file of records and not a book" "file of records as the book"
run book --accept-book records.bwa four.bwa
expect_code 2 "file of records as the book, accepted"
expect_err "this is a file of records and not a book" "file of records as the book, accepted"
expect_same records.bwa order.bwa "file of records as the book"
timeout 30 "$host" list two.book <&- >out 2>err; code=$?
expect_code 2 "closed standard input"
expect_err "standard input: it is closed" "closed standard input"
timeout 30 "$host" list two.book >&- 2>err; code=$?
expect_code 2 "closed standard output"
expect_err "standard output: it is closed" "closed standard output"
timeout 30 "$host" book two.book four.bwa 2>&- >out; code=$?
expect_code 2 "closed standard error"
expect_out "standard error: it is closed" "closed standard error"
expect_same two.book open.book "closed standard error"
