# The two moves: a book of one form becomes a new book of the other, and is never written over.

nothing_made() {    # the book that was not made, what it is
    for beside in '' .old .digests .log .lock; do expect_none "$1$beside" "$2"; done
    expect_tidy "$(dirname "$1")" "$2"
}
not_moved() {       # what is said, what it is; then option, book and new book, of which nothing is there
    said=$1 what=$2
    shift 2
    state_of_book "$2" >state
    run "$@"
    expect_code 2 "$what"
    expect_err "$said" "$what"
    expect_not "moved to" out "$what"
    state_of_book "$2" >got
    expect_same got state "$what"
    nothing_made "$3" "$what"
}
moved() {           # the bytes that it gives, what it is; then option, book and new book
    want=$1 what=$2
    shift 2
    state_of_book "$2" >state
    run "$@"
    expect_code 0 "$what"
    expect_same "$3" "$want" "$what"
    state_of_book "$2" >got
    expect_same got state "$what"
    grep -q "^$(digest "$3") 20..-" "$3.digests" || fail "$what: the digest of the new book is not known"
    expect_none "$3.old" "$what"
    expect_tidy . "$what"
}

# --- there and back, byte for byte ----------------------------------------------------------------------
moved new_form "old to new" --to-new former.book there.book
echo "moved to the new form: there.book, used: 3 of 512 lines, 1 of 1024 slips" >wanted
expect_text out wanted "old to new"
echo "wizqamul-host: $(pwd -P)/there.book: a new book was made" >wanted
expect_text err wanted "old to new"
run list there.book
expect_code 0 "the list of a moved book"
expect_silent "the list of a moved book"
expect_list "the list of a moved book" <rows
moved old_form "new to old" --to-old there.book and_back.book
echo "moved to the old form: and_back.book, used: 3 of 512 lines, 1 of 1024 slips" >wanted
expect_text out wanted "new to old"
run list and_back.book
expect_code 0 "the list of a book moved back"
expect_list "the list of a book moved back" <rows
moved new_form "old to new once more" --to-new and_back.book once_more.book
moved old_form "new to old of a book that was not moved" --to-old new_too.book too.book
printf '\000\000\000\000\000' >nothing
run book --new hollow.book
moved nothing "an empty book to the new form" --to-new hollow.book hollow_new.book
moved nothing "an empty book to the old form" --to-old hollow.book hollow_old.book
moved nothing "an empty book there and back" --to-old hollow_new.book hollow_back.book
run book hollow_old.book order.bwa
expect_code 0 "booking into an empty book that was moved"
expect_not "old form" err "booking into an empty book that was moved"
{ head -c $((512 * 53)) lines; saved_end '\000\002\000\000'; } >brim_old.book
know brim_old.book
run --to-new brim_old.book brim_new.book
expect_code 0 "a full book moved"
[ "$(wc -c <brim_new.book)" -eq $((512 * 63 + 5)) ] || fail "a full book moved: its length is $(wc -c <brim_new.book)"
pass
moved brim_old.book "a full book moved back" --to-old brim_new.book brim_back.book
sed '$d' brim.bwa >brim_silent.bwa
run book --new longest_new.book brim_silent.bwa
run --to-old longest_new.book longest_old.book
expect_code 0 "the longest book moved"
[ "$(wc -c <longest_old.book)" -eq 79365 ] || fail "the longest book moved: its length is $(wc -c <longest_old.book)"
pass
moved longest_new.book "the longest book moved back" --to-new longest_old.book longest_back.book

run --to-new former.book "$(printf 'odd\033name')"
expect_code 0 "an odd name of a new book"
expect_out 'moved to the new form: odd\x1Bname, used:' "an odd name of a new book"

# --- each move takes its own form only: 22, with what the book is ---------------------------------------
not_moved "there.book: answer 22: this book is of the new form already; --to-old moves it" "new to new" --to-new there.book x.book
expect_err "x.book: nothing was written" "new to new"
expect_out "nothing was written: the book stands as it was before this run" "new to new"
not_moved "former.book: answer 22: this book is of the old form already; --to-new moves it" "old to old" --to-old former.book x.book
expect_out "nothing was written: the book stands as it was before this run" "old to old"
not_moved "answer 22: this book is of the new form already" "new to new, with messages" --to-new grown.book x.book
{ old_line R-1 "$none"; new_line R-2 "$held$unknown" ''; saved_end '\002\000\000\000'; } >both.book
head -c 200 old_form >short.book
{ new_line R-1 "$held"'\350\003' ''; saved_end '\001\000\000\000'; } >thousand.book
for book in both short thousand; do
    know $book.book
    for option in --to-new --to-old; do
        not_moved "$book.book: answer 22: the book is damaged" "$option of $book.book" $option $book.book x.book
        expect_not "already" err "$option of $book.book"
    done
done
cp large.book larger.book
know larger.book
not_moved "answer 23: the book has more than 512 lines" "a book of 513 lines moved" --to-new larger.book x.book
cp old_form alien.book
not_moved "there are no digests beside this book" "a book without digests" --to-new alien.book x.book
cp schools.book.digests alien.book.digests
not_moved "this is none of the books that were saved here" "a book that is not known" --to-new alien.book x.book
not_moved "this is a file of records and not a book" "a file of records moved" --to-new records.bwa x.book
not_moved "absent.book: there is no such book" "a book that is not there moved" --to-new absent.book x.book
for book in shelf pipe.book; do
    run --to-new $book x.book
    expect_code 2 "$book moved"
    expect_err "not an ordinary file" "$book moved"
    nothing_made x.book "$book moved"
done
not_moved "no book is as long as this file" "a file that is too long moved" --to-old long.book x.book

# --- a message would be lost: 28, with the lines that have one -------------------------------------------
{ new_line R-1 '\012\000\002\000\000' 00000000; new_line R-2 "$held"'\017\000' 20240315; new_line R-3 "$let_go$unknown" ''
  new_line R-4 "$none$absent" ''; new_line "$(printf 'R\3745')" "$held"'\347\003' ''; saved_end '\005\000\000\000'; } >spoken.book
know spoken.book
not_moved "answer 28" "messages would be lost" --to-old spoken.book x.book
lost() { echo "wizqamul-host: $(pwd -P)/spoken.book: message $1 would be lost: school 43210 VD, supplier 24000 VD, reference $2"; }
last_words() {  # how many lines
    echo "wizqamul-host: $(pwd -P)/spoken.book: answer 28: the old form has no place for messages (lines: $1); keep it in the new form, or move a book from before these reports"
    echo "wizqamul-host: x.book: nothing was written"
}
{ lost 000 R-1; lost 015 R-2; lost 999 "$(printf 'R\303\2745')"; last_words 3; } >wanted_err
expect_text err wanted_err "messages would be lost"
expect_out "nothing was written: the book stands as it was before this run" "messages would be lost"
{ new_line R-3 "$let_go$unknown" ''; new_line R-4 "$held"'\347\003' 20240315; saved_end '\002\000\000\000'; } >spoken.book
know spoken.book
not_moved "answer 28" "the message of the last line would be lost" --to-old spoken.book x.book
{ lost 999 R-4; last_words 1; } >wanted_err
expect_text err wanted_err "the message of the last line would be lost"
not_moved "answer 22: this book is of the new form already" "messages are no matter for the new form" --to-new spoken.book x.book
not_moved "answer 28: the old form has no place for messages (lines: 3)" "the example day" --to-old day.book day.old-form
[ "$(grep -c 'would be lost: school' err)" -eq 3 ] || fail "the example day: not three lines are named"
pass

# --- never over the book that is read, by whatever name -------------------------------------------------
copy_book former.book read.book
run book read.book two_copies.bwa
copy_book read.book read_old.book
cp read.book.old read_old.book
mkdir -p place
ln -s ../read_old.book place/link
ln -s place way
ln read_old.book second.book
over_itself() {     # the name, what it is
    for option in --to-new --to-old; do
        state_of_book read_old.book >state
        run $option read_old.book "$1"
        expect_code 2 "$2"
        echo "wizqamul-host: $1: this is the book that is read, which is never written over" >wanted
        expect_text err wanted "$2"
        expect_silent_out "$2"
        state_of_book read_old.book >got
        expect_same got state "$2"
    done
    expect_tidy . "$2"
}
over_itself read_old.book "over itself"
over_itself ./read_old.book "over itself, by a dot"
over_itself place/../read_old.book "over itself, by a way round"
over_itself "$(pwd)/read_old.book" "over itself, by its whole path"
over_itself place/link "over itself, by a link"
over_itself way/link "over itself, by two links"
over_itself second.book "over itself, by a hard link"
[ -h place/link ] || fail "over itself: the link was replaced"
pass
expect_none second.book.lock "over itself, by a hard link"
expect_none place/link.lock "over itself, by a link"
run --to-new place/link second.book
expect_code 2 "over itself, read by a link"
expect_err "this is the book that is read" "over itself, read by a link"
run --to-new place/link place/far.book
expect_code 0 "a book read by a link"
expect_same place/far.book new_form "a book read by a link"
run --to-new second.book place/farther.book
expect_code 2 "a book by a hard link has no digests there"
know second.book
run --to-new second.book place/farther.book
expect_code 0 "a book with two names is read"
expect_same place/farther.book new_form "a book with two names is read"
rm second.book second.book.digests

# --- never over another file either ---------------------------------------------------------------------
: >read_old.book.lock
for ending in .old .digests .log .lock; do
    state_of_book read_old.book >state
    run --to-new read_old.book "read_old.book$ending"
    expect_code 2 "over BOOK$ending"
    expect_err "read_old.book$ending: this file belongs to the book that is read" "over BOOK$ending"
    state_of_book read_old.book >got
    expect_same got state "over BOOK$ending"
done
cp old_form single_file.book
know single_file.book
for ending in .old .log .lock; do
    not_moved "the files of this book would have names that the book that is read needs" "a new book named BOOK$ending" --to-new single_file.book "single_file.book$ending"
done
cp old_form grand.old
know grand.old
not_moved "the files of this book would have names that the book that is read needs" "a new book whose files take the book's name" --to-new grand.old ./grand.old.log
state_of_book grand.old >state
run --to-new grand.old grand
expect_code 2 "a book that is BOOK.old of the new one"
expect_err "the files of this book would have names that the book that is read needs" "a book that is BOOK.old of the new one"
expect_none grand "a book that is BOOK.old of the new one"
state_of_book grand.old >got
expect_same got state "a book that is BOOK.old of the new one"
over_file() {       # what stands there, what it is
    run --to-new former.book "$1"
    expect_code 2 "$2"
    echo "wizqamul-host: $1: there is such a file already; a move makes a book that is not there" >wanted
    expect_text err wanted "$2"
    expect_silent_out "$2"
    expect_none "$1.lock" "$2"
}
echo "a clerk's own notes" >notes
over_file notes "over somebody's file"
[ "$(cat notes)" = "a clerk's own notes" ] || fail "over somebody's file: it is lost"
pass
cp there.book other_there.book
over_file other_there.book "over another book"
expect_same other_there.book there.book "over another book"
: >empty_file
over_file empty_file "over an empty file"
[ -e empty_file ] && [ ! -s empty_file ] || fail "over an empty file: it is not empty"
pass
over_file shelf "over a directory"
ln -s nowhere loose
over_file loose "over a link to nothing"
expect_none nowhere "over a link to nothing"
[ -h loose ] || fail "over a link to nothing: it was replaced"
pass
mkfifo tube
over_file tube "over a FIFO"
for ending in .digests .log .old; do
    echo "a clerk's own notes" >"x.book$ending"
    run --to-new former.book x.book
    expect_code 2 "somebody's file named OUT$ending"
    expect_err "move it away" "somebody's file named OUT$ending"
    expect_none x.book "somebody's file named OUT$ending"
    [ "$(cat "x.book$ending")" = "a clerk's own notes" ] || fail "somebody's file named OUT$ending: lost"
    rm -f x.book*
done

# --- a place that is none, and wrong use ----------------------------------------------------------------
not_moved "absent/x.book: cannot find the book or its directory: No such file or directory" "into a directory that is not there" --to-new former.book absent/x.book
run --to-new former.book notes/x.book
expect_code 2 "into a file"
expect_err "cannot find the book or its directory: Not a directory" "into a file"
wrong_move() {      # what it is; then the arguments
    expect_usage "$@"
    nothing_made x.book "$what"
}
wrong_move "a move of nothing" --to-new
wrong_move "a move to nowhere" --to-old former.book
wrong_move "a move to two books" --to-new former.book x.book y.book
expect_none y.book "a move to two books"
wrong_move "a move to standard output" --to-new former.book -
wrong_move "a move of standard input" --to-new - x.book
wrong_move "a move to no name" --to-old former.book ""
wrong_move "a move of no name" --to-old "" x.book
wrong_move "both moves" --to-new --to-old former.book x.book
wrong_move "a move behind an option" --accept-book --to-new former.book x.book
wrong_move "a move with an option" --to-new --accept-book former.book x.book
wrong_move "a move before an option" --to-new --again x.book
wrong_move "a move behind the book" former.book --to-new x.book
wrong_move "a move with a roster" --roster roster.txt --to-new former.book x.book
run --to-newer former.book x.book
expect_err "wizqamul-host book [--new] [--accept-book] [--again] [--roster ROSTER] BOOK FILE.." "the usage"
expect_err "wizqamul-host --to-new BOOK OUT" "the usage"
expect_err "wizqamul-host --to-old BOOK OUT" "the usage"

# --- the streams are no files of either book ------------------------------------------------------------
for ending in '' .digests .log; do
    copy_book former.book own.book
    cp own.book"$ending" before
    for out in x.book own.book; do
        timeout 30 "$host" --to-new own.book $out >>own.book"$ending" 2>err; code=$?
        expect_code 2 "a move to $out with own file$ending as standard output"
        expect_same own.book"$ending" before "a move to $out with own file$ending as standard output"
        expect_err "is a file of this book" "a move to $out with own file$ending as standard output"
        timeout 30 "$host" --to-new own.book $out 2>>own.book"$ending" >out; code=$?
        expect_code 2 "a move to $out with own file$ending as standard error"
        expect_same own.book"$ending" before "a move to $out with own file$ending as standard error"
    done
    nothing_made x.book "a move with own file$ending as a stream"
done
copy_book there.book x.book
rm x.book
cp x.book.log before
timeout 30 "$host" --to-new former.book x.book >>x.book.log 2>err; code=$?
expect_code 2 "a move with the new book's log as standard output"
expect_same x.book.log before "a move with the new book's log as standard output"
expect_none x.book "a move with the new book's log as standard output"
rm -f x.book*

# --- the new book goes on where the other stands: files booked before are known ---------------------------
copy_book former.book past.book
run book past.book two_copies.bwa
run --to-old past.book past_old.book
expect_code 0 "a book with a past"
{ cat past.book.log
  echo "WHEN from $(digest past.book | cut -c 1-16) to $(digest past_old.book | cut -c 1-16): a book moved to the other form"; } >wanted
sed '$s/^20..-..-..T..:..:..Z/WHEN/' past_old.book.log >got
expect_text got wanted "the log of a book with a past"
run book past_old.book two_copies.bwa
expect_code 1 "a file booked before the move"
expect_err "two_copies.bwa: left out" "a file booked before the move"
expect_not "whole past" err "a file booked before the move"
expect_not "do not count" err "a file booked before the move"
run book past_old.book five.bwa
expect_code 1 "a file booked after the move"
expect_not "left out" err "a file booked after the move"
expect_err "$now_new" "a file booked after the move"
run --to-old past_old.book past_back.book
run book past_back.book five.bwa
expect_err "five.bwa: left out" "files booked before two moves"
run book past_back.book two_copies.bwa
expect_err "two_copies.bwa: left out" "files booked before two moves"
run book past.book five.bwa
expect_not "left out" err "a file that was booked into the moved book alone"
# What an earlier book of the name has left counts no more; neither does it stand in the way.
rm past_old.book
cp past_old.book.log before_log
run --to-new former.book past_old.book
expect_code 0 "beside what an earlier book left"
head -c "$(wc -c <before_log)" past_old.book.log >got
expect_same got before_log "beside what an earlier book left"
[ "$(grep -c '^# ' past_old.book.log)" -eq 1 ] || fail "beside what an earlier book left: the log has not one head"
pass
printf 'damage and no end' >>past.book.log
run --to-old past.book torn.book
expect_code 0 "a log with damage at its end"
run book torn.book two_copies.bwa
expect_err "two_copies.bwa: left out" "a log with damage at its end"
rm past.book.log
run --to-old past.book logless.book
expect_code 0 "a book without a log"
[ "$(wc -l <logless.book.log)" -eq 2 ] || fail "a book without a log: its log has not two lines"
pass
run book logless.book two_copies.bwa
expect_err "does not tell this book's whole past" "a book without a log"

# --- the rights of the book that is read ------------------------------------------------------------------
for mode in 600 640 444; do
    copy_book former.book rights.book
    chmod $mode rights.book
    run --to-new rights.book x.book
    expect_code 0 "a book of mode $mode moved"
    case $mode in 600) wanted=-rw------- ;; 640) wanted=-rw-r----- ;; 444) wanted=-r--r--r-- ;; esac
    for ending in '' .digests .log; do expect_mode x.book$ending $wanted "a book of mode $mode moved"; done
    rm -f rights.book* x.book*
done

# --- a full disk, and a standard output that nobody can write to ------------------------------------------
for blocks in 0 1; do
    rm -f x.book*
    many 1 40 >forty.bwa
    rm -f forty.book*
    run book --new forty.book forty.bwa
    state_of_book forty.book >state
    { (ulimit -f $blocks; "$host" --to-old forty.book x.book; echo "exit $?") | cat >out; } 2>&1 | cat >err
    code=$(sed -n 's/^exit //p' out)
    expect_code 2 "a move with file size limit $blocks"
    expect_err "File too large" "a move with file size limit $blocks"
    expect_err "x.book: nothing was written" "a move with file size limit $blocks"
    expect_none x.book "a move with file size limit $blocks"
    expect_none x.book.log "a move with file size limit $blocks"
    expect_tidy . "a move with file size limit $blocks"
    state_of_book forty.book >got
    expect_same got state "a move with file size limit $blocks"
done
if [ -c /dev/full ]; then
    rm -f x.book*
    timeout 30 "$host" --to-new former.book x.book >/dev/full 2>err; code=$?
    expect_code 3 "a move that cannot be told"
    expect_err "standard output: cannot write" "a move that cannot be told"
    expect_err "x.book: the book is saved" "a move that cannot be told"
    expect_same x.book new_form "a move that cannot be told"
fi
rm -f x.book*
