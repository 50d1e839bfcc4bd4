# Links, rights and owners. What root may always do is tried as somebody else.

# --- links --------------------------------------------------------------------------------------------
mkdir real
copy_book schools.book real/book
ln -s real/book link.book
run book link.book four.bwa
expect_code 0 "symbolic link"
[ -h link.book ] || fail "symbolic link: it was replaced"
pass
expect_same real/book after.book "symbolic link"
expect_same real/book.old schools.book "symbolic link"
ln -s real/absent loose.book
run book --new loose.book order.bwa
expect_code 2 "link to nothing"
expect_none real/absent "link to nothing"
copy_book schools.book hard.book
ln hard.book hard2.book
run book hard.book four.bwa
expect_code 2 "two hard links"
expect_err "the book has a second name" "two hard links"
run list hard.book
expect_code 0 "list of a book with two hard links"
rm hard2.book
run book hard.book four.bwa
expect_code 0 "one hard link again"

# --- rights are kept, and nothing private is opened to others ---------------------------------------------
for mode in 600 640 664; do
    copy_book schools.book rights.book
    chmod $mode rights.book
    rm -f rights.book.lock
    run book rights.book four.bwa
    expect_code 0 "a book of mode $mode"
    case $mode in 600) wanted=-rw------- ;; 640) wanted=-rw-r----- ;; 664) wanted=-rw-rw-r-- ;; esac
    for ending in '' .old .digests .log .lock; do
        expect_mode rights.book$ending $wanted "a book of mode $mode"
    done
    rm -f rights.book*
done
(umask 027; timeout 30 "$host" book --new mask.book order.bwa >out 2>err)
for ending in '' .digests .log .lock; do expect_mode mask.book$ending -rw-r----- "a new book under a umask"; done
copy_book schools.book protected.book
chmod 444 protected.book
run book protected.book four.bwa
expect_code 2 "a book that nobody may write"
expect_err "the book is write-protected" "a book that nobody may write"
expect_not "B101" out "a book that nobody may write"
expect_same protected.book schools.book "a book that nobody may write"
expect_none protected.book.lock "a book that nobody may write"
run list protected.book
expect_code 0 "list of a book that nobody may write"

# --- as a clerk whom rights bind ----------------------------------------------------------------------------
if [ "$clerk" = none ]; then
    echo "host: rights of other users not checked (no way to run as one)"
else
    mkdir desk
    copy_book schools.book desk/book
    chmod 000 desk/book
    [ -z "$clerk" ] || chown -R 65534:65534 desk
    for word in list book; do
        files=four.bwa
        [ $word = book ] || files=
        run_as_clerk $word desk/book $files
        expect_code 2 "an unreadable book"
        expect_not "total" out "an unreadable book"
    done
    chmod 200 desk/book
    run_as_clerk book desk/book four.bwa
    expect_code 2 "a book that may be written but not read"
    expect_err "cannot open the book: Permission denied" "a book that may be written but not read"
    chmod 444 desk/book
    run_as_clerk book desk/book four.bwa
    expect_code 2 "a write-protected book"
    expect_err "the book is write-protected" "a write-protected book"
    expect_same desk/book schools.book "a write-protected book"
    chmod 600 desk/book
    chmod 000 desk/book.digests
    run_as_clerk list desk/book
    expect_code 2 "digests that cannot be read"
    expect_err "book.digests: cannot read: Permission denied" "digests that cannot be read"
    chmod 600 desk/book.digests
    chmod 000 desk/book.log
    run_as_clerk book desk/book four.bwa
    expect_code 2 "a log that cannot be read"
    chmod 600 desk/book.log
    run_as_clerk book desk/book four.bwa
    expect_code 0 "a clerk's own book"
    expect_same desk/book after.book "a clerk's own book"
    copy_book schools.book desk/book
    [ -z "$clerk" ] || chown -R 65534:65534 desk
    chmod a-w desk
    run_as_clerk book desk/book four.bwa
    expect_code 2 "read-only directory"
    expect_err "cannot make a new file: Permission denied" "read-only directory"
    expect_out "nothing was saved" "read-only directory"
    expect_same desk/book schools.book "read-only directory"
    run_as_clerk list desk/book
    expect_code 0 "list in a read-only directory"
    chmod u+w desk
    # A move reads where nothing may be written, and makes nothing where it may not.
    mkdir shut
    copy_book former.book shut/book
    [ -z "$clerk" ] || chown -R 65534:65534 shut
    chmod 000 shut/book
    run_as_clerk --to-new shut/book desk/moved
    expect_code 2 "an unreadable book moved"
    expect_err "cannot open the book: Permission denied" "an unreadable book moved"
    nothing_made desk/moved "an unreadable book moved"
    chmod 400 shut/book
    chmod a-w shut
    run_as_clerk --to-new shut/book shut/moved
    expect_code 2 "a move into a read-only directory"
    expect_err "cannot open the lock file: Permission denied" "a move into a read-only directory"
    expect_out "nothing was written" "a move into a read-only directory"
    nothing_made shut/moved "a move into a read-only directory"
    run_as_clerk --to-new shut/book desk/moved
    expect_code 0 "a move out of a read-only directory"
    expect_same desk/moved new_form "a move out of a read-only directory"
    expect_same shut/book old_form "a move out of a read-only directory"
    expect_none shut/book.lock "a move out of a read-only directory"
    chmod u+w shut
fi
if [ -n "$clerk" ] && [ "$clerk" != none ]; then
    copy_book schools.book desk/book
    chown 0:0 desk/book*
    chmod 644 desk/book
    rm -f desk/book.lock
    run_as_clerk book desk/book four.bwa
    expect_code 2 "somebody else's book"
    expect_err "the book is write-protected" "somebody else's book"
    expect_none desk/book.lock "somebody else's book"
    chown 65534:65534 desk/book
    run book desk/book four.bwa
    expect_code 0 "root books into a clerk's book"
    for ending in '' .old .digests .log .lock; do
        [ "$(stat -c %u:%g desk/book$ending)" = 65534:65534 ] || fail "root books into a clerk's book: it is root's now"
        pass
    done
    chown 65534:0 desk/book
    chmod 660 desk/book
    run_as_clerk book desk/book five.bwa
    expect_code 0 "a group that cannot be kept"
    expect_mode desk/book -rw------- "a group that cannot be kept"
    chown 0:65534 desk/book
    chmod 660 desk/book
    put "$(delivery 0006 0001)" >six.bwa
    run_as_clerk book desk/book six.bwa
    expect_code 0 "a group that can be kept"
    expect_mode desk/book -rw-rw---- "a group that can be kept"
    copy_book former.book desk/old
    chown 65534:65534 desk/old
    chmod 640 desk/old
    run --to-new desk/old desk/moved_by_root
    expect_code 0 "root moves a clerk's book"
    for ending in '' .digests .log .lock; do
        [ "$(stat -c %u:%g:%a desk/moved_by_root$ending)" = 65534:65534:640 ] || fail "root moves a clerk's book: moved_by_root$ending is root's"
        pass
    done
fi
