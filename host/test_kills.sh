# Kills and faults at each system call of a run of order, and a disk that is full. What is looked
# at after each: no order is out that the book does not have, none is in the book that no file
# has, and the same command again finishes the work or changes nothing.

# The directory `calm_orders` has a book o, a wish list for two suppliers and an empty out;
# `want_out` and want_o are the files and the book that the run gives.
orders_afresh() { rm -rf fault && cp -rp calm_orders fault; }
order_once() { { (cd fault && timeout 30 "$host" order --roster roster o wishes.csv out >../out 2>../err); code=$?; } 2>/dev/null; }
order_injected() { run_injected "$1" order --roster roster o wishes.csv out; }
# The name and the number of the first call of a traced run that matches.
call_of() {
    awk -v what="$1" '!main && /fcntl\(0<.*F_GETFD/ { main = $1 } { lines[NR] = $0 }
        END { for (i = 1; i <= NR; i++) {
            split(lines[i], part, " ")
            name = part[2]; sub(/\(.*/, "", name)
            if (part[1] == main) count[name]++
            if (part[1] == main && lines[i] ~ what) { print name, count[name]; exit }
        } }' trace
}
waiting_run() { sed -n 's/.*: orders \([0-9a-f]*\) wait in .*/\1/p' fault/o.log | tail -n 1; }

# Each order of the book is in one file, whole: under its own name, or waiting as the log says.
expect_all_in_files() {     # what it is
    run=$(waiting_run)
    for file in want_out/*; do
        name=${file##*/}
        there=fault/out/$name
        [ -e "$there" ] || there=fault/out/.wizqamul-wait-$run-$(digest "$file" | cut -c 1-16)-$name
        cmp -s "$there" "$file" || fail "$1: the book has orders of $name that no file has"
    done
}
expect_orders() {           # what it is
    case $code in
    0 | 1 | 3) cmp -s fault/o want_o || fail "$1: exit code $code, but not the new book" ;;
    2) cmp -s fault/o calm_orders/o || fail "$1: exit code 2, but not the old book" ;;
    137) cmp -s fault/o want_o || cmp -s fault/o calm_orders/o || fail "$1: neither the old book nor the new one" ;;
    *) fail "$1: exit code $code" ;;
    esac
    if cmp -s fault/o want_o; then
        expect_all_in_files "$1"
    else
        [ -z "$(ls fault/out)" ] || fail "$1: orders are out that the book does not have"
    fi
    [ $code -gt 1 ] || diff -r fault/out want_out >/dev/null || fail "$1: exit code $code, but not all orders are out"
    pass
}
expect_finished() {         # what it is
    cmp -s fault/o want_o || fail "$1: the same command again does not give the new book"
    for file in fault/out/*; do cmp -s "$file" "want_out/${file##*/}" || fail "$1: other orders are out"; done
    [ "$(ls fault/out | wc -l)" -eq "$(ls want_out | wc -l)" ] || fail "$1: the same command again does not put out all orders"
    tail -n 1 fault/o.log | grep -q ': orders [0-9a-f]* are out$' || fail "$1: the log does not say that the orders are out"
    cmp -s fault/o.old calm_orders/o || fail "$1: the book before is not kept"
}
# The same command again finishes the work; once more, it changes nothing. Where all is as it was
# before the first time, that is what `calm_orders` gave already.
expect_again() {            # what it is
    ! diff -r fault calm_orders >/dev/null || return 0
    before=new
    cmp -s fault/o want_o || before=old
    order_once
    case $before,$code in old,0 | new,1) ;; *) fail "$1: the same command again, with the $before book: exit code $code" ;; esac
    expect_finished "$1"
    cp fault/o.log kept.log
    ls -A fault/out >kept.names
    order_once
    [ $code -eq 1 ] || fail "$1: the same command a third time: exit code $code"
    expect_finished "$1, a third time"
    ls -A fault/out | cmp -s - kept.names && cmp -s fault/o.log kept.log || fail "$1: a third time something changes"
    pass
}
expect_no_waiting() { ls -A fault/out | grep -q '^\.' && fail "$1: a file is left in out"; expect_tidy fault "$1"; }

kill_everywhere() {
    while read -r name number must fresh lock; do
        at="$name number $number of an order"
        orders_afresh
        order_injected "$name:signal=SIGKILL:when=$number"
        [ $code -eq 137 ] || fail "killed at $at: exit code $code"
        expect_orders "killed at $at"
        expect_again "killed at $at"
    done <order_points
}
fault_everywhere() {
    while read -r name number must fresh lock; do
        reason=EIO
        case $name in write | openat | fsync) reason=ENOSPC ;; esac
        at="$name number $number of an order"
        orders_afresh
        order_injected "$name:error=$reason:when=$number"
        expect_orders "error at $at"
        [ $must = may ] || [ $code -ge 2 ] || fail "error at $at: it goes unnoticed"
        case $name,$code in unlink*) ;; *,2) expect_no_waiting "error at $at" ;; esac
        [ $code -ne 2 ] || ! grep -q '^wishes: ' out || fail "error at $at: wishes are said to be ordered"
        expect_again "error at $at"
    done <order_points
    # Where it cannot be told whether the book outlasts a power cut, its orders wait.
    last=$(awk '$1 == "fsync" { sync = $2 } $1 == "renameat2" { print sync; exit }' order_points)
    orders_afresh
    order_injected "fsync:error=EIO:when=$last"
    expect_code 3 "the book may not be on the disk"
    expect_err "/fault/: cannot put the directory on the disk: Input/output error" "the book may not be on the disk"
    expect_err "out: orders may wait here that are not put out" "the book may not be on the disk"
    expect_err "/o: the book is saved" "the book may not be on the disk"
    [ -z "$(ls fault/out)" ] || fail "the book may not be on the disk, and its orders are out"
    # A name of which it cannot be told whether it is free is not taken.
    orders_afresh
    order_injected ""
    look=$(call_of 'stat.*"24000-VD-[0-9a-f]*.bwa"')
    orders_afresh
    order_injected "${look% *}:error=EACCES:when=${look#* }"
    expect_code 2 "a name that cannot be seen"
    expect_err ".bwa: cannot see whether there is such a file of orders: Permission denied" "a name that cannot be seen"
}

# Orders that wait cannot be put out, so the next run does nothing.
not_put_out() {             # what is said, what it is, and the name of a file that is in out already
    run order fault/o fault/more.csv fault/elsewhere
    expect_code 2 "$2"
    expect_err "$1" "$2"
    expect_same fault/o booked.book "$2"
    [ -z "$(ls fault/out 2>/dev/null | grep -vxF "${3:-}")$(ls -A fault/elsewhere)" ] || fail "$2: a file came out"
}

# A run that is killed when the book is in place: every other run says that orders wait.
orders_that_wait() {
    orders_afresh
    order_injected "$put_out:signal=SIGKILL"
    expect_code 137 "killed before the orders are out"
    cmp -s fault/o want_o || fail "killed before the orders are out: not the new book"
    [ -z "$(ls fault/out)" ] || fail "killed before the orders are out: they are out"
    run list fault/o
    expect_code 1 "a list while orders wait"
    expect_err "/fault/out: orders of this book wait here and are not put out yet; wizqamul-host order puts them out" "a list while orders wait"
    run book fault/o order.bwa
    expect_code 1 "a booking while orders wait"
    expect_err "orders of this book wait here" "a booking while orders wait"
    run_injected "fsync:error=EIO:when=6" book o one.bwa
    expect_code 3 "a booking while orders wait that may not be on the disk"
    expect_err "orders of this book wait here" "a booking while orders wait that may not be on the disk"
    cp fault/o booked.book
    # Where their directory is not there, nothing is ordered.
    mv fault/out fault/away
    mkdir fault/elsewhere
    echo 'school;supplier;reference;article;quantity
43210;24000;W-9;9783442756841;1' >fault/more.csv
    not_put_out "/fault/out: orders of an earlier run wait in this directory, which cannot be opened: No such file or directory" "an order while others wait in a directory that is away"
    mv fault/away fault/out
    # A file that waits with an order that the book does not have is not put out.
    wait=$(ls -A fault/out | grep -e -24000-VD-)
    cp "fault/out/$wait" kept.wait
    for change in 's/A-1/A-7/' 's/A-2/A-8/' 's/43210/43211/' 's/24000/24001/' 's/EN0010/EN0011/' \
        's/9783442756841EN/9783120060017EN/' 's/841EN/841KN/' 's/B101/L101/' 's/EN0010.*/EN/'; do
        sed "$change" kept.wait >"fault/out/$wait"
        not_put_out "this file waits with an order that the book does not have" "an order that waits and that the book does not have"
    done
    # Nor is a link, and a pipe holds nothing up.
    rm "fault/out/$wait"
    ln -s ../../kept.wait "fault/out/$wait"
    not_put_out "$wait: cannot read this file of orders that waits" "a link that waits"
    rm "fault/out/$wait"
    mkfifo "fault/out/$wait"
    not_put_out "$wait: this file of orders waits and is not as it was written" "a pipe that waits"
    rm "fault/out/$wait"
    # Nor one that lost an order, or its name.
    for change in '$d' d; do
        sed "$change" kept.wait >"fault/out/$wait"
        not_put_out "$wait: this file of orders waits and is not as it was written" "a file that waits and lost an order"
    done
    for lost in "${wait%????????????????????????????????????*}" "${wait%?24000*}" "${wait%24000*}"; do
        mv "fault/out/$wait" "fault/out/$lost"
        cp kept.wait "fault/out/$lost"
        not_put_out "$lost: this file of orders waits and is not as it was written" "a file that waits and lost its name"
        mv "fault/out/$lost" "fault/out/$wait"
    done
    cp kept.wait "fault/out/$wait"
    # A directory that cannot be read may hold orders that wait.
    run_injected "getdents64:error=EIO:when=$(awk '$1 == "getdents64" { print $2; exit }' order_points)" order o more.csv elsewhere
    expect_code 2 "a directory of orders that wait that cannot be read"
    expect_err "/fault/out: cannot look for the orders that wait: Input/output error" "a directory of orders that wait that cannot be read"
    [ -z "$(ls fault/out)$(ls -A fault/elsewhere)" ] || fail "a directory of orders that wait that cannot be read: something is out"
    # A file in the way of one that waits stays, and the next run goes on.
    name=${wait#.wizqamul-wait-????????????????-????????????????-}
    echo mine >"fault/out/$name"
    not_put_out "$name: cannot put out this file of orders, which waits: File exists" "a file in the way of one that waits" "$name"
    [ "$(cat "fault/out/$name")" = mine ] || fail "a file in the way of one that waits: it is lost"
    rm "fault/out/$name"
    run order fault/o fault/more.csv fault/elsewhere
    expect_code 1 "an order after others were put out late"
    expect_err "/fault/out: orders of an earlier run wait here, and are put out first" "an order after others were put out late"
    expect_not "none is left here" err "an order after others were put out late"
    expect_out "wishes: 1 ordered, 0 refused" "an order after others were put out late"
    diff -r fault/out want_out >/dev/null || fail "orders that are put out late are not those"
    [ "$(ls -A fault/elsewhere | wc -l)" -eq 1 ] || fail "an order after others were put out late: not out"
    run list fault/o
    expect_code 0 "a list after all orders are out"
    # Their book goes to the disk before they are put out; then all is as in an order.
    orders_afresh
    order_injected "$put_out:signal=SIGKILL"
    order_injected "fsync:error=EIO:when=1"
    expect_code 2 "orders put out late, though their book may not be on the disk"
    [ -z "$(ls fault/out)" ] || fail "orders put out late, though their book may not be on the disk: they are out"
    order_injected ""
    expect_code 1 "orders put out late, traced"
    list_points | awk '/^fsync/ { print "sync", $4 } /^rename/ { print $1 }' | sed 's/renameat2/name/;s/^rename.*/rename/' | tr '\n' ' ' >got
    echo "sync other name name sync other sync fresh rename sync other sync other " | tr -d '\n' >wanted
    expect_text got wanted "the order of orders put out late"
    # The log names the directory, whatever its name holds.
    odd=$(printf 'o\\x41 d\303\244\377\n: orders')
    orders_afresh
    mkdir "fault/$odd"
    run_injected "$put_out:signal=SIGKILL" order --roster roster o wishes.csv "$odd"
    expect_code 137 "killed before the orders are out in an odd directory"
    order_once
    expect_code 1 "orders in an odd directory, put out late"
    diff -r "fault/$odd" want_out >/dev/null || fail "orders in an odd directory are not those"
    [ -z "$(ls -A fault/out)" ] || fail "orders in an odd directory come out elsewhere"
    # Files that somebody put out by hand are not missed.
    orders_afresh
    order_injected "$put_out:signal=SIGKILL"
    for wait in fault/out/.wizqamul*; do mv "$wait" "fault/out/${wait#fault/out/.wizqamul-wait-????????????????-????????????????-}"; done
    order_once
    expect_code 1 "orders that were put out by hand"
    expect_err "none is left here that waits" "orders that were put out by hand"
    expect_finished "orders that were put out by hand"
    # A book that was taken back does not put out what waits of the run that it lost.
    orders_afresh
    order_injected "$put_out:signal=SIGKILL"
    cp fault/o.old fault/o
    run list fault/o
    expect_code 0 "a book that was taken back while orders waited"
    sed -i 's/A-1/B-1/' fault/wishes.csv
    order_once
    expect_code 0 "orders of a book that was taken back"
    ! grep -q 'A-1 ' fault/out/*.bwa || fail "orders that were taken back are out"
}

# Two runs at once, and somebody who takes files away.
orders_meanwhile() {
    orders_afresh
    start_stopped $(awk '$1 == "openat" && $5 == "lock" { print $1, $2; exit }' order_points) order --roster roster o wishes.csv out
    run book fault/o fault/one.bwa
    expect_code 0 "a run while an order has no lock yet"
    go_on
    expect_code 0 "an order that gets the lock later"
    cp first.out out
    expect_out "wishes: 3 ordered, 0 refused" "an order that gets the lock later"
    tail -n 4 fault/o.log | head -n 1 | grep -q ': fault/one.bwa$' || fail "an order that gets the lock later: the book is not that of before"
    for stop in "$(awk '$1 == "fsync" { sync = $1 " " $2 } $1 == "renameat2" { print sync; exit }' order_points)" "$(awk '$1 == "fsync" { last = this; this = $1 " " $2 } END { print last }' order_points)"; do
        orders_afresh
        start_stopped $stop order --roster roster o wishes.csv out
        run book fault/o fault/one.bwa
        expect_code 2 "a run while another orders"
        expect_err "another run" "a run while another orders"
        go_on
        expect_code 0 "the run that orders"
        expect_orders "the run that orders"
    done
    orders_afresh
    order_injected ""
    look=$(call_of 'openat.*, "\\.", ')
    orders_afresh
    start_stopped $look order --roster roster o wishes.csv out
    rm fault/out/.wizqamul-wait-*-BUCH2-*
    go_on
    expect_code 3 "a file of orders that somebody takes away"
    cp first.err err
    expect_err "out: not all files of orders are there any more" "a file of orders that somebody takes away"
}

# Where no wish is accepted nothing can wait, though what was saved may not be on the disk.
nothing_waits() {
    orders_afresh
    sed 's/;[0-9]*$/;0/' calm_orders/wishes.csv >fault/none.csv
    run_injected "" order o none.csv out
    expect_code 1 "no wish accepted, traced"
    last=$(list_points | awk '$1 == "fsync" { last = $2 } END { print last }')
    orders_afresh
    sed 's/;[0-9]*$/;0/' calm_orders/wishes.csv >fault/none.csv
    run_injected "fsync:error=EIO:when=$last" order o none.csv out
    expect_code 3 "no wish accepted, and a log that may not be on the disk"
    expect_not "orders may wait" err "no wish accepted, and a log that may not be on the disk"
}

# Where the file system cannot take a free name in one step, a file has both names for a moment.
put_out_by_links() {
    also="renameat2:error=EINVAL"
    orders_afresh
    order_injected ""
    expect_code 0 "orders put out by a second name"
    expect_orders "orders put out by a second name"
    expect_no_waiting "orders put out by a second name"
    for what in "linkat:signal=SIGKILL:when=1" "linkat:signal=SIGKILL:when=2" "unlinkat:signal=SIGKILL:when=1" \
        "unlinkat:signal=SIGKILL:when=2" "linkat:error=EIO:when=1" "linkat:error=EPERM:when=2"; do
        orders_afresh
        order_injected "$what"
        expect_orders "orders put out by a second name, $what"
        expect_again "orders put out by a second name, $what"
        expect_no_waiting "orders put out by a second name, $what"
    done
    also=
}

# A disk that is full: the directory of the book, or out, is a small file system of its own.
on_small_disk() {   # which directory, how many pages are free; orders there, and leaves what came of it in fault
    orders_afresh
    timeout 60 $small sh -c '
        where=$1 pages=$2 host=$3
        mv fault whole && mkdir fault && cp -rp whole/. fault && rm -rf whole
        cp -rp "$where" keep && mount -t tmpfs -o size=400k tmpfs "$where" && cp -rp keep/. "$where" || exit 99
        dd if=/dev/zero of=filler bs=4k count=$pages 2>/dev/null
        cp filler "$where/filler" && dd if=/dev/zero of="$where/rest" bs=4k 2>/dev/null; rm "$where/filler"
        (cd fault && "$host" order --roster roster o wishes.csv out >../out 2>../err); code=$?
        rm -f "$where/rest"
        rm -rf came && cp -rp fault came; exit $code' sh "$1" "$2" "$host"
    code=$?
    rm -rf fault keep filler
    mv came fault
}
full_disk() {
    for where in fault/out fault; do
        failed=0 done=0
        for pages in 0 1 2 3 4 5 6 7 8 12; do
            on_small_disk $where $pages
            expect_orders "a full disk, $pages pages in $where"
            case $code in
            0) done=1 ;;
            2) failed=1; expect_no_waiting "a full disk, $pages pages in $where"; expect_err "No space left on device" "a full disk, $pages pages in $where" ;;
            esac
            expect_again "a full disk, $pages pages in $where"
        done
        [ $failed,$done = 1,1 ] || fail "a full disk: $where never was too full, or always"
    done
}

mkdir calm_orders calm_orders/out
copy_book kept.book calm_orders/o
: >calm_orders/o.lock
echo "43210 VD 600" >calm_orders/roster
put "$(delivery 0077 0001)" >calm_orders/one.bwa
printf 'school;supplier;reference;date;article;quantity\n43210;24000;A-1;20240219;9783442756841;10\n43210;BUCH2;A-1;20240219;9783442756841;5\n43210;24000;A-2;20240219;3442756847;3\n' >calm_orders/wishes.csv
orders_afresh
order_once
expect_code 0 "orders, undisturbed"
cp fault/o want_o
cp -rp fault/out want_out
[ "$(ls -A want_out | wc -l)" -eq 2 ] || fail "orders, undisturbed: not two files"
if strace -f -o /dev/null -e trace=getppid -e inject=getppid:error=EIO true 2>/dev/null; then
    orders_afresh
    order_injected ""
    expect_code 0 "orders, traced"
    expect_orders "orders, traced"
    list_points >order_points
    # Two files of orders go to the disk, and their directory; then the book is saved as always
    # (see test_faults.sh); then both files take their names, and their directory goes to the disk;
    # then the log says so.
    awk '/^fsync/ { print "sync", $4 } /^rename/ { print $1 }' order_points | sed 's/renameat2/name/;s/^rename.*/rename/' | tr '\n' ' ' >got
    echo "sync fresh sync fresh sync other sync fresh sync fresh sync fresh sync fresh rename rename rename sync other rename sync other name name sync other sync fresh rename sync other sync other " | tr -d '\n' >wanted
    expect_text got wanted "the order of an order"
    put_out=$(awk '$1 == "renameat2" { print $1 ":when=" $2; exit }' order_points)
    put_out=${put_out%%:*}
    kill_everywhere
    fault_everywhere
    orders_that_wait
    nothing_waits
    orders_meanwhile
    put_out_by_links
else
    echo "host: orders not killed (no strace)"
fi
small=
for way in "unshare -m" "unshare -rm"; do
    [ -n "$small" ] || ! $way sh -c 'mount -t tmpfs -o size=64k tmpfs calm_orders' 2>/dev/null || small=$way
done
if [ -n "$small" ]; then
    full_disk
else
    echo "host: a full disk not tried (no way to make a small one)"
fi
