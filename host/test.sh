#!/bin/sh
# Tests the host program. Usage: test.sh PROGRAM
# Builds nothing; works in a directory of its own. Exit 1 at the first check that fails.
# Where RUN is set, the program is run by it, as by an emulator. The checks stand in the
# parts test_*.sh, which are run in order.

[ $# -eq 1 ] && [ -x "$1" ] || { echo "usage: test.sh PROGRAM" >&2; exit 1; }
parts=$(cd "$(dirname "$0")" && pwd)
work=${TMPDIR:-/tmp}/wizqamul-host-test.$$
mkdir -m 755 "$work" || exit 1
child=
trap 'chmod -R u+rwx "$work"; [ -z "$child" ] || kill -9 $child 2>/dev/null; rm -rf "$work"' EXIT
trap 'exit 1' HUP INT TERM
cp "$1" "$work/wizqamul-host" && cd "$work" || exit 1
host=$work/wizqamul-host
umask 022
if [ -n "${RUN:-}" ]; then
    printf '#!/bin/sh\nexec %s %s "$@"\n' "$RUN" "$host" >program && chmod 755 program || exit 1
    host=$work/program
fi
passed=0
code=0

fail() {
    echo "host: FAILED: $1" >&2
    [ ! -s out ] || { echo "standard output was:" >&2; head -20 out >&2; }
    [ ! -s err ] || { echo "standard error was:" >&2; head -20 err >&2; }
    exit 1
}
pass() { passed=$((passed + 1)); }

# Runs the program; keeps its exit code and both outputs. A run that hangs is ended.
run() { timeout 30 "$host" "$@" >out 2>err; code=$?; }

# Runs it as somebody whom the rights of files bind, in a directory that is his own.
if [ "$(id -u)" -ne 0 ]; then
    clerk=
elif command -v setpriv >/dev/null; then
    clerk="setpriv --reuid=65534 --regid=65534 --clear-groups"
else
    clerk=none
fi
[ -z "$clerk" ] || [ "$clerk" = none ] || $clerk test -r "$work/wizqamul-host" || clerk=none
run_as_clerk() { timeout 30 $clerk "$host" "$@" >out 2>err; code=$?; }

expect_code() { [ "$code" -eq "$1" ] || fail "$2: exit code $code, not $1"; pass; }
expect_out() { grep -qF -e "$1" out || fail "$2: no \"$1\" on standard output"; pass; }
expect_err() { grep -qF -e "$1" err || fail "$2: no \"$1\" on standard error"; pass; }
expect_not() { ! grep -qF -e "$1" "$2" || fail "$3: \"$1\" is said"; pass; }
expect_silent_out() { [ ! -s out ] || fail "$1: something is said on standard output"; pass; }
expect_silent() { [ ! -s err ] || fail "$1: something is said on standard error"; pass; }
expect_same() { cmp -s "$1" "$2" || fail "$3: $1 and $2 differ"; pass; }
expect_none() { [ ! -e "$1" ] && [ ! -h "$1" ] || fail "$2: $1 is there"; pass; }
expect_mode() { case $(ls -l "$1") in "$2"*) pass ;; *) fail "$3: the rights of $1 are not $2" ;; esac; }
expect_text() {     # the file with what was said, the file with what should be, what it is
    cmp -s "$1" "$2" || { diff "$2" "$1" | head -10 >&2; fail "$3: something else is said"; }
    pass
}
expect_usage() {    # what it is; then the arguments, which are wrong use: only how to use it is said
    what=$1
    shift
    run "$@"
    expect_code 2 "$what"
    expect_err "usage:" "$what"
    expect_silent_out "$what"
}
digest() { sha256sum <"$1" | cut -c 1-64; }

# Nothing of a new file is left in a directory.
expect_tidy() {
    for left in "$1"/.wizqamul*; do [ ! -e "$left" ] || fail "$2: $left is left"; done
    pass
}

# The answers of a run, one a record: number, kind, answer, figures.
answers() {
    sed -n -e '/^records:/q' -e '/^nothing was saved/q' \
        -e 's/^[^:]*:\([0-9]* [^ ]* [0-9]*\) .* | ordered \(.*\)$/\1 \2/;t print' \
        -e 's/^[^:]*:\([0-9]* [^ ]* [0-9]*\) .*$/\1/' -e ': print' \
        -e 's/filled //;s/open //;s/let go //;s/extra //;s/,//g;p' out
}
expect_answers() {
    answers >got
    printf '%s\n' "$1" >wanted
    expect_text got wanted "$2"
}

# The rows of the list.
rows() { grep -E '^  (chase|reorder|return) [0-9]+ ' out; }

# Document 01's samples, with what the tests change in them.
order() { printf 'B10143210     VD24000     VD20240219%-10s9783442756841EN%sST%s*9999' "$1" "$2" "$3"; }
delivery() { printf 'L10124000     VD43210     VD2024022670012345  %sA-17      9783442756841EN%s000000000129500LPEUR003000001*9999' "$1" "$2"; }
report() { printf 'M10124000     VD43210     VD70012345  A-17      9783442756841EN%s        0000*9999' "$1"; }
X=$(order A-17 0010 '')
Y=$(delivery 0001 0004)
put() { for record; do printf '%s\r\n' "$record"; done; }
put "$X" "$Y" "$Y" "$(report 010N)" "$(delivery 0002 0003)" "$(report 015J)" \
    "$(delivery 0003 0005)" "$(delivery 0001 0005)" >desk.bwa
put "$X" >order.bwa
put "$Y" >delivery.bwa
many() {    # orders of one copy: the first number of a reference, and the last
    awk -v first="$1" -v last="$2" 'BEGIN { for (n = first; n <= last; n++)
        printf "B10143210     VD24000     VD20240219A-%-8d9783442756841EN0001ST*9999\r\n", n }'
}
many 1000 1512 >many.bwa

# A copy of a book with all that stands beside it, in place of what was there.
copy_book() {
    for beside in '' .old .digests .log; do
        rm -f "$2$beside"
        [ ! -e "$1$beside" ] || cp -p "$1$beside" "$2$beside"
    done
}

for part in answers articles reports list parts roster text files log forms moves rights runs words wishes order faults kills; do
    . "$parts/test_$part.sh"
done
echo "host: $passed checks passed"
