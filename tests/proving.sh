#!/bin/sh
# Runs a command of the kit and shows what it is doing: each crate as it is proved or found kept,
# whose edits are being tried, and what came of each edit, n of m. All that the command said is
# shown where it fails, and its last line where it does not; the exit status is the command's own.
#
# Usage: proving.sh CRATE|all COMMAND [WORD..]
# CRATE is what the command proves, with what it stands on: the command is run in that crate's
# folder, with `all` here. Run this where crates.txt is. Where LOG names a file, all that the
# command said is kept there.

[ $# -ge 2 ] && [ -f crates.txt ] || { echo "usage: proving.sh CRATE|all COMMAND [WORD..]" >&2; exit 2; }
wanted=$1
shift
made=
log=${LOG:-}
[ -n "$log" ] || { log=$(mktemp) && made=$log; } || exit 2
child=
trap '[ -z "$child" ] || kill "$child" 2>/dev/null; [ -z "$made" ] || rm -f "$made"' EXIT
trap 'exit 130' INT TERM HUP

# How many crates of ours the command proves: those that the wanted one names, and itself. A line
# of crates.txt is NAME: or NAME KIND:, and then what it stands on.
crates=$(awk -F: -v wanted="$wanted" '
    /^[a-z]/ { split($1, words, " "); ours[words[1]] = 1; stands[words[1]] = $2; all++ }
    END {
        if (wanted == "all") { print all; exit }
        n = split(stands[wanted], names, " ")
        for (i = 1; i <= n; i++) if (names[i] in ours) count++
        print count + 1
    }' crates.txt)
edits=$(ls crates/*/must-fail/*.edit 2>/dev/null | wc -l)
folder=.
[ "$wanted" = all ] || folder=crates/$wanted

# What came since the last look, in short. `rt ci` says of each crate whether it is proved, or kept
# from an earlier run; of the other commands each proof ends in a line with the crate's name and
# one with its verdict.
show() {
    awk -v from="$shown" -v crates="$crates" -v edits="$edits" -v all="$wanted" '
        function tell(text) { if (NR > from) print text }
        all == "all" && /^rt: [a-z_0-9]+ (proved|is kept)/ { sub(/: an earlier run.*/, ""); tell("proved " ++proved " of " crates ": " substr($0, 5)) }
        all != "all" && /^crate [a-z_0-9]+: / { name = $2; sub(/:$/, "", name) }
        all != "all" && /^logic=proved / { tell("proved " ++proved " of " crates ": " name) }
        /^rt: [a-z_0-9]+: trying its must-fail edits/ { tell(substr($0, 5)) }
        /^rt: must-fail [a-z_0-9]+\/[A-Za-z0-9_.-]+: / { sub(/^rt: must-fail /, ""); sub(/as it must be: .*/, "as it must be"); tell("edit " ++tried " of " edits ": " $0) }
        /^rt: [a-z_0-9]+ ran[, (]/ { tell(substr($0, 5)) }
    ' "$log"
    shown=$(awk 'END { print NR }' "$log")
}

shown=0
(cd "$folder" && exec "$@") >"$log" 2>&1 </dev/null &
child=$!
while kill -0 "$child" 2>/dev/null; do
    sleep 1
    show
done
wait "$child"
status=$?
child=
show
if [ "$status" -ne 0 ]; then
    cat "$log"
else
    tail -n 1 "$log"
fi
exit "$status"
