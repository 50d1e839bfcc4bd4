#!/bin/sh
# Prints the instructions that a call of the library and of the independent implementation takes,
# for the rows of tests/bench.c, as a table in Markdown; its last line is the worst ratio.
# Usage: counts.sh BENCH FILE COUNTER [WORD..]
#   BENCH    the program of tests/bench.c
#   FILE     the file of records for it
#   COUNTER  the command that runs a program and says `Collected : N` on standard error, N the
#            instructions from start to end: valgrind's callgrind, or the emulator with the
#            plugin of tests/count.c
# Each number comes from two runs that only differ in their rounds, so that neither starting nor
# setting up is in it. On a terminal the number of the row is shown meanwhile.

set -eu
[ $# -ge 3 ] || { sed -n '4s/^# //p' "$0" >&2; exit 2; }
bench=$1 file=$2
shift 2
command -v "$1" >/dev/null || {
    echo "counts: neither valgrind nor the emulator on this machine"
    exit 0
}
few=16 many=80
work=$(mktemp -d)
trap 'rm -rf "$work"' EXIT
trap 'exit 2' HUP INT TERM

# Instructions of a whole run of bench with these words: WORDS COUNTER [WORD..].
collected() {
    words=$1
    shift
    # shellcheck disable=SC2086
    "$@" "$bench" "$file" $words >"$work/out" 2>"$work/said" </dev/null \
        || { cat "$work/said" >&2; return 1; }
    sed -n 's/.*Collected : \([0-9][0-9]*\)$/\1/p' "$work/said" | grep . \
        || { echo "counts: $1 has not counted" >&2; return 1; }
}

# Instructions of the rounds that the longer run has more: ROW SIDE COUNTER [WORD..].
counted() {
    calls="count $1 $2"
    shift 2
    first=$(collected "$calls $few" "$@")
    second=$(collected "$calls $many" "$@")
    echo $((second - first))
}

collected rows "$@" >/dev/null
mv "$work/out" "$work/rows"
row=0
while IFS= read -r name; do
    [ ! -t 2 ] || printf '\r%d ' "$row" >&2
    library=$(counted "$row" 0 "$@")
    reference=$(counted "$row" 1 "$@")
    echo "$name | $library | $reference" >>"$work/counts"
    row=$((row + 1))
done <"$work/rows"

# A round is one call, or one for each record.
awk -F ' [|] ' -v rounds=$((many - few)) '
    BEGIN {
        print "Instructions a call.\n\n| call | input | library | C | library / C |"
        print "|---|---|---:|---:|---:|"
    }
    {
        calls = rounds
        if (split($2, words, " ") > 2 && words[1] == "all") calls *= words[2]
        ratio = $3 / $4
        printf "| %s | %s | %.0f | %.0f | %.2f |\n", $1, $2, $3 / calls, $4 / calls, ratio
        if (ratio > worst) { worst = ratio; where = $1 ", " $2 }
    }
    END { printf "\nworst ratio %.2f (%s)\n", worst, where }' "$work/counts"
