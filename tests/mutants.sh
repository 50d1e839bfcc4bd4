#!/bin/sh
# Tries small wrong variants of a C program, one at a time, and says which of them its tests
# let pass. Usage: mutants.sh LIST SOURCES COMPILE LIBRARIES JUDGE, from the top of the tree.
#   LIST       one mutant a line, fields parted by a TAB: file; a basic `sed` expression that
#              makes the file wrong; a few words on what is wrong; and, where no test can
#              tell the mutant from the program, `equivalent: ` with the reason. A line that
#              starts with # is a comment. The file is a source or one of its headers.
#   SOURCES    the program's C files
#   COMPILE    the compiler with its flags, as called from the top of the tree
#   LIBRARIES  what is linked behind the objects
#   JUDGE      a shell command; $1 in it is the path of the built program, which is put behind
#              it where there is no $1
# A mutant is caught where the judge fails or takes far too long. Where ONLY is set, only the
# lines that contain it are tried. On a terminal the number of the mutant is shown meanwhile.
# The last line counts. The exit status is 1 where a mutant passes without a reason, is caught
# though called equivalent, changes nothing or does not compile; 2 where the program itself
# does not build and pass.

[ $# -eq 5 ] && [ -r "$1" ] || { sed -n '2,3s/^# //p' "$0" >&2; exit 2; }
list=$1 sources=$2 compile=$3 libraries=$4 judge=$5
work=$(mktemp -d) && chmod 755 "$work" || exit 2
trap 'rm -rf "$work"' EXIT
trap 'exit 2' HUP INT TERM
program=$work/program
tab=$(printf '\t')
# shellcheck disable=SC2016
case $judge in *'$1'*) ;; *) judge="$judge \"\$1\"" ;; esac

object_of() { echo "$work/objects/$(basename "$1" .c).o"; }

# Compiles one source of the copied tree.
compile_one() { (cd "$work/tree" && $compile -c "$1" -o "$(object_of "$1")") >"$work/log" 2>&1; }

# Compiles what a change of this file reaches: the file itself, or all of them for a header.
compile_for() {
    case $1 in
    *.c) compile_one "$1" ;;
    *) for source in $sources; do compile_one "$source" || return 1; done ;;
    esac
}

link_all() { $compile -o "$program" "$work"/objects/*.o $libraries >"$work/log" 2>&1; }

# Runs the judge on the program that was built, for so many seconds at most.
passes() { timeout -k 5 "$1" sh -c "$judge" judge "$program" </dev/null >"$work/log" 2>&1; }

# Copies the sources with their headers, builds them, and lets the judge see the right program.
prepare() {
    mkdir "$work/tree" "$work/objects" || return 1
    for directory in include $(for source in $sources; do dirname "$source"; done | sort -u); do
        mkdir -p "$work/tree/$directory"
        for file in "$directory"/*.[ch]; do
            [ ! -f "$file" ] || cp "$file" "$work/tree/$file" || return 1
        done
    done
    compile_for every.header && link_all || return 1
    start=$(date +%s)
    passes 3600 || return 1
    longest=$(( ($(date +%s) - start) * 3 + 30 ))
    cp -r "$work/objects" "$work/right"
}

# Makes the mutant and gives its end: broken, same (the very same code), passed or caught.
try_mutant() {
    if [ ! -f "$work/tree/$1" ]; then
        echo "no source or header of the program" >"$work/log"
        echo broken
    elif ! sed -e "$2" "$1" >"$work/tree/$1" 2>"$work/log"; then
        echo broken
    elif cmp -s "$1" "$work/tree/$1"; then
        echo "the expression changes nothing" >"$work/log"
        echo broken
    elif ! compile_for "$1" || ! link_all; then
        echo broken
    elif diff -r "$work/objects" "$work/right" >/dev/null; then
        echo same
    elif passes "$longest"; then
        echo passed
    else
        echo caught
    fi
}

restore() {
    cp "$1" "$work/tree/$1" && cp "$work"/right/*.o "$work/objects"
}

# What an end means for the list, and a line where something has to be done about it.
judge_end() {
    case $1,$2 in
    caught,) echo caught ;;
    passed,equivalent:* | same,equivalent:*) echo equivalent ;;
    caught,*) echo wrong ;;
    passed,* | same,*) echo survivor ;;
    *) echo broken ;;
    esac
}

tell() {
    case $1 in
    survivor) echo "PASSES: $2: $4  [$3]" ;;
    wrong) echo "CAUGHT, though called equivalent: $2: $4  [$3]" ;;
    broken) echo "BROKEN: $2: $4  [$3]"; head -n 5 "$work/log" ;;
    esac
}

count() { grep -c "^$1$tab" "$work/ends"; }

# One row for each file: tried, caught, equivalent, and what is left to explain.
print_table() {
    awk -F '\t' '{ tried[$2]++; ends[$2, $1]++ }
        END { for (file in tried) printf "%-28s %6d tried %6d caught %6d equivalent %6d open\n", file,
              tried[file], ends[file, "caught"], ends[file, "equivalent"],
              tried[file] - ends[file, "caught"] - ends[file, "equivalent"] }' "$work/ends" | sort
}

prepare || { echo "mutants: the program of $list does not build or does not pass" >&2
             head -n 20 "$work/log" >&2; exit 2; }
: >"$work/ends"
number=0
while IFS=$tab read -r file expression words claim; do
    case $file in '#'* | '') continue ;; esac
    case "$file$tab$expression$tab$words" in *"${ONLY:-}"*) ;; *) continue ;; esac
    number=$((number + 1))
    [ ! -t 2 ] || printf '\r%d ' "$number" >&2
    end=$(judge_end "$(try_mutant "$file" "$expression")" "$claim")
    tell "$end" "$file" "$expression" "$words"
    printf '%s\t%s\n' "$end" "$file" >>"$work/ends"
    [ ! -f "$work/tree/$file" ] || restore "$file"
done <"$list"
print_table
tried=$(wc -l <"$work/ends") caught=$(count caught) equivalent=$(count equivalent)
open=$((tried - caught - equivalent))
echo "$list: $((tried)) mutants, $caught caught, $equivalent equivalent, $open to explain"
[ "$open" -eq 0 ] && [ "$tried" -gt 0 ]
