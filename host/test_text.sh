# Bytes above 127, odd bytes and odd names.

# --- fields: Windows-1252 shown as UTF-8, all else escaped ----------------------------------------
# Booked references with letters and typographic marks; then every byte from 128 to 160, also those that stand for nothing.
put "$(order "$(printf '\304\374\337\240\377')-\\" 0001 '' | sed 's/\\     97/\\97/')" \
    "$(order A-1 0001 '')" "$(order "$(printf '\204A\2261\223')" 0001 '')" >letters.bwa
run book --new letters.book letters.bwa
expect_code 0 "letters"
expect_out "reference $(printf '\303\204\303\274\303\237\302\240\303\277')-\\x5C, article" "letters"
expect_out "reference „A–1“, article" "marks"
rows >got
figures='9783442756841 EN        1        0        1     -        0        0  no report yet'
printf '  chase 1        24000 VD      %s%s\n' 'A-1         ' "$figures" '„A–1“       ' "$figures" \
    "$(printf '\303\204\303\274\303\237\302\240\303\277')-\\x5C  " "$figures" >wanted
expect_text got wanted "letters in the list, columns even"
bytes() { byte=$1; while [ "$byte" -le "$2" ]; do printf "\\$(printf '%03o' "$byte")"; byte=$((byte + 1)); done; }
put "T$(bytes 128 130)" "T$(bytes 131 133)" "T$(bytes 134 136)" "T$(bytes 137 139)" "T$(bytes 140 142)" \
    "T$(bytes 143 145)" "T$(bytes 146 148)" "T$(bytes 149 151)" "T$(bytes 152 154)" "T$(bytes 155 157)" \
    "T$(bytes 158 160)" "T$(printf '\001\177\033')" "T~ \\" >windows.bwa
run book --new windows.book windows.bwa
sed -n '/^records:/q;s/^.*kind of record: //;s/ (place 0)$//;p' out >got
cat >wanted <<'SIGNS'
T€\x81‚
Tƒ„…
T†‡ˆ
T‰Š‹
TŒ\x8DŽ
T\x8F\x90‘
T’“”
T•–—
T˜™š
T›œ\x9D
SIGNS
printf 'T\305\276\305\270\302\240\nT\\x01\\x7F\\x1B\nT~ \\x5C\n' >>wanted
expect_text got wanted "Windows-1252"

# --- names of files ---------------------------------------------------------------------------------
name_is() {     # the name, as it is shown
    printf 'x\r\n' >"$1"
    cp first.book name.book
    run book --accept-book name.book "$1"
    expect_out "$2:1 ? 2" "name $2"
    grep -qF " 1 refused, no roster: $2" name.book.log || fail "name $2: not in the log"
    rm -f "$1" name.book*
}
name_is "$(printf 'a\033[2Jb')" 'a\x1B[2Jb'
name_is "$(printf 'two\nlines')" 'two\x0Alines'
name_is "$(printf 'Z\303\274rich \342\202\254 \360\237\223\226')" "$(printf 'Z\303\274rich \342\202\254 \360\237\223\226')"
name_is "$(printf 'Z\374rich')" 'Z\xFCrich'
name_is 'back\slash' 'back\x5Cslash'
name_is "$(printf 'c1\302\233x')" 'c1\xC2\x9Bx'
name_is "$(printf 'long\300\257x')" 'long\xC0\xAFx'
name_is "$(printf 'long\340\200\257x')" 'long\xE0\x80\xAFx'
name_is "$(printf 'half\355\240\200x')" 'half\xED\xA0\x80x'
name_is "$(printf 'far\364\220\200\200x')" 'far\xF4\x90\x80\x80x'
name_is "$(printf 'far\371\200\200\200x')" 'far\xF9\x80\x80\x80x'
name_is "$(printf 'cut\342\202')" 'cut\xE2\x82'
name_is "$(printf 'cut\342\202x')" 'cut\xE2\x82x'
run book first.book "$(printf 'no\033such')"
expect_code 2 "odd name in a complaint"
expect_err 'no\x1Bsuch: cannot open: No such file or directory' "odd name in a complaint"

# --- files without CR LF ------------------------------------------------------------------------------
printf '%s\n%s\n' "$X" "$Y" >unix.bwa
run book --new unix.book unix.bwa
expect_code 1 "no CR LF"
expect_err "unix.bwa: there is no CR LF in this file, so it is taken as one record" "no CR LF"
expect_answers "1 B101 4" "no CR LF"
printf '%s' "$X" >bare.bwa
run book --new bare.book bare.bwa
expect_code 0 "one record without CR LF"
expect_err "bare.bwa: there is no CR LF" "one record without CR LF"
put "$X" >open.bwa
printf '%s' "$Y" >>open.bwa
run book --new open.book open.bwa
expect_code 0 "no CR LF at the end"
expect_not "there is no CR LF" err "no CR LF at the end"
expect_answers "1 B101 0 10 0 10 0 0
2 L101 0 10 4 6 0 0" "no CR LF at the end"
: >empty.bwa
run book --new empty.book empty.bwa
expect_code 0 "empty file"
expect_not "there is no CR LF" err "empty file"
