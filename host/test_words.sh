# The word that says what to do, and the form without one.

# --- help ---------------------------------------------------------------------------------------------------
run --help
expect_code 0 "help"
expect_silent "help"
cp out help
for said in "order [--accept-book]" "book [--new]" "list [--roster ROSTER] BOOK [--open] [--school A] [--supplier A]" \
    "[--by school|supplier] [--csv]" "--to-new BOOK OUT" "--to-old BOOK OUT" "Without a word" "Exit codes: 0 done"; do
    expect_out "$said" "help"
done
run
expect_code 2 "nothing asked for"
expect_text err help "nothing asked for"
run --help open.book
expect_code 2 "help and something else"
if [ -c /dev/full ]; then
    timeout 30 "$host" --help >/dev/full 2>err; code=$?
    expect_code 2 "help that cannot be printed"
fi

# --- the old form books and lists as its word does, and says so ------------------------------------------------
copy_book open.book word.book
copy_book open.book plain.book
run book word.book delivery.bwa
cp out said
expect_not "no word" err "a word"
run plain.book delivery.bwa
expect_code 0 "booked without a word"
expect_err "plain.book: no word says what to do, so it is booked; better say wizqamul-host book" "booked without a word"
expect_text out said "booked without a word"
expect_same plain.book word.book "booked without a word"
run list word.book
cp out said
expect_silent "listed by a word"
run plain.book
expect_code 0 "listed without a word"
expect_err "plain.book: no word says what to do, so it is listed; better say wizqamul-host list" "listed without a word"
expect_text out said "listed without a word"
run --new wordless.book
expect_code 0 "a new book without a word"
expect_err "so it is booked" "a new book without a word"
run --roster roster.txt plain.book
expect_code 0 "listed with a roster without a word"
expect_out "Open copies against the ceilings" "listed with a roster without a word"
expect_err "so it is listed" "listed with a roster without a word"
run --again plain.book
expect_err "so it is listed" "an option that has nothing to do"

# --- a book that is named as a word ------------------------------------------------------------------------------
mkdir named
for word in book list order; do copy_book open.book named/$word; done
cd named || exit 1
for word in book list order; do
    run $word
    expect_code 2 "a word alone"
    expect_err "usage:" "a word alone"
    run list $word
    expect_code 0 "a book named $word"
    run ./$word
    expect_code 0 "a book named $word, without a word"
    expect_err "./$word: no word says what to do" "a book named $word, without a word"
done
copy_book ../open.book orders
run orders
expect_code 0 "a book whose name begins with a word"
expect_err "orders: no word says what to do" "a book whose name begins with a word"
cd .. || exit 1

# --- options stand before the names, behind them or between them ---------------------------------------------------
copy_book word.book between.book
run book between.book --roster roster.txt delivery.bwa --again
expect_code 0 "options between the names"
expect_out "records: 0 booked, 1 with nothing to book, 0 refused" "options between the names"
expect_out "Open copies against the ceilings of roster.txt" "options between the names"

# --- wrong use: nothing is done -----------------------------------------------------------------------------------
mkdir wrong_out
wrong_word() {  # what it is; then the arguments
    expect_usage "$@"
    expect_same between.book word.book "$what"
    [ -z "$(ls -A wrong_out)" ] || fail "$what: a file came out"
}
copy_book word.book between.book
wrong_word "nothing to book" book between.book
wrong_word "nothing to book, with a roster" book --roster roster.txt between.book
wrong_word "a file to list" list between.book delivery.bwa
wrong_word "a list of a new book" list --new absent.book
wrong_word "a list that accepts" list --accept-book between.book
wrong_word "a list again" list --again between.book
wrong_word "a list by nothing" list between.book --by
wrong_word "a list by something else" list between.book --by article
wrong_word "a list by two" list between.book --by school --by supplier
wrong_word "a list of no school" list between.book --school
wrong_word "a list of two schools" list between.book --school 43210 --school 43211
wrong_word "a list of an option" list between.book --supplier --csv
wrong_word "a list of standard input" list -
wrong_word "an order of nothing" order between.book
wrong_word "an order to nowhere" order between.book desk.bwa
wrong_word "an order to two places" order between.book desk.bwa wrong_out wrong_out
wrong_word "an order to standard output" order between.book desk.bwa -
wrong_word "an order to no name" order between.book desk.bwa ""
wrong_word "an order into standard input" order - desk.bwa wrong_out
wrong_word "an order into a new book" order --new absent.book desk.bwa wrong_out
wrong_word "half an option" list between.book --ope
wrong_word "more than an option" list between.book --opens
for option in --open --csv; do
    wrong_word "$option of a book" book $option between.book delivery.bwa
    wrong_word "$option of an order" order $option between.book desk.bwa wrong_out
done
for option in --school --supplier --by; do
    wrong_word "$option of a book" book $option school between.book delivery.bwa
    wrong_word "$option of an order" order $option school between.book desk.bwa wrong_out
done
expect_none absent.book "wrong use"
