/* Reading the arguments of the program. */
#include "arguments.h"
#include "text.h"

#include <string.h>

enum {
    WORD_AT = 1,                /* where the word stands that says what to do */
    MOVE_ARGUMENTS = 4,         /* the program, the option, BOOK and OUT */
    ORDER_NAMES = 3             /* BOOK, WISHES and OUT */
};

/* The commands that an option goes with, a bit each. */
enum { WITH_BOOK = 1 << BOOK_FILES, WITH_LIST = 1 << LIST_BOOK, WITH_ORDER = 1 << ORDER_WISHES };

void print_usage(FILE *to)
{
    fputs("usage: " PROGRAM " order [--accept-book] [--again] [--roster ROSTER] BOOK WISHES OUT\n"
          "       " PROGRAM " book [--new] [--accept-book] [--again] [--roster ROSTER] "
          "BOOK FILE..\n"
          "       " PROGRAM " list [--roster ROSTER] BOOK [--open] [--school A] [--supplier A]\n"
          "                     [--by school|supplier] [--csv]\n"
          "       " PROGRAM " --to-new BOOK OUT\n"
          "       " PROGRAM " --to-old BOOK OUT\n"
          "order  makes an order of each wish in WISHES, books it into BOOK, and puts the orders\n"
          "       into the directory OUT, a file for each supplier\n"
          "book   books the records of each FILE (- is standard input) into BOOK, saves it, and\n"
          "       lists what is still open for each school; with --new a FILE may be left out\n"
          "list   lists what is still open, with what is to be done; it writes nothing\n"
          "  --new            make a new book\n"
          "  --accept-book    take a book that was not saved here as it stands\n"
          "  --again          book a FILE, or order WISHES, whose bytes were taken before\n"
          "  --roster ROSTER  book for the schools of this file alone, up to their ceilings,\n"
          "                   and list open copies against them; one school a line:\n"
          "                   43210 VD 500 (address, qualifier, ceiling), # starts a comment\n"
          "  --open           list what has open copies alone\n"
          "  --school A       list this school alone; A is an address, as in 43210, or an\n"
          "                   address and its qualifier, as in \"43210 VD\"\n"
          "  --supplier A     list this supplier alone\n"
          "  --by school|supplier   list school by school, as without it, or supplier by supplier\n"
          "  --csv            list as a table for a spreadsheet\n"
          "  --to-new         make of BOOK, of the old form, a book OUT of the new form\n"
          "  --to-old         and back, where no message would be lost; no other option goes\n"
          "                   with these two, BOOK stays as it is, and OUT must not be there\n"
          "WISHES is a text from a spreadsheet: columns parted by semicolons, the first line names\n"
          "them: school, supplier, reference, article, quantity, and where wanted school qualifier,\n"
          "supplier qualifier, date, article qualifier, measure, and optional fields by their\n"
          "four digits; a column whose name begins with # is passed over.\n"
          "Without a word " PROGRAM " books, or lists where no FILE is named, and says so.\n"
          "Exit codes: 0 done, 1 done but somebody should look (a record or wish refused, a file\n"
          "left out, the roster doubtful, orders that wait), 2 nothing saved, 3 saved, but trouble\n"
          "after that.\n", to);
}

/* Whether an argument can be the name of a book, a directory or a roster. */
static int is_name(const char *argument)
{
    return argument[0] != '-' && argument[0] != '\0';
}

/* An option: the commands that it goes with, and what it sets, a mark or a word behind it. */
struct option { const char *name; int with; int *mark; char **word; };

/* Sets what the option at the front of `left` arguments asks for; gives how many arguments it
   takes, 0 where there is no such option here, its word is missing, or it had a word before. */
static int take_option(const struct option *option, int command, char **arguments, int left)
{
    while (option->name != NULL && strcmp(arguments[0], option->name) != 0)
        option++;
    if (option->name == NULL || (option->with & 1 << command) == 0)
        return 0;
    if (option->mark != NULL)
        return *option->mark = 1;
    if (*option->word != NULL || left < 2 || !is_name(arguments[1]))
        return 0;
    *option->word = arguments[1];
    return 2;
}

/* Takes all options, wherever they stand, and moves the names to the front; gives how many
   names there are, -1 where an option is wrong. */
static int take_options(struct request *request, char **by, int count, char **arguments)
{
    const struct option options[] = {
        {"--new", WITH_BOOK, &request->intent.make_new, NULL},
        {"--accept-book", WITH_BOOK | WITH_ORDER, &request->intent.accept, NULL},
        {"--again", WITH_BOOK | WITH_ORDER, &request->again, NULL},
        {"--open", WITH_LIST, &request->choice.open, NULL},
        {"--csv", WITH_LIST, &request->choice.csv, NULL},
        {"--roster", WITH_BOOK | WITH_LIST | WITH_ORDER, NULL, &request->roster},
        {"--school", WITH_LIST, NULL, &request->choice.school},
        {"--supplier", WITH_LIST, NULL, &request->choice.supplier},
        {"--by", WITH_LIST, NULL, by},
        {NULL, 0, NULL, NULL}
    };
    int names = 0, at = 0;
    while (at < count) {
        int taken = 1;
        if (strncmp(arguments[at], "--", 2) == 0)
            taken = take_option(options, request->command, arguments + at, count - at);
        else
            arguments[names++] = arguments[at];
        if (taken == 0)
            return -1;
        at += taken;
    }
    return names;
}

/* The grouping that was asked for, by school where none was; 0 where it is neither. */
static int take_grouping(struct request *request, const char *by)
{
    request->choice.by = by != NULL && strcmp(by, "supplier") == 0 ? BY_SUPPLIER : BY_SCHOOL;
    return by == NULL || request->choice.by == BY_SUPPLIER || strcmp(by, "school") == 0;
}

/* The names of files: standard input stands once at most. */
static int take_files(struct request *request, int count, char **names)
{
    int dashes = 0;
    request->names = names;
    request->count = count;
    for (int i = 0; i < count; i++)
        dashes += strcmp(names[i], "-") == 0;
    return dashes <= 1;
}

/* The names behind the options: a book, and what the command asks for beside it. */
static int take_names(struct request *request, int count, char **names)
{
    if (count < 1 || !is_name(names[0]))
        return 0;
    request->book = names[0];
    if (request->command == ORDER_WISHES) {
        if (count != ORDER_NAMES || !is_name(names[ORDER_NAMES - 1]))
            return 0;
        request->out = names[--count];
    }
    if (!take_files(request, count - 1, names + 1))
        return 0;
    request->intent.write = request->count > 0 || request->intent.make_new ||
                            request->intent.accept;
    if (request->without_word && !request->intent.write)
        request->command = LIST_BOOK;
    return request->command == LIST_BOOK ? request->count == 0 : request->intent.write;
}

/* The arguments of a move: its option, and two books. */
static int take_move(struct request *request, int count, char **arguments)
{
    request->command = MOVE_BOOK;
    if (count != MOVE_ARGUMENTS || !is_name(arguments[2]) || !is_name(arguments[3]))
        return 0;
    request->book = arguments[2];
    request->out = arguments[3];
    return 1;
}

/* The command that a word names; gives 0 where it names none. */
static int take_word(struct request *request, const char *word)
{
    static const struct { const char *word; enum command command; } words[] = {
        {"book", BOOK_FILES}, {"list", LIST_BOOK}, {"order", ORDER_WISHES}, {"--help", SHOW_HELP}
    };
    for (size_t i = 0; i < sizeof words / sizeof words[0]; i++) {
        if (strcmp(word, words[i].word) == 0) {
            request->command = words[i].command;
            return 1;
        }
    }
    return 0;
}

int take_arguments(struct request *request, int count, char **arguments)
{
    int first = WORD_AT, names;
    char *by = NULL;
    memset(request, 0, sizeof *request);
    if (count <= WORD_AT)
        return 0;
    request->move = move_named(arguments[WORD_AT]);
    if (request->move != NULL)
        return take_move(request, count, arguments);
    request->without_word = !take_word(request, arguments[WORD_AT]);
    if (request->command == SHOW_HELP)
        return count == WORD_AT + 1;
    if (!request->without_word)
        first++;
    names = take_options(request, &by, count - first, arguments + first);
    return names >= 0 && take_grouping(request, by) &&
           take_names(request, names, arguments + first);
}
