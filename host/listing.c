/* Listing the book by school or by supplier. */
#include "listing.h"
#include "ceilings.h"
#include "listing_csv.h"
#include "messages.h"
#include "text.h"

#include <inttypes.h>
#include <stdio.h>
#include <string.h>

/* Letters of a row before its figures: what is to be done, the account, reference and article,
   or one note; and behind them the message and the expected date. */
enum { TO_DO_LETTERS = 15, ACCOUNT_LETTERS = 14, REFERENCE_LETTERS = 12, ARTICLE_LETTERS = 16,
       NOTE_LETTERS = TO_DO_LETTERS + ACCOUNT_LETTERS + REFERENCE_LETTERS + ARTICLE_LETTERS,
       MESSAGE_LETTERS = 9, EXPECTED_LETTERS = 14 };

/* A room is nearly full where one part of this many, or less, is free. */
enum { NEARLY_FULL = 10, WARNING_ROOM = 100 };

#define FIGURES_FORMAT " %8" PRIu64 " %8" PRIu64 " %8" PRIu64 " %5s %8" PRIu64 " %8" PRIu64

/* What the list by school and the list by supplier call things. */
struct words {
    const char *name;           /* what it is sorted by */
    const char *group, *all;    /* the head of a group, and of the sums of all groups */
    const char *other;          /* the account that stands in a row */
    int names_wholesalers;      /* whether a group may be one */
};

static const struct words words_for_grouping[GROUPING_COUNT] = {
    {"school", "School", "All schools", "supplier", 0},
    {"supplier", "Supplier", "All suppliers", "school", 1}
};

/* Sums over several lines, and how many lines they are. */
struct sums { uint64_t lines, ordered, filled, still_open, let_go, extra; };

static void add(struct sums *sums, const wq_told *figures)
{
    sums->lines++;
    sums->ordered += figures->ordered;
    sums->filled += figures->filled;
    sums->still_open += figures->still_open;
    sums->let_go += figures->let_go;
    sums->extra += figures->extra;
}

/* The beginning of a row. */
static void print_who(const char *to_do, const char *account, const char *reference,
                      const char *article)
{
    printf("  ");
    print_padded(to_do, TO_DO_LETTERS);
    print_padded(account, ACCOUNT_LETTERS);
    print_padded(reference, REFERENCE_LETTERS);
    print_padded(article, ARTICLE_LETTERS);
}

/* The number of a message, and the day it names. Zeros and blanks for a day mean the same to
   whoever waits for the title: none was named. */
static void print_message(const wq_told *figures)
{
    char number[TEXT_ROOM], day[TEXT_ROOM] = "no day named";
    snprintf(number, sizeof number, "%03" PRIu64, figures->message);
    if (figures->expected == WQ_EXPECTED_DAY)
        snprintf(day, sizeof day, "%04" PRIu64 "%02" PRIu64 "%02" PRIu64, figures->year,
                 figures->month, figures->day);
    print_padded(number, MESSAGE_LETTERS);
    print_padded(day, EXPECTED_LETTERS);
}

/* What the line's last report said. A save of the old form kept the mark alone of a report. */
static void print_report(const struct listed *listed)
{
    printf("  ");
    if (listed->figures.message == WQ_MESSAGE_UNKNOWN)
        print_padded("-", MESSAGE_LETTERS);
    else if (listed->figures.message != WQ_NO_REPORT)
        print_message(&listed->figures);
    print_meaning(listed->figures.message, listed->line + WQ_LINE_SUPPLIER);
    printf("\n");
}

static void print_line(const struct listed *listed, const struct to_do *to_do)
{
    const wq_told *figures = &listed->figures;
    const char *mark = mark_of(listed);
    char what[TEXT_ROOM], account[ACCOUNT_ROOM], reference[TEXT_ROOM], article[ACCOUNT_ROOM];
    snprintf(what, sizeof what, "%s %" PRIu64, to_do->word, to_do->copies);
    text_with_qualifier(listed->key + ACCOUNT_WIDTH, WQ_ADDRESS_WIDTH, account);
    text_of(listed->line + WQ_LINE_REFERENCE, WQ_REFERENCE_WIDTH, reference);
    text_with_qualifier(listed->line + WQ_LINE_ARTICLE, WQ_ARTICLE_WIDTH, article);
    print_who(what, account, reference, article);
    printf(FIGURES_FORMAT, figures->ordered, figures->filled, figures->still_open,
           mark[0] == '\0' ? "-" : mark, figures->let_go, figures->extra);
    print_report(listed);
}

static void print_sums(const char *what, const struct sums *sums)
{
    char note[TEXT_ROOM];
    snprintf(note, sizeof note, "%s: %" PRIu64 " line%s", what, sums->lines,
             sums->lines == 1 ? "" : "s");
    printf("  ");
    print_padded(note, NOTE_LETTERS);
    printf(FIGURES_FORMAT "\n", sums->ordered, sums->filled, sums->still_open, "", sums->let_go,
           sums->extra);
}

/* Names a group, and the columns of its rows. */
static void print_head(const uint8_t *account, const struct words *words)
{
    const char *name = words->names_wholesalers ? wholesaler_name(account) : NULL;
    char text[ACCOUNT_ROOM];
    text_with_qualifier(account, WQ_ADDRESS_WIDTH, text);
    printf("\n%s %s", words->group, text);
    if (name != NULL)
        printf(" (%s)", name);
    printf("\n");
    print_who("to do", words->other, "reference", "article");
    printf(" %8s %8s %8s %5s %8s %8s  ", "ordered", "filled", "open", "mark", "let go", "extra");
    print_padded("message", MESSAGE_LETTERS);
    print_padded("expected", EXPECTED_LETTERS);
    printf("meaning\n");
}

/* Prints the lines of one group, which stand together; returns how many they are. */
static size_t print_group(const struct listed *lines, size_t count, const struct words *words,
                          struct sums *all)
{
    struct sums total = {0, 0, 0, 0, 0, 0}, complete = {0, 0, 0, 0, 0, 0};
    size_t i;
    print_head(lines[0].key, words);
    for (i = 0; i < count && memcmp(lines[i].key, lines[0].key, ACCOUNT_WIDTH) == 0; i++) {
        struct to_do to_do = to_do_of(&lines[i]);
        add(&total, &lines[i].figures);
        add(all, &lines[i].figures);
        if (to_do.copies > 0)
            print_line(&lines[i], &to_do);
        else
            add(&complete, &lines[i].figures);
    }
    if (complete.lines > 0)
        print_sums("complete", &complete);
    print_sums("total", &total);
    return i;
}

/* Whether an account was named, so that a list without lines may be a slip of the hand. */
static int names_account(const struct choice *choice)
{
    return choice->school != NULL || choice->supplier != NULL;
}

/* Prints all groups, and the sums over them. */
static void print_groups(const struct chosen *chosen, const struct choice *choice)
{
    const struct words *words = &words_for_grouping[choice->by];
    struct sums all = {0, 0, 0, 0, 0, 0};
    printf("\nOpen orders by %s (mark: J held, N let go, - no report)\n", words->name);
    for (size_t done = 0; done < chosen->count; )
        done += print_group(chosen->lines + done, chosen->count - done, words, &all);
    printf("\n%s\n", choice->open || names_account(choice) ? "All lines listed" : words->all);
    print_sums("total", &all);
}

size_t print_listing(const struct book *book, const struct choice *choice)
{
    static struct chosen chosen;
    choose(&chosen, book, choice);
    if (choice->csv) {
        print_csv(&chosen);
        return chosen.named;
    }
    print_groups(&chosen, choice);
    printf("  used: %zu of %d lines, %zu of %d slips\n", book->used[WQ_USED_LINES], WQ_MOST_LINES,
           book->used[WQ_USED_SLIPS], WQ_MOST_SLIPS);
    if (book->roster->name != NULL)
        print_ceilings(book, choice->school);
    return chosen.named;
}

int warn_of_no_line(const char *path, const struct choice *choice)
{
    const struct { const char *what, *named; } accounts[] = {
        {"school", choice->school}, {"supplier", choice->supplier}
    };
    const char *before = "no line of this book has";
    if (!names_account(choice))
        return 0;
    fputs(PROGRAM ": ", stderr);
    print_name(stderr, path);
    fputs(": ", stderr);
    for (size_t i = 0; i < sizeof accounts / sizeof accounts[0]; i++) {
        if (accounts[i].named == NULL)
            continue;
        fprintf(stderr, "%s %s ", before, accounts[i].what);
        print_name(stderr, accounts[i].named);
        before = " and";
    }
    fputs("\n", stderr);
    return 1;
}

/* One room: how much of it is used, of how many, and what it holds. */
static void warn_of_room(const char *path, size_t used, size_t most, const char *what)
{
    char words[WARNING_ROOM];
    if ((most - used) * NEARLY_FULL > most)
        return;
    snprintf(words, sizeof words, "the book is nearly full: %zu of %zu %s are left", most - used,
             most, what);
    complain(path, words);
}

void warn_of_full_rooms(const char *path, const struct book *book)
{
    warn_of_room(path, book->used[WQ_USED_LINES], WQ_MOST_LINES, "lines");
    warn_of_room(path, book->used[WQ_USED_SLIPS], WQ_MOST_SLIPS, "slips");
}
