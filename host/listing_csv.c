/* Printing the list as a table. */
#include "listing_csv.h"
#include "messages.h"
#include "text.h"

#include <inttypes.h>
#include <stdio.h>
#include <string.h>

#define LINE_END "\r\n"

/* A column: its name, and what its cell tells: a field of the line's entry, where it stands there
   and how wide it is; a figure, where it stands among the figures, with no width; or what a
   function of its own prints. */
struct column {
    const char *name;
    size_t at, width;
    void (*print)(const struct listed *listed);
};

/* A cell of any text. */
static void print_cell(const char *text)
{
    if (strpbrk(text, ";\"") == NULL) {
        fputs(text, stdout);
        return;
    }
    putchar('"');
    for (; *text != '\0'; text++)
        printf("%s%c", *text == '"' ? "\"" : "", *text);
    putchar('"');
}

static void print_field(const uint8_t *field, size_t width)
{
    char text[TEXT_ROOM];
    text_of(field, width, text);
    print_cell(text);
}

static void print_figure(const wq_told *figures, size_t at)
{
    uint64_t figure;
    memcpy(&figure, (const uint8_t *)figures + at, sizeof figure);
    printf("%" PRIu64, figure);
}

static void print_to_do(const struct listed *listed)
{
    fputs(to_do_of(listed).word, stdout);
}

static void print_copies(const struct listed *listed)
{
    printf("%" PRIu64, to_do_of(listed).copies);
}

static void print_mark(const struct listed *listed)
{
    fputs(mark_of(listed), stdout);
}

/* Empty where no report came, and where what it said is not known. */
static void print_number(const struct listed *listed)
{
    if (listed->figures.message <= WQ_MOST_MESSAGE)
        printf("%03" PRIu64, listed->figures.message);
}

static void print_words(const struct listed *listed)
{
    print_meaning(listed->figures.message, listed->line + WQ_LINE_SUPPLIER);
}

/* Empty where no day was named. */
static void print_expected(const struct listed *listed)
{
    const wq_told *figures = &listed->figures;
    if (figures->expected == WQ_EXPECTED_DAY)
        printf("%04" PRIu64 "-%02" PRIu64 "-%02" PRIu64, figures->year, figures->month,
               figures->day);
}

/* Named as the columns of a wish list, where they are the same thing. */
static const struct column columns[] = {
    {"to do", 0, 0, print_to_do},
    {"copies", 0, 0, print_copies},
    {"school", WQ_LINE_SCHOOL, WQ_ADDRESS_WIDTH, NULL},
    {"school qualifier", WQ_LINE_SCHOOL_QUALIFIER, WQ_QUALIFIER_WIDTH, NULL},
    {"supplier", WQ_LINE_SUPPLIER, WQ_ADDRESS_WIDTH, NULL},
    {"supplier qualifier", WQ_LINE_SUPPLIER_QUALIFIER, WQ_QUALIFIER_WIDTH, NULL},
    {"reference", WQ_LINE_REFERENCE, WQ_REFERENCE_WIDTH, NULL},
    {"article", WQ_LINE_ARTICLE, WQ_ARTICLE_WIDTH, NULL},
    {"article qualifier", WQ_LINE_ARTICLE_QUALIFIER, WQ_QUALIFIER_WIDTH, NULL},
    {"ordered", offsetof(wq_told, ordered), 0, NULL},
    {"filled", offsetof(wq_told, filled), 0, NULL},
    {"open", offsetof(wq_told, still_open), 0, NULL},
    {"let go", offsetof(wq_told, let_go), 0, NULL},
    {"extra", offsetof(wq_told, extra), 0, NULL},
    {"mark", 0, 0, print_mark},
    {"message", 0, 0, print_number},
    {"meaning", 0, 0, print_words},
    {"expected", 0, 0, print_expected}
};

enum { COLUMN_COUNT = sizeof columns / sizeof columns[0] };

static void print_column(const struct column *column, const struct listed *listed)
{
    if (column->print != NULL)
        column->print(listed);
    else if (column->width > 0)
        print_field(listed->line + column->at, column->width);
    else
        print_figure(&listed->figures, column->at);
}

/* One line of the table; the names of the columns where no line is given. */
static void print_row(const struct listed *listed)
{
    for (size_t i = 0; i < COLUMN_COUNT; i++) {
        if (i > 0)
            putchar(';');
        if (listed == NULL)
            fputs(columns[i].name, stdout);
        else
            print_column(&columns[i], listed);
    }
    fputs(LINE_END, stdout);
}

void print_csv(const struct chosen *chosen)
{
    print_row(NULL);
    for (size_t i = 0; i < chosen->count; i++)
        if (to_do_of(&chosen->lines[i]).copies > 0)
            print_row(&chosen->lines[i]);
}
