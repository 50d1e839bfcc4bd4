/* Choosing and sorting the lines that are listed. */
#include "chosen.h"
#include "text.h"

#include <stdlib.h>
#include <string.h>

int account_is(const uint8_t account[ACCOUNT_WIDTH], const char *named)
{
    char text[ACCOUNT_ROOM];
    if (named == NULL)
        return 1;
    text_with_qualifier(account, WQ_ADDRESS_WIDTH, text);
    if (strcmp(text, named) == 0)
        return 1;
    text_of(account, WQ_ADDRESS_WIDTH, text);
    return strcmp(text, named) == 0;
}

/* Takes a line of the book over. */
static void take(struct listed *listed, const struct book *book, const uint8_t *line,
                 enum grouping by)
{
    static const struct { size_t group, other; } accounts[GROUPING_COUNT] = {
        {WQ_LINE_SCHOOL, WQ_LINE_SUPPLIER}, {WQ_LINE_SUPPLIER, WQ_LINE_SCHOOL}
    };
    memcpy(listed->key, line, WQ_LINE_KEY_WIDTH);
    memcpy(listed->key, line + accounts[by].group, ACCOUNT_WIDTH);
    memcpy(listed->key + ACCOUNT_WIDTH, line + accounts[by].other, ACCOUNT_WIDTH);
    listed->line = line;
    listed->figures = book_figures(book, line);
}

static int compare_keys(const void *one, const void *other)
{
    const struct listed *first = one, *second = other;
    return memcmp(first->key, second->key, WQ_LINE_KEY_WIDTH);
}

void choose(struct chosen *chosen, const struct book *book, const struct choice *choice)
{
    chosen->count = chosen->named = 0;
    for (size_t i = 0; i < book->used[WQ_USED_LINES]; i++) {
        const uint8_t *line = book->lines + i * WQ_LINE_WIDTH;
        struct listed *next = &chosen->lines[chosen->count];
        if (!account_is(line + WQ_LINE_SCHOOL, choice->school) ||
            !account_is(line + WQ_LINE_SUPPLIER, choice->supplier))
            continue;
        chosen->named++;
        take(next, book, line, choice->by);
        if (!choice->open || next->figures.still_open > 0)
            chosen->count++;
    }
    qsort(chosen->lines, chosen->count, sizeof chosen->lines[0], compare_keys);
}

struct to_do to_do_of(const struct listed *listed)
{
    const wq_told *figures = &listed->figures;
    const struct to_do all[] = {
        {"chase", figures->still_open}, {"reorder", figures->let_go}, {"return", figures->extra},
        {"", 0}
    };
    const struct to_do *first = all;
    while (first->copies == 0 && first->word[0] != '\0')
        first++;
    return *first;
}

const char *mark_of(const struct listed *listed)
{
    switch (listed->line[WQ_LINE_MARK]) {
    case WQ_MARK_HELD: return "J";
    case WQ_MARK_LET_GO: return "N";
    default: return "";
    }
}
