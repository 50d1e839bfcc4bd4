/* Open copies against ceilings. */
#include "ceilings.h"
#include "chosen.h"
#include "text.h"

#include <inttypes.h>
#include <stdio.h>
#include <stdlib.h>
#include <string.h>

enum { SCHOOL_LETTERS = 14 };       /* of a row before its figures */

static int compare_accounts(const void *one, const void *other)
{
    const uint8_t *const *first = one, *const *second = other;
    return memcmp(*first, *second, ACCOUNT_WIDTH);
}

/* A row of the table. What somebody should see stands in capitals. */
static void print_against_ceiling(const struct book *book, const uint8_t *account)
{
    wq_account_told told = roster_account(book->roster, account);
    uint64_t copies = book_open_copies(book, account);
    char school[ACCOUNT_ROOM];
    text_with_qualifier(account, WQ_ADDRESS_WIDTH, school);
    printf("  ");
    print_padded(school, SCHOOL_LETTERS);
    if (told.answer != WQ_DONE) {
        printf(" %10" PRIu64 " %10s  NOT ON THE ROSTER\n", copies, "-");
        return;
    }
    printf(" %10" PRIu64 " %10" PRIu64, copies, told.ceiling);
    if (copies > told.ceiling)
        printf("  OVER BY %" PRIu64 "\n", copies - told.ceiling);
    else if (copies == told.ceiling)
        printf("  FULL\n");
    else
        printf("  %" PRIu64 " left\n", told.ceiling - copies);
}

/* All accounts of schools, sorted; some stand more than once. Gives their number. */
static size_t sort_accounts(const struct book *book, const uint8_t **accounts)
{
    size_t count = 0;
    for (size_t i = 0; i < book->roster->count; i++)
        accounts[count++] = school_account(&book->roster->schools[i]);
    for (size_t i = 0; i < book->used[WQ_USED_LINES]; i++)
        accounts[count++] = book->lines + i * WQ_LINE_WIDTH + WQ_LINE_SCHOOL;
    qsort(accounts, count, sizeof accounts[0], compare_accounts);
    return count;
}

void print_ceilings(const struct book *book, const char *school)
{
    const uint8_t *accounts[WQ_MOST_SCHOOLS + WQ_MOST_LINES];
    size_t count = sort_accounts(book, accounts);
    printf("\nOpen copies against the ceilings of ");
    print_name(stdout, book->roster->name);
    printf("\n  ");
    print_padded("school", SCHOOL_LETTERS);
    printf(" %10s %10s\n", "open", "ceiling");
    for (size_t i = 0; i < count; i++)
        if ((i == 0 || memcmp(accounts[i - 1], accounts[i], ACCOUNT_WIDTH) != 0) &&
            account_is(accounts[i], school))
            print_against_ceiling(book, accounts[i]);
    printf("  on the roster: %zu of %d schools", book->roster->count, WQ_MOST_SCHOOLS);
    if (book->roster->repeated > 0)
        printf("; lines that do not count: %lu", book->roster->repeated);
    printf("\n");
}
