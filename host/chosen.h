/* The lines of the book that are listed: which ones, in which order, and what is to be done
   about each. */
#ifndef CHOSEN_H
#define CHOSEN_H

#include "book.h"

enum grouping { BY_SCHOOL, BY_SUPPLIER, GROUPING_COUNT };

/* Which lines of the book are listed, and how. All of them by school is {0, NULL, NULL, 0, 0}. */
struct choice {
    int open;                   /* --open: lines with open copies alone */
    char *school;               /* --school, --supplier: those of one account alone, an address */
    char *supplier;             /* with its qualifier behind a blank or without it; or NULL */
    enum grouping by;           /* --by */
    int csv;                    /* --csv: a table for a spreadsheet */
};

/* A line that is listed. Its key is that of the book, but with the account of its group first,
   and right behind it the other one, of which its row tells. */
struct listed {
    uint8_t key[WQ_LINE_KEY_WIDTH];     /* the lines are sorted by it */
    const uint8_t *line;                /* its entry in the book */
    wq_told figures;
};

struct chosen {
    struct listed lines[WQ_MOST_LINES];
    size_t count;
    size_t named;               /* lines of the named school and supplier, open or not */
};

/* Chooses lines of the book, and sorts them. */
void choose(struct chosen *chosen, const struct book *book, const struct choice *choice);

/* Whether an account is the one that was named by its address, or by its address, a blank and
   its qualifier; each is where none was named. */
int account_is(const uint8_t account[ACCOUNT_WIDTH], const char *named);

/* What is to be done about a line: a word, and with how many copies; none where it is complete. */
struct to_do { const char *word; uint64_t copies; };
struct to_do to_do_of(const struct listed *listed);

/* The hold mark of the line's last report, J or N; empty where none came. */
const char *mark_of(const struct listed *listed);

#endif
