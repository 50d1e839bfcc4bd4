/* The book in memory, as it is lent to the library. */
#ifndef BOOK_H
#define BOOK_H

#include "roster.h"

struct book {
    const struct roster *roster;    /* that of the run, which every record meets */
    uint8_t lines[WQ_MOST_LINES * WQ_LINE_WIDTH];
    uint8_t slips[WQ_MOST_SLIPS * WQ_SLIP_WIDTH];
    size_t used[WQ_USED_NUMBERS];
};

/* Books one record. Where no roster was named, it meets one of a single school, its own, with
   the highest ceiling; so nothing is refused for a roster. */
wq_booked book_record(struct book *book, const struct record *record);

/* The figures of the line with this key, all of its fields in a row, and what its last report
   said. */
wq_told book_figures(const struct book *book, const uint8_t key[WQ_LINE_KEY_WIDTH]);

/* The copies that are open on all lines of a school. */
uint64_t book_open_copies(const struct book *book, const uint8_t account[ACCOUNT_WIDTH]);

/* Whether the book has a line for this order: its key, its article and its quantity. */
int book_has_order(const struct book *book, const struct record *order);

/* The entry of the line, or of the slip, with this key, or NULL; the first one counts. */
const uint8_t *book_line(const struct book *book, const uint8_t key[WQ_LINE_KEY_WIDTH]);
const uint8_t *book_slip(const struct book *book, const uint8_t key[WQ_SLIP_KEY_WIDTH]);

/* The entry of the line that a slip is for, and the slip's copies. */
const uint8_t *book_line_of_slip(const struct book *book, const uint8_t *slip);
unsigned book_copies_of_slip(const uint8_t *slip);

#endif
