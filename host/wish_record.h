/* A wish as the record of an order (B101). */
#ifndef WISH_RECORD_H
#define WISH_RECORD_H

#include "wishes.h"

#include <stdio.h>

enum wish_result {
    WISH_REFUSED,
    WISH_WRITTEN,
    WISH_BROKEN         /* what was read back is not what was written */
};

struct order {
    uint8_t bytes[WQ_MOST_RECORD];
    size_t length;
};

/* Writes the record of a wish, and reads it back. `today` is YYYYMMDD, the date of a wish that
   names none. Of a wish that is refused it prints which column is wrong, what stands there and
   what it may hold, without a line end. A right library never breaks a wish. */
enum wish_result wish_record(const struct wish_list *list, const struct wish *wish,
                             const char *today, struct order *order, FILE *why);

/* Of an order that the book refuses: prints " | column C: what it may hold" where one column
   decides the answer, else nothing. */
void print_column_of(FILE *to, uint64_t answer);

#endif
