/* The list of what is still open, for whoever chases it. */
#ifndef LISTING_H
#define LISTING_H

#include "chosen.h"

/* Prints the chosen lines of the book grouped by school or supplier: each line that has copies
   open, let go or extra, with what is to be done about them, and with the message and the
   expected date of its last report; the complete lines as one row, and a total. Where there is a
   roster, a table of the schools with their open copies and ceilings follows. Or it prints the
   table for a spreadsheet (see listing_csv.h) and nothing else. Returns how many lines of the
   book have the school and the supplier that were named. */
size_t print_listing(const struct book *book, const struct choice *choice);

/* Says on standard error that no line has the school and the supplier that were named; returns
   0 where none was. */
int warn_of_no_line(const char *path, const struct choice *choice);

/* Says on standard error where a tenth or less of a room is left. */
void warn_of_full_rooms(const char *path, const struct book *book);

#endif
