/* The table of schools with their open copies against the ceilings of the roster. */
#ifndef CEILINGS_H
#define CEILINGS_H

#include "book.h"

/* Prints the schools of the roster and those of the book; of them the named one alone, where
   one is named (see chosen.h). */
void print_ceilings(const struct book *book, const char *school);

#endif
