/* The parts of a bundle: a book with digital parts comes as one delivery. */
#ifndef PARTS_H
#define PARTS_H

#include "records.h"

#include <stdio.h>

/* What stands below the line of a record that was booked: a line for each part of a bundle with
   its prices, or one that says why they cannot be told. For any other record nothing. Returns
   whether all was told; a bundle whose parts cannot be told is booked all the same. */
int print_parts(FILE *to, const struct record *record);

#endif
