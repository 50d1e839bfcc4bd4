/* The list as a table for a spreadsheet. */
#ifndef LISTING_CSV_H
#define LISTING_CSV_H

#include "chosen.h"

/* Prints a line that names the columns, and one for each chosen line that has something to do:
   UTF-8, the cells parted by semicolons, each line ended by CR LF. A cell that holds a semicolon
   or a quote stands in quotes, its own quotes doubled. */
void print_csv(const struct chosen *chosen);

#endif
