/* Making orders of a wish list: each wish is written as a record, read back and booked, and the
 * orders that the book accepts are put out, a file for each supplier. */
#ifndef ORDERING_H
#define ORDERING_H

#include "arguments.h"
#include "run.h"

/* The run with the book's names found and the roster read. All is done or nothing: the book and
   its log take their names between the moment when the files of orders wait, whole and on the
   disk, and the moment when they take theirs (see out_files.h). Orders of an earlier run that
   wait are put out first. */
enum exit_code run_order(struct book_file *file, const struct request *request,
                         const struct roster *roster);

/* Says on standard error where orders of the book at hand wait; gives whether some do. */
int warn_of_waiting(const struct book_file *file);

#endif
