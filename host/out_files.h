/* The orders of a run, a file for each supplier, in the directory from which they are sent.
 *
 * A file is written whole and put on the disk as .wizqamul-wait-RUN-DIGITS-NAME, with the mark of
 * its run and the first digits of its own digest, before the book is saved that has its orders; it
 * takes its own name after that. So what has
 * its own name may be sent: the book has its orders. A run that is killed leaves
 *   - before the book is in place, files that wait and that the book's log does not name: they
 *     are never put out;
 *   - after that, files that wait and that its log names (see history.h): the next run of order
 *     puts them out.
 * A file's own name is ADDRESS-QUALIFIER-BOOK.bwa, with the supplier's account and the first
 * digits of the digest of the book that has its orders; a name that is there is never taken. */
#ifndef OUT_FILES_H
#define OUT_FILES_H

#include "book.h"
#include "history.h"

#include <stdio.h>

#define WAIT_HEAD ".wizqamul-wait-"

enum {
    BOOK_DIGITS = 16,           /* digits by which a file names its book, */
    FILE_DIGITS = 16,           /* and one that waits itself */
    OUT_NAME_ROOM = WQ_ADDRESS_WIDTH + WQ_QUALIFIER_WIDTH + BOOK_DIGITS + sizeof "--.bwa",
    WAIT_NAME_ROOM = sizeof WAIT_HEAD + RUN_ROOM + FILE_DIGITS + 1 + OUT_NAME_ROOM
};

/* The orders for one supplier. */
struct out_file {
    uint8_t account[ACCOUNT_WIDTH];
    FILE *stream;               /* the records in memory, each with its CR LF */
    char *text;
    size_t length;
    char name[OUT_NAME_ROOM];   /* its own name in the directory */
    char wait[WAIT_NAME_ROOM];  /* the name under which it waits */
    int waits;                  /* it waits, and is removed where the book is not saved */
};

struct out_files {
    const char *name;           /* the directory, as it was named */
    int directory;              /* open, or -1 */
    struct waiting waiting;     /* the run, and the directory's path */
    struct out_file files[WQ_MOST_LINES];   /* no run accepts more orders than the book has lines */
    size_t count;
};

/* Each returns 0, and has said why, where it cannot. */
int out_files_open(struct out_files *out, const char *name);

/* Adds an accepted order to the file of its supplier, in memory. */
int out_files_add(struct out_files *out, const struct record *order);

/* Writes the files, which wait then, and puts them and their names on the disk. `book` is the
   digest of the book that has the orders. */
int out_files_wait(struct out_files *out, const char *book);

/* The files are the book's now: they are not removed when the run ends. */
void out_files_keep(struct out_files *out);

/* Puts out what waits of a run in an open directory: each file takes its own name where the book
   has all of its orders, and it is as it was written. Says of each on standard output how many they are, and gives how many
   files they were. */
int out_files_put(int directory, const struct waiting *waiting, const struct book *book,
                  size_t *count);

/* The same for orders of an earlier run that wait, in the directory that the log names. */
int out_files_put_late(const struct waiting *waiting, const struct book *book, size_t *count);

/* Removes files that wait and were not kept, and gives back the memory. */
void out_files_leave(struct out_files *out);

#endif
