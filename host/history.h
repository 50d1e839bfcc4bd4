/* What is known of a book's past: BOOK.digests and BOOK.log, both plain text.
 *
 * BOOK.digests has a line for each book that was about to be saved: its digest, and when.
 * BOOK.log has a line for each file that was booked:
 *
 *   WHEN from BOOK to BOOK: file DIGEST, N booked, N with nothing to book, N refused,
 *   roster ROSTER: NAME
 *
 * all in one line, with the first digits of the digests of the books before and after it and
 * of the roster that its records met (`no roster` where none was named). So the lines form a
 * trail that leads back from the book at hand, and a line that is not on the trail tells of
 * a book that is not this one: its run broke off before the book was in place, or an older
 * book was put back. Such a line does not count. A trail begins with `from new` for a new
 * book; `from any`, for a book taken on purpose, lets every line above it count. The log of a
 * book that was moved to the other form has the lines of the book that it was made of, and
 * then a line that leads from that book to it.
 *
 * Behind the line of a wish list stands one that leads from the book to itself:
 *
 *   WHEN from BOOK to BOOK: orders RUN wait in DIRECTORY
 *
 * It takes its name with the book that has these orders, so orders of the book at hand wait in
 * files (see out_files.h) from then on, until a line `orders RUN are out` follows. */
#ifndef HISTORY_H
#define HISTORY_H

#include "digest.h"
#include "own_files.h"

struct history {
    struct bytes digests, log;      /* the texts; no bytes where there is no file */
    size_t log_kept;                /* how much of the log stands in its file already */
};

/* What became of a file's records. */
struct tally { unsigned long booked, no_need, refused; };

/* A file as the log tells of it; the digest of its roster is empty where there was none. */
struct logged_file {
    const char *name, *digest, *roster;
    struct tally tally;
};

/* Reads both files; returns 0, and has said why, where one cannot be read or is not ours. */
int history_read(struct history *history, const struct own_files *files);

/* Whether a book with this digest was saved here. */
int history_knows_book(const struct history *history, const char *digest);

/* The line of the log that says that a file was booked into the book at hand, or NULL. */
const char *history_of_file(const struct history *history, const char *book, const char *file);

/* Orders whose files wait in a directory. */
enum { RUN_DIGITS = 16, RUN_ROOM = RUN_DIGITS + 1 };
struct waiting {
    char run[RUN_ROOM];         /* the run that made them; empty where none wait */
    char *directory;            /* free() gives it back */
};

/* Finds the orders of the book at hand that wait; only those of the last run that made any can.
   Returns 0, and has said so, where there is not enough memory. */
int history_waiting(const struct history *history, const char *book, struct waiting *waiting);

/* Says on standard error where the log does not tell the whole past of the book at hand. */
void history_judge(const struct history *history, const struct own_files *files,
                   const char *book);

/* Adds to the texts in memory; each returns 0, and has said so, where there is not enough. */
int history_add_digest(struct history *history, const char *digest);
int history_add_new(struct history *history, const char *to);
int history_add_accepted(struct history *history, const char *to);
int history_add_moved(struct history *history, const char *from, const char *to);
int history_add_file(struct history *history, const char *from, const char *to,
                     const struct logged_file *file);

int history_add_waiting(struct history *history, const char *book, const struct waiting *waiting);
int history_add_out(struct history *history, const char *book, const char *run);

/* Adds all lines of another book's log, for a book that goes on from that one. */
int history_add_past(struct history *history, const struct history *other);

/* Writes the texts as new files that wait to take their names; the log only where something
   was added. */
int history_write_digests(const struct history *history, struct own_files *files);
int history_write_log(struct history *history, struct own_files *files);

void history_leave(struct history *history);

#endif
