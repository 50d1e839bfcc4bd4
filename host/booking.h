/* Booking the files of a run into the book in memory. */
#ifndef BOOKING_H
#define BOOKING_H

#include "book_file.h"
#include "records.h"
#include "retold.h"

struct booking {
    int again;                  /* --again: files that were booked before are booked too */
    struct tally all;           /* over all files */
    unsigned long left_out;     /* files that were booked before */
    unsigned long other_article; /* records booked under another article than the order's */
    unsigned long parts_untold; /* bundles booked whose parts cannot be told */
    struct retold refused;      /* answers that are told again at the end */
};

/* Books each file, prints its answers and adds it to the log in memory; gives the book as it
   is to be saved. Returns 0, and has said why, where that fails. */
int booking_run(struct booking *booking, struct book_file *file, struct book *book,
                struct input *inputs, int count, struct saved *saved);

/* Says on standard error where a run that books has no roster. */
void warn_of_no_roster(const struct book_file *file, const struct book *book);

/* What is said of a file that is left out: what was done with it, and what --again does. */
struct left_out_words { const char *done, *again; };

/* Whether a file is left out, since its bytes were taken into this book before; it is said. The
   book at hand has the digest `book`. */
int is_left_out(const struct book_file *file, const char *book, const char *name,
                const char *digest, const struct left_out_words *words);

/* How many records came to which end. */
void booking_print_tally(const struct booking *booking);

#endif
