/* Moving a book to the other form of saved books: into a new book, never over another file. */
#ifndef MOVING_H
#define MOVING_H

#include "book_file.h"

/* A way to move: its option, the call that does it, and its words. */
struct move {
    const char *option;
    wq_saved (*call)(const uint8_t *saved, size_t saved_length, uint8_t *out, size_t out_length);
    const char *form;           /* the form that the book gets */
    const char *already;        /* what is said of a book that has it */
};

/* The way that an option names, or NULL. */
const struct move *move_named(const char *option);

/* The book that is read, and the one that is made of it. */
struct moving {
    struct book_file from, to;
    struct book book;           /* the book that is read, in memory */
    struct saved moved;         /* what is to be written */
};

/* Finds BOOK, and then the place for OUT, whose name has to be free. Each returns 0, and has
   said why, where it cannot. */
int moving_find_book(struct moving *moving, const char *book);
int moving_find_out(struct moving *moving, const char *out);

/* Moves the book. It is read as for a list, without a lock, and nothing beside it is written.
   OUT has its rights and goes on with its past, so files that were booked before are known. A
   crash leaves OUT whole or no OUT; in the second case its digests and log may be there. */
enum take_result moving_run(struct moving *moving, const struct move *move);

/* Gives back names and lock, and removes new files that were not needed. */
void moving_leave(struct moving *moving);

#endif
