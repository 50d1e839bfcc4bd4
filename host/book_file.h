/* The file in which the book is kept between two runs. */
#ifndef BOOK_FILE_H
#define BOOK_FILE_H

#include "book.h"
#include "history.h"

/* A full book saved in the new form, the longer one: no file that is longer can be a book for
   these rooms. */
enum { LONGEST_SAVE = WQ_SAVE_LENGTH(WQ_MOST_LINES, WQ_MOST_SLIPS) };

/* A book as saved bytes, and their digest. */
struct saved {
    uint8_t bytes[LONGEST_SAVE];
    size_t length;
    char digest[DIGEST_ROOM];
};

/* Whether a valid save has lines of the old form. One without lines is of both forms. */
int saved_is_old(const struct saved *saved);

/* What the run may do with the book. */
struct intent {
    int make_new;       /* --new: there is no book yet, and one is to be made */
    int accept;         /* --accept-book: take a book that was not saved here */
    int write;          /* the run changes the book or what stands beside it */
};

struct book_file {
    struct own_files files;     /* the book's path, symbolic links followed, and the others */
    struct intent intent;
    struct history history;
    int lock;                   /* the open lock file, or -1 */
    struct saved loaded;        /* the book as it was loaded */
};

/* Each returns 1 where it succeeds; else it has said why on standard error. */
int book_file_find(struct book_file *file, const char *name, const struct intent *intent);
int book_file_lock(struct book_file *file);
int book_file_load(struct book_file *file, struct book *book);

/* Begins a book that is another one's saved bytes, moved to the other form: its past is that
   of the other book. It has to be locked. */
int book_file_begin_moved(struct book_file *file, const struct book_file *from,
                          const struct saved *saved);

/* The book in memory as it would be saved: in the new form. */
int book_file_save_bytes(const struct book_file *file, const struct book *book,
                         struct saved *saved);

/* Replaces the book and what stands beside it; says where the book is new, or was of the old
   form. A crash leaves the old book or the new one, never less. What it leaves beside the old
   book: before any name is taken, nothing but files under names of their own; after the digests,
   a digest of a book that never was; after the log, lines off the trail, which do not count (see
   history.h); after BOOK.old, the old book twice. */
enum take_result book_file_save(struct book_file *file, const struct saved *saved);

/* Gives back the names and the lock, and removes new files that were not needed. */
void book_file_leave(struct book_file *file);

#endif
