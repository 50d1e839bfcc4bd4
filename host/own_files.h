/* The host's own files beside a book, and how a new one takes the place of an old one. */
#ifndef OWN_FILES_H
#define OWN_FILES_H

#include "fresh.h"
#include "whole.h"

#include <sys/stat.h>

/* In the order in which new ones are put in place: the book comes last. */
enum own {
    OWN_LOCK,           /* BOOK.lock: empty; a run that books holds it locked */
    OWN_DIGESTS,        /* BOOK.digests: a digest of each book saved here */
    OWN_LOG,            /* BOOK.log: which files were booked, and when */
    OWN_OLD,            /* BOOK.old: the book before the last run that changed it */
    OWN_BOOK,           /* BOOK */
    OWN_COUNT
};

struct own_files {
    char *directory;            /* the directory they stand in, with a slash at its end */
    char *paths[OWN_COUNT];
    char *fresh[OWN_COUNT];     /* new files that wait to take their names, or NULL */
    struct rights rights;       /* those of the book; all of its files have them */
    int book_is_new;            /* the book takes its name only where nobody has it */
};

/* Makes the names from the book's own path, which holds a slash. Returns 0 without memory. */
int own_files_name(struct own_files *files, const char *path);

/* The path of the file that a status belongs to, or NULL where it is none of them. */
const char *own_files_which(const struct own_files *files, const struct stat *status);

/* Opens the lock file, and makes it where it is missing; -1 with errno set where it cannot. */
int own_files_open_lock(const struct own_files *files);

/* Opens one of the files for reading, links not followed; -1 with errno set. */
int own_files_open(const struct own_files *files, enum own which);

/* Writes a new file under a name that nobody has, and puts its bytes on the disk. Returns 0,
   and has said why, where that fails. */
int own_files_write(struct own_files *files, enum own which, const uint8_t *bytes, size_t length);

enum take_result {
    TAKE_FAILED,        /* the book is not replaced */
    TAKE_UNCERTAIN,     /* all is in place, but may not outlast a power cut */
    TAKE_DONE
};

/* The new files take their names, in order; the directory is on the disk before the book
   takes its name, and after it. */
enum take_result own_files_take(struct own_files *files);

/* Puts the names in the directory on the disk once more, for a run that goes on from what an
   earlier one saved; returns 0, and has said why, where it cannot. */
int own_files_sync(const struct own_files *files);

/* Removes new files that did not take their names, and gives back the memory. */
void own_files_leave(struct own_files *files);

#endif
