/* New files: written whole under a name of their own, put on the disk, and only then given the
 * name by which they are known. */
#ifndef FRESH_H
#define FRESH_H

#include <stddef.h>
#include <stdint.h>
#include <sys/types.h>

/* Whom a file belongs to and who may use it. */
struct rights {
    int given;          /* 0: only the mode counts, and whoever runs the program owns it */
    uid_t owner;
    gid_t group;
    mode_t mode;
};

enum { PRIVATE_MODE = 0600 };   /* a file before it has its rights */

/* The rights that the umask leaves a new file. */
struct rights rights_of_umask(void);

/* A file belongs to whom the rights say, as far as the system lets us; 0 with errno set. */
int give_rights(int to, const struct rights *rights);

/* Opens a new file that nobody had before; -1 with errno set. Names are in `directory`, or of
   the working directory with AT_FDCWD. */
int fresh_open(int directory, const char *name);

/* Gives it its rights, writes all bytes, puts them on the disk and closes it; 0 with errno set. */
int fresh_fill(int to, const struct rights *rights, const uint8_t *bytes, size_t length);

/* A new file takes a name that nobody has; 0 with errno set. */
int fresh_take_free(int directory, const char *fresh, const char *name);

/* Puts the names in a directory on the disk; returns 0, and has said why, where it cannot. */
int directory_sync(int directory, const char *path);

#endif
