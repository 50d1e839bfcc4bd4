/* What was refused in a run is told again at its end, where it is seen. */
#ifndef RETOLD_H
#define RETOLD_H

#include <stdio.h>

struct retold {
    FILE *stream;               /* what is told again, in memory */
    char *text;
    size_t length;
    unsigned long count;        /* also of what is too much to tell again */
};

/* Returns 0, and has said why, where it cannot. */
int retold_begin(struct retold *retold);

/* Counts one more; gives where to print it, or NULL where enough is told again. */
FILE *retold_next(struct retold *retold);

/* Returns 0, and has said why, where not all could be kept. */
int retold_end(struct retold *retold);

/* Prints all of it under a heading that names what it is, as in `records`. */
void retold_print(const struct retold *retold, const char *what);

void retold_leave(struct retold *retold);

#endif
