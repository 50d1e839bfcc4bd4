/* What every run has to do with its standard streams, and how it ends. */
#ifndef RUN_H
#define RUN_H

#include "own_files.h"

enum exit_code { ALL_DONE = 0, WORTH_A_LOOK = 1, NOT_SAVED = 2, TROUBLE_AFTER_SAVE = 3 };

/* A closed standard stream would be opened again as some file, and be written to. Returns 0
   where one is closed, and has said so on a stream that is open. */
int streams_are_open(void);

/* Standard output and standard error must not be a file of the book. Returns 0 where one is,
   and has said so on the one that is not. */
int streams_are_others(const struct own_files *own, const char *book);

/* Hands what was printed so far to the system; returns 0, and has said why, where not all of
   it could be written. */
int output_is_out(void);

#endif
