/* What a run is asked for: the arguments of the program. */
#ifndef ARGUMENTS_H
#define ARGUMENTS_H

#include "book_file.h"
#include "listing.h"
#include "moving.h"

#include <stdio.h>

enum command { BOOK_FILES, LIST_BOOK, ORDER_WISHES, MOVE_BOOK, SHOW_HELP };

struct request {
    enum command command;
    int without_word;           /* no word said which command it is: the old form */
    char *book;
    char *out;                  /* of a move the book that is made, of an order the directory */
    const struct move *move;    /* the move that is asked for, or NULL */
    struct intent intent;
    int again;
    char *roster;               /* the file, or NULL */
    struct choice choice;       /* what is listed, and how */
    char **names;               /* the FILEs, or the one wish list */
    int count;
};

/* Reads the arguments; returns 0 where they are not as `print_usage` says. The names are put
   together in `arguments`. */
int take_arguments(struct request *request, int count, char **arguments);

void print_usage(FILE *to);

#endif
