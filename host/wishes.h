/* The wish list: a text from a spreadsheet, one wish a line, of which orders are made.
 *
 *   school;supplier;reference;article;quantity;1003
 *   43210;24000;A-17;9783442756841;10;"for the library; shelf 3"
 *
 * Cells are parted by semicolons; a line ends with LF, CR LF or CR, the last one also with the
 * file. A cell that begins with a quote goes to the closing quote, and may hold semicolons and
 * line ends; two quotes in it are one. The first line that is not blank names the columns: fixed
 * fields of an order by name, in any case, and optional fields by their four digits, which may
 * repeat. A column whose name begins with # is for the person alone.
 *
 * A text that is UTF-8 as a whole is taken as that, any other as Windows-1252. */
#ifndef WISHES_H
#define WISHES_H

#include "records.h"
#include "text.h"

#include <stdio.h>

enum { MOST_COLUMNS = 128 };

/* What a column holds: a fixed field of an order, in the order of the record; or else. */
enum wish_field {
    WISH_SCHOOL, WISH_SCHOOL_QUALIFIER, WISH_SUPPLIER, WISH_SUPPLIER_QUALIFIER, WISH_DATE,
    WISH_REFERENCE, WISH_ARTICLE, WISH_ARTICLE_QUALIFIER, WISH_QUANTITY, WISH_MEASURE,
    WISH_FIXED_FIELDS,
    WISH_OPTIONAL = WISH_FIXED_FIELDS,  /* an optional field */
    WISH_PASSED_OVER,                   /* for the person alone */
    WISH_NAMELESS                       /* nothing: its name is empty */
};

struct column {
    enum wish_field field;
    unsigned id;                /* of an optional field */
};

/* A cell without its quotes. */
struct cell {
    const uint8_t *start;               /* Windows-1252; a part of the list's own bytes */
    size_t length;
    int followed;                       /* something stands behind its closing quote */
    char foreign[LONGEST_LETTER + 1];   /* the first letter that Windows-1252 has not, or none;
                                           a ? stands in its place */
};

/* A row. */
struct wish {
    unsigned long line;                 /* the number of the line on which it begins, from 1 */
    size_t count;                       /* cells that it has */
    size_t last;                        /* the number, from 1, of the last that is not blank */
    struct cell cells[MOST_COLUMNS];    /* empty ones behind the last */
};

struct wish_list {
    const char *name;
    char digest[DIGEST_ROOM];   /* of the file's bytes */
    int doubtful;               /* something was said of the file that somebody should look at */
    struct input input;         /* input.at is where the next row begins */
    unsigned long line;         /* and the number of its line */
    int utf_8;
    struct column columns[MOST_COLUMNS];
    size_t count;               /* of columns */
    size_t places[WISH_FIXED_FIELDS];   /* the column of each fixed field, MOST_COLUMNS for none */
};

/* Reads the file whole and its header; `-` is standard input, and files of the book are refused.
   Returns 0, and has said why, where it cannot be used as a whole. */
int wish_list_read(struct wish_list *list, const char *name, const struct own_files *own);

/* Gives the next wish; 0 at the end. Rows whose cells are all blank are passed over. Its cells
   stand until the list is left. */
int wish_list_next(struct wish_list *list, struct wish *wish);

void wish_list_leave(struct wish_list *list);

/* A blank in a cell: a space, a tab or a no-break space. */
int is_blank_in_cell(uint8_t byte);

/* A cell without the blanks around it. */
struct cell cell_trimmed(const struct cell *cell);

#endif
