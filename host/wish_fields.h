/* The fixed fields of an order, and what a person may write into their cells. */
#ifndef WISH_FIELDS_H
#define WISH_FIELDS_H

#include "wishes.h"

struct fixed_field {
    const char *name;           /* of its column */
    int needed;                 /* whether the list has to have that column */
    size_t width;
    /* Takes a cell, without the blanks around it, over into the field, which is blank. Returns 0
       where it is not what the field may hold; what is taken over is judged by wq_write. */
    int (*take)(const struct cell *cell, uint8_t *to, size_t width);
    const char *otherwise;      /* what the field is where its cell is empty, or NULL */
    const char *may_hold;       /* in words; NULL where that hangs on the qualifier */
};

/* In the order of the record, behind its kind. */
extern const struct fixed_field fixed_fields[WISH_FIXED_FIELDS];

/* What an article may be, in words, by what stands in the cell of its qualifier; NULL where that
   is no qualifier. */
const char *article_may_hold(const struct cell *qualifier);

/* Tells the qualifier from the form of an article. NULL where it cannot be told; `*untold` is
   then the reason, or NULL where it is no article at all. */
const char *article_qualifier(const uint8_t article[WQ_ARTICLE_WIDTH], const char **untold);

#endif
