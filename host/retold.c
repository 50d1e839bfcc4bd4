/* Keeping what is told again. */
#define _XOPEN_SOURCE 700

#include "retold.h"
#include "text.h"

#include <stdlib.h>
#include <string.h>

enum { MOST_RETOLD = 1000 };    /* lines that are told again */

int retold_begin(struct retold *retold)
{
    memset(retold, 0, sizeof *retold);
    retold->stream = open_memstream(&retold->text, &retold->length);
    if (retold->stream == NULL)
        complain_system("memory", "cannot keep what is refused");
    return retold->stream != NULL;
}

FILE *retold_next(struct retold *retold)
{
    return retold->count++ < MOST_RETOLD ? retold->stream : NULL;
}

int retold_end(struct retold *retold)
{
    if (fflush(retold->stream) == 0 && !ferror(retold->stream))
        return 1;
    complain("memory", "there is not enough to keep what is refused");
    return 0;
}

void retold_print(const struct retold *retold, const char *what)
{
    if (retold->count == 0)
        return;
    printf("\nRefused %s, once more: %lu\n", what, retold->count);
    fwrite(retold->text, 1, retold->length, stdout);
    if (retold->count > MOST_RETOLD)
        printf("and %lu more, each in its place above\n", retold->count - MOST_RETOLD);
}

void retold_leave(struct retold *retold)
{
    if (retold->stream != NULL)
        fclose(retold->stream);
    free(retold->text);
}
