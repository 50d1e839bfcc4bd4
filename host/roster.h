/* The roster of schools: plain text, one school a line.
 *
 *   43210 VD 500     # at most 500 copies may be open for this school
 *
 * Address (1 to 10 capitals or digits), qualifier (VD, IB or SA) and ceiling (0 to
 * 4294967295, digits alone) stand with blanks or tabs between and around them; `#` starts a
 * comment. A line ends with LF, CR LF or CR, the last one also with the file. The mark that
 * some editors put before UTF-8 text is passed over. An account that stands twice is warned
 * of, and its first line counts. */
#ifndef ROSTER_H
#define ROSTER_H

#include "records.h"

#include <stdio.h>

struct roster {
    const char *name;           /* the file, or NULL where no roster was named */
    char digest[DIGEST_ROOM];   /* that of the file; empty where there is none */
    wq_school schools[WQ_MOST_SCHOOLS];
    size_t count;
    unsigned long repeated;     /* lines that do not count: their account stands above */
};

/* Reads a roster and says on standard error which lines are wrong, and what somebody should
   look at. Returns 0 where it cannot be used. */
int roster_read(struct roster *roster, const char *name, const struct own_files *own);

/* Whether the roster was warned of: an account stands twice, or nobody stands on it. */
int roster_is_doubtful(const struct roster *roster);

/* The account of an entry: its address, and its qualifier right behind. */
const uint8_t *school_account(const wq_school *school);

/* The ceiling of an account, or answer 24. */
wq_account_told roster_account(const struct roster *roster, const uint8_t account[ACCOUNT_WIDTH]);

/* Prints the accounts that are easily taken for this one, after the words `before`. */
void roster_print_similar(FILE *to, const struct roster *roster, const char *before,
                          const uint8_t account[ACCOUNT_WIDTH]);

#endif
