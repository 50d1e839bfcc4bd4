/* What the message numbers of reports mean, by the papers of the two wholesalers. */
#ifndef MESSAGES_H
#define MESSAGES_H

#include "records.h"

/* The name of the wholesaler that a supplier is, or NULL where it is neither of the two. */
const char *wholesaler_name(const uint8_t supplier[ACCOUNT_WIDTH]);

/* Prints what a line's last message from a supplier means, also where none came or it is not
   known. From one of the wholesalers a number means what its own paper says; where that is
   silent, and for any other supplier, all that is said of it stands behind the name of whoever
   says it. The words hold no semicolon, no quote and no line end. */
void print_meaning(uint64_t message, const uint8_t supplier[ACCOUNT_WIDTH]);

#endif
