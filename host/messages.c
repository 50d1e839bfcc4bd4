/* The wholesalers' message numbers in words. */
#include "messages.h"

#include <stdio.h>
#include <string.h>

enum wholesaler { UMBREIT, KNV_ZEITFRACHT, WHOLESALER_COUNT };

static const struct { const char *account, *name; } wholesalers[WHOLESALER_COUNT] = {
    [UMBREIT] = {"24000     VD", "Umbreit"},
    [KNV_ZEITFRACHT] = {"14914     VD", "KNV Zeitfracht"}
};

/* A number, what Umbreit says of it, and what KNV Zeitfracht says; NULL where its paper is
   silent. Umbreit's paper lists its numbers, and they say whether an order is kept. That of KNV
   Zeitfracht has two in its examples alone; there the hold mark says whether it is kept, so its
   15 is not Umbreit's. */
struct message { unsigned number; const char *says[WHOLESALER_COUNT]; };

static const struct message messages[] = {
    {0, {"available", NULL}},
    {1, {"available within 14 days, order kept", NULL}},
    {2, {"available within 6 weeks, order kept", NULL}},
    {3, {"available within 6 months, order kept", NULL}},
    {4, {"not yet published, order kept", NULL}},
    {6, {"out of print, will be offered anew before it is published", NULL}},
    {7, {"out of print, order filed away", NULL}},
    {9, {"order unclear, please order again with new details", NULL}},
    {10, {"out of stock for a short time, order not kept", NULL}},
    {12, {NULL, "not yet available"}},
    {15, {"out of stock for a short time, order kept", "not available for a short time"}},
    {17, {"can be ordered from the publisher, not carried (any more)", NULL}},
    {18, {"procured on demand, firm purchase without return", NULL}},
    {19, {"fixed price lifted, no longer carried", NULL}},
    {20, {"not yet published, order not kept", NULL}},
    {22, {"order for a set day is kept", NULL}},
    {23, {"not yet in stock, order not kept", NULL}},
    {24, {"will not be published, says the publisher", NULL}},
    {25, {"not yet in stock, order kept", NULL}},
    {26, {"no longer stocked, will not be procured", NULL}},
    {29, {"not in the catalogue", NULL}},
    {34, {"publication uncertain, order kept", NULL}},
    {35, {"publication uncertain, order not kept", NULL}},
    {41, {"sold out at the wholesaler, please order from the publisher", NULL}},
    {50, {"please give the publisher's order number", NULL}},
    {51, {"available within 14 days, order not kept", NULL}},
    {52, {"available within 6 weeks, order not kept", NULL}},
    {53, {"available within 6 months, order not kept", NULL}},
    {59, {"please note the following information: ..", NULL}},
    {60, {"not available, on the index of media harmful to the young", NULL}},
    {62, {"not available at present because of a legal dispute, order kept", NULL}},
    {63, {"not available at present because of a legal dispute, order not kept", NULL}},
    {70, {"compulsory continuation, please order in writing", NULL}},
    {71, {"continuation noted, delivery follows", NULL}},
    {79, {"not to be had in the book trade", NULL}},
    {82, {"cannot be delivered abroad", NULL}},
    {90, {"being produced for you, order kept", NULL}},
    {91, {"being produced for you, firm purchase without return, please keep it on order", NULL}},
    {93, {"procured on demand, firm purchase without return, available within 1 week", NULL}},
    {96, {"not available because of the publisher's insufficient terms, "
          "please order from the publisher", NULL}},
    {98, {"digital product, available by download only", NULL}},
    {99, {"order line cancelled", NULL}}
};

enum { MESSAGE_COUNT = sizeof messages / sizeof messages[0] };

/* Which wholesaler a supplier is; WHOLESALER_COUNT where it is neither. */
static size_t wholesaler_of(const uint8_t *supplier)
{
    size_t which = 0;
    while (which < WHOLESALER_COUNT &&
           memcmp(supplier, wholesalers[which].account, ACCOUNT_WIDTH) != 0)
        which++;
    return which;
}

const char *wholesaler_name(const uint8_t supplier[ACCOUNT_WIDTH])
{
    size_t which = wholesaler_of(supplier);
    return which < WHOLESALER_COUNT ? wholesalers[which].name : NULL;
}

static const struct message *message_numbered(uint64_t number)
{
    for (size_t i = 0; i < MESSAGE_COUNT; i++)
        if (messages[i].number == number)
            return &messages[i];
    return NULL;
}

/* All that is said of a number, each behind the name of whoever says it. */
static void print_by_name(const struct message *message)
{
    const char *between = "";
    for (size_t i = 0; i < WHOLESALER_COUNT; i++) {
        if (message->says[i] == NULL)
            continue;
        printf("%s%s: %s", between, wholesalers[i].name, message->says[i]);
        between = " / ";
    }
}

void print_meaning(uint64_t message, const uint8_t supplier[ACCOUNT_WIDTH])
{
    const struct message *found = message_numbered(message);
    size_t own = wholesaler_of(supplier);
    if (message == WQ_NO_REPORT)
        fputs("no report yet", stdout);
    else if (message == WQ_MESSAGE_UNKNOWN)
        fputs("not known (old book)", stdout);
    else if (found == NULL)
        fputs("not in the wholesalers' lists", stdout);
    else if (own < WHOLESALER_COUNT && found->says[own] != NULL)
        fputs(found->says[own], stdout);
    else
        print_by_name(found);
}
