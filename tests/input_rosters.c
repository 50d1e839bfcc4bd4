/* Generated rosters: such as an account stands on, such as it does not stand on, and such as
   have a wrong size. */
#include "inputs.h"

#include <string.h>

/* The account of a record's school; where the record is too short to have one, any. */
const uint8_t *account_of(const uint8_t *record, size_t length)
{
    static const char any[] = "43210     VD";
    size_t place = length > 0 && record[0] == 'B' ? IN_SENDER : IN_RECIPIENT;
    return length >= place + IN_PARTY ? record + place : (const uint8_t *)any;
}

uint64_t any_ceiling(struct dice *dice)
{
    switch (below(dice, 4)) {
    case 0: return 0;
    case 1: return WQ_HIGHEST_CEILING;
    case 2: return between(dice, 1, IN_MOST_COPIES);
    default: return roll(dice) & WQ_HIGHEST_CEILING;
    }
}

/* Another account than this: any, any bytes, another qualifier, or one byte off. */
void make_other(struct dice *dice, const uint8_t *account, uint8_t *other)
{
    static const char *const qualifiers[] = {"VD", "IB", "SA"};
    size_t which = below(dice, 6);
    memcpy(other, account, IN_PARTY);
    if (which == 0)
        make_party(dice, other);
    else if (which == 1)
        for (size_t i = 0; i < IN_PARTY; i++)
            other[i] = (uint8_t)roll(dice);
    else if (which == 2)
        memcpy(other + IN_ADDRESS, qualifiers[below(dice, 3)], IN_QUALIFIER);
    if (memcmp(other, account, IN_PARTY) == 0)
        other[below(dice, IN_PARTY)] ^= (uint8_t)(1u << below(dice, 8));
}

void put_school(struct roster *roster, size_t index, const uint8_t *account, uint64_t ceiling)
{
    uint8_t *school = roster->bytes + index * IN_SCHOOL;
    memcpy(school, account, IN_PARTY);
    put_little(school + IN_CEILING, IN_SCHOOL - IN_CEILING, ceiling);
}

/* Entries of other accounts alone, with any ceilings. */
void make_roster_without(struct dice *dice, struct roster *roster, const uint8_t *account,
                         size_t entries)
{
    uint8_t other[IN_PARTY];
    for (size_t i = 0; i < entries; i++) {
        make_other(dice, account, other);
        put_school(roster, i, other, any_ceiling(dice));
    }
    roster->length = entries * IN_SCHOOL;
}

/* The account speaks at this place. Behind it stand other accounts and, often, itself. */
void make_roster_of(struct dice *dice, struct roster *roster, const uint8_t *account,
                    uint64_t ceiling, size_t entries, size_t place)
{
    make_roster_without(dice, roster, account, entries);
    put_school(roster, place, account, ceiling);
    for (size_t i = place + 1; i < entries; i++)
        if (chance(dice, 4))
            put_school(roster, i, account, any_ceiling(dice));
}

/* The account with this ceiling, alone or somewhere on a bigger roster. */
void make_roster(struct dice *dice, struct roster *roster, const uint8_t *account,
                 uint64_t ceiling)
{
    size_t entries = chance(dice, 2) ? 1 : chance(dice, 12) ? between(dice, 9, IN_MOST_SCHOOLS)
                                                            : between(dice, 2, 8);
    make_roster_of(dice, roster, account, ceiling, entries, below(dice, entries));
}

/* Two entries that differ from the account in every byte, but for its own bytes, which start
   at a place where no entry does. */
void make_roster_across(struct roster *roster, const uint8_t *account, size_t place)
{
    uint8_t other[IN_PARTY];
    for (size_t i = 0; i < IN_PARTY; i++)
        other[i] = (uint8_t)~account[i];
    put_school(roster, 0, other, 0);
    put_school(roster, 1, other, 0);
    memcpy(roster->bytes + place, account, IN_PARTY);
    roster->length = 2 * IN_SCHOOL;
}

/* Too many entries, or a part of one at the end; the account stands on it all the same. */
void make_wrong_roster(struct dice *dice, struct roster *roster, const uint8_t *account)
{
    size_t entries = chance(dice, 2) ? between(dice, 1, 8) : IN_MOST_SCHOOLS + below(dice, 3);
    make_roster_of(dice, roster, account, WQ_HIGHEST_CEILING, entries, below(dice, entries));
    size_t part = between(dice, 1, IN_SCHOOL - 1), whole = roster->length;
    if (entries <= IN_MOST_SCHOOLS || chance(dice, 2))
        roster->length = chance(dice, 2) ? whole + part : whole - part;
}
