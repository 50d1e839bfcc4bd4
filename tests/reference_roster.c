/* The roster: the desk's own schools, each with its ceiling of open copies. */
#include "reference.h"
#include "reference_parts.h"

#include <string.h>

/* "At most 64" entries; bytes that are no whole number of entries are a wrong room too. */
int ref_roster_fits(size_t length)
{
    return length % SCHOOL_WIDTH == 0 && length <= MOST_SCHOOLS * SCHOOL_WIDTH;
}

/* "The first entry with an account speaks for it." */
const uint8_t *ref_find_school(const uint8_t *roster, size_t length, const uint8_t *account)
{
    for (size_t place = 0; place < length; place += SCHOOL_WIDTH)
        if (memcmp(roster + place, account, PARTY_WIDTH) == 0)
            return roster + place;
    return NULL;
}

size_t ref_ceiling_of(const uint8_t *school)
{
    return get_le32(school + SCHOOL_CEILING_PLACE);
}

static wq_account_told told(enum answer answer, size_t ceiling)
{
    wq_account_told account = {0, 0, 0};
    account.answer = answer;
    account.ceiling = ceiling;
    return account;
}

/* Account: 20, then 24, also for an address or a qualifier of wrong length. */
wq_account_told ref_account(const wq_school *schools, size_t count,
                            const uint8_t *address, size_t address_length,
                            const uint8_t *qualifier, size_t qualifier_length)
{
    if (count > MOST_SCHOOLS)
        return told(BOOK_UNSOUND, 0);
    if (address_length != ADDRESS_WIDTH || qualifier_length != QUALIFIER_WIDTH)
        return told(NOT_ON_ROSTER, 0);
    for (size_t i = 0; i < count; i++)
        if (memcmp(schools[i].address, address, ADDRESS_WIDTH) == 0
            && memcmp(schools[i].qualifier, qualifier, QUALIFIER_WIDTH) == 0)
            return told(DONE, schools[i].ceiling);
    return told(NOT_ON_ROSTER, 0);
}
