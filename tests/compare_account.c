/* Cases for account: rosters of all counts, accounts of all lengths, and what a booking finds
   on the same bytes. */
#include "cases.h"

#include <string.h>

enum {
    ROOM = IN_MOST_SCHOOLS + 2, LONGER = 256, LONGEST_ADDRESS = 12, LONGEST_QUALIFIER = 3
};

/* The roster's entries as schools. */
static const wq_school *schools_of(const struct roster *roster)
{
    static wq_school schools[ROOM];
    memcpy(schools, roster->bytes, roster->length);
    return schools;
}

static uint64_t ask_account(const struct roster *roster, const uint8_t *account)
{
    return both_account(schools_of(roster), roster->length / IN_SCHOOL, account, IN_ADDRESS,
                        account + IN_ADDRESS, IN_QUALIFIER);
}

static void pick_account(struct dice *dice, uint8_t *account)
{
    memcpy(account, "43210     VD", IN_PARTY);
    if (chance(dice, 4))
        make_party(dice, account);
    else if (chance(dice, 4))
        for (size_t i = 0; i < IN_PARTY; i++)
            account[i] = (uint8_t)roll(dice);
}

/* The account is found with its ceiling, or 20 where there are too many schools. */
static void find_account(struct dice *dice, const uint8_t *account, size_t entries, size_t place)
{
    static struct roster roster;
    uint64_t ceiling = any_ceiling(dice);
    int wrong = entries > IN_MOST_SCHOOLS;
    make_roster_of(dice, &roster, account, ceiling, entries, place);
    enum class class = wrong ? ASKED_ON_OVER_64
                     : entries == IN_MOST_SCHOOLS && place == entries - 1 ? ASKED_FOR_64TH
                     : place == 0 ? ASKED_FOR_FIRST : ASKED_FOR_LATER;
    expect(class, 1, ask_account(&roster, account), wrong ? 20 : 0);
    insist(tally.value == (wrong ? 0 : ceiling), "the first entry's ceiling is told");
}

/* Every count, with the account in the first entry, some entry, the last and none. */
static void ask_every_count(struct dice *dice)
{
    static struct roster roster;
    uint8_t account[IN_PARTY];
    for (size_t entries = 0; entries <= ROOM; entries++) {
        pick_account(dice, account);
        if (entries > 0) {
            find_account(dice, account, entries, 0);
            find_account(dice, account, entries, below(dice, entries));
            find_account(dice, account, entries, entries - 1);
        }
        make_roster_without(dice, &roster, account, entries);
        expect(entries == 0 ? ASKED_ON_NONE : entries > IN_MOST_SCHOOLS ? ASKED_ON_OVER_64
               : ASKED_FOR_NONE, 1, ask_account(&roster, account),
               entries > IN_MOST_SCHOOLS ? 20 : 24);
    }
}

/* An account of these lengths, from one piece or from two, is found in its own alone. */
static void ask_with_lengths(struct dice *dice, const uint8_t *account, size_t address,
                             size_t qualifier)
{
    static struct roster roster;
    uint8_t parts[LONGER + LONGEST_ADDRESS + LONGER + LONGEST_QUALIFIER];
    int right = address == IN_ADDRESS && qualifier == IN_QUALIFIER;
    size_t second = chance(dice, 2) ? address : IN_ADDRESS;
    memset(parts, ' ', sizeof parts);
    memcpy(parts, account, IN_PARTY);
    if (second >= IN_PARTY)
        memcpy(parts + second, account + IN_ADDRESS, IN_QUALIFIER);
    make_roster(dice, &roster, account, any_ceiling(dice));
    size_t count = roster.length / IN_SCHOOL;
    expect(ASKED_WITH_LENGTHS, !right,
           both_account(schools_of(&roster), count, parts, address, parts + second, qualifier),
           right ? 0 : 24);
    came_up(ASKED_WITH_FAR_LENGTHS, address > LONGER || qualifier > LONGER);
    make_roster_of(dice, &roster, account, 7, ROOM - below(dice, 2), 0);
    count = roster.length / IN_SCHOOL;
    expect(ASKED_ON_OVER_64, 1,
           both_account(schools_of(&roster), count, parts, address, parts + second, qualifier),
           20);
}

static void ask_every_length(struct dice *dice)
{
    uint8_t account[IN_PARTY];
    pick_account(dice, account);
    for (size_t i = 0; i <= LONGEST_ADDRESS + 1; i++)
        for (size_t j = 0; j <= LONGEST_QUALIFIER + 1; j++)
            ask_with_lengths(dice, account,
                             i <= LONGEST_ADDRESS ? i : LONGER + IN_ADDRESS,
                             j <= LONGEST_QUALIFIER ? j : LONGER + IN_QUALIFIER);
}

/* An account of zeros, cut short: more often than there are kinds of bytes that can stand
   behind it, so the zeros that would make it whole are among them. */
static void ask_cut_short(struct dice *dice)
{
    enum { TIMES = 15 };
    static const size_t lengths[][2] = {{10, 0}, {10, 1}, {9, 2}, {0, 2}, {11, 1}, {12, 0}};
    static const uint8_t zeros[] = "000000000000";
    for (size_t i = 0; i < sizeof lengths / sizeof lengths[0]; i++)
        for (size_t time = 0; time < TIMES; time++)
            ask_with_lengths(dice, zeros, lengths[i][0], lengths[i][1]);
    came_up(ASKED_CUT_SHORT, 1);
}

/* A school that is one byte off, whichever, is another; the right one may follow. */
static void ask_near(struct dice *dice)
{
    static struct roster roster;
    uint8_t account[IN_PARTY], near[IN_PARTY];
    pick_account(dice, account);
    for (size_t i = 0; i < IN_PARTY; i++) {
        uint64_t ceiling = any_ceiling(dice);
        memcpy(near, account, IN_PARTY);
        near[i] ^= (uint8_t)(1u << below(dice, 8));
        put_school(&roster, 0, near, any_ceiling(dice));
        put_school(&roster, 1, account, ceiling);
        roster.length = IN_SCHOOL;
        expect(ASKED_ONE_BYTE_OFF, 1, ask_account(&roster, account), 24);
        roster.length = 2 * IN_SCHOOL;
        expect(ASKED_ONE_BYTE_OFF, 1, ask_account(&roster, account), 0);
        insist(tally.value == ceiling, "the ceiling of the right entry is told");
    }
}

/* The account's bytes at another place than an entry's start are no entry. */
static void ask_across_entries(struct dice *dice)
{
    static struct roster roster;
    uint8_t account[IN_PARTY];
    pick_account(dice, account);
    for (size_t place = 1; place < IN_SCHOOL; place++) {
        make_roster_across(&roster, account, place);
        expect(ASKED_ACROSS_ENTRIES, 1, ask_account(&roster, account), 24);
    }
}

/* An order before the roster on which the account was asked for, into an empty book. */
static void agree_on_order(struct dice *dice, const struct roster *roster,
                           const uint8_t *account, uint64_t told, uint64_t ceiling)
{
    static struct shelf shelf;
    uint8_t key[IN_TITLED];
    unique_line_key(key, 0);
    memcpy(key, account, IN_PARTY);
    size_t most = ceiling < IN_MOST_COPIES ? (size_t)ceiling : IN_MOST_COPIES - 1;
    for (size_t copies = most > 0 ? most : 1; copies <= most + 1; copies++) {
        const struct booking booking = {ORDER_SHAPE, key, copies, NULL};
        make_shelf(dice, &shelf, 1, 1);
        expect(told == 0 ? AGREED_FOUND : told == 24 ? AGREED_NOT_FOUND : AGREED_TOO_MANY, 1,
               book_before(dice, roster, &shelf, booking),
               told != 0 ? told : copies > ceiling ? 25 : 0);
    }
}

/* Rosters of few accounts that stand there often, or of any bytes. */
static void agree_with_bookings(struct dice *dice)
{
    static struct roster roster;
    uint8_t accounts[3][IN_PARTY];
    for (size_t i = 0; i < 60; i++) {
        size_t entries = chance(dice, 4) ? between(dice, 60, ROOM) : below(dice, 6);
        make_party(dice, accounts[0]);
        memcpy(accounts[1], accounts[0], IN_PARTY);
        memcpy(accounts[1] + IN_ADDRESS, chance(dice, 2) ? "VD" : "SA", IN_QUALIFIER);
        make_other(dice, accounts[0], accounts[2]);
        for (size_t j = 0; j < entries; j++)
            put_school(&roster, j, accounts[chance(dice, entries) ? 0 : between(dice, 1, 2)],
                       any_ceiling(dice));
        roster.length = entries * IN_SCHOOL;
        for (size_t j = 0; j < 2; j++) {
            uint64_t told = ask_account(&roster, accounts[j]);
            agree_on_order(dice, &roster, accounts[j], told, tally.value);
        }
    }
}

void compare_accounts(struct dice *dice)
{
    ask_every_count(dice);
    ask_every_length(dice);
    ask_cut_short(dice);
    for (size_t i = 0; i < 3; i++) {
        ask_near(dice);
        ask_across_entries(dice);
    }
    agree_with_bookings(dice);
}
