/* Cases for the roster: its size, who stands on it, and 24 among the other answers. */
#include "cases.h"

#include <string.h>

/* The line of the book, another line, or none since the reference is blank. */
enum wanted_line { BOOKED, OTHER, BLANK };

/* A record for a full book of one line and one slip: its line, whether it has the key of the
   slip, its copies; its answer where its school stands on the roster, and whether that comes
   before 24; and the class of the record where its school does not. */
struct probe {
    enum shape shape;
    enum wanted_line line;
    int same_slip;
    size_t copies;
    uint64_t answer;
    int before_24;
    enum class class;
};

enum { ON_SLIP = 3, LEFT = 5, MOST_ARRIVED = 9999999 };

static const struct probe probes[] = {
    {ORDER_SHAPE, BOOKED, 0, 7, 14, 0, NOT_LISTED_14},
    {ORDER_SHAPE, OTHER, 0, 7, 15, 0, NOT_LISTED_15},
    {GOODS_SHAPE, OTHER, 0, ON_SLIP, 16, 0, NOT_LISTED_16_DELIVERY},
    {REPORT_SHAPE, OTHER, 0, 0, 16, 0, NOT_LISTED_16_REPORT},
    {GOODS_SHAPE, BOOKED, 1, ON_SLIP, 17, 0, NOT_LISTED_17},
    {GOODS_SHAPE, BOOKED, 1, ON_SLIP + 1, 18, 0, NOT_LISTED_18},
    {GOODS_SHAPE, OTHER, 1, ON_SLIP, 18, 0, NOT_LISTED_18},
    {GOODS_SHAPE, BOOKED, 0, LEFT, 19, 0, NOT_LISTED_19},
    {GOODS_SHAPE, BOOKED, 0, LEFT + 1, 21, 0, NOT_LISTED_21},
    {REPORT_SHAPE, BOOKED, 0, 0, 0, 0, NOT_LISTED_REPORT},
    {ORDER_SHAPE, BOOKED, 0, 0, 11, 1, NOT_LISTED_AFTER_11},
    {GOODS_SHAPE, BOOKED, 1, 0, 11, 1, NOT_LISTED_AFTER_11},
    {ORDER_SHAPE, BLANK, 0, 0, 11, 1, NOT_LISTED_AFTER_11},
    {ORDER_SHAPE, BLANK, 0, 7, 12, 1, NOT_LISTED_AFTER_12},
    {GOODS_SHAPE, BLANK, 1, ON_SLIP, 12, 1, NOT_LISTED_AFTER_12},
    {REPORT_SHAPE, BLANK, 0, 0, 12, 1, NOT_LISTED_AFTER_12},
    {ADVANCE_SHAPE, BOOKED, 0, ON_SLIP, 13, 1, NOT_LISTED_AFTER_13},
    {CLOSING_SHAPE, BOOKED, 0, 0, 13, 1, NOT_LISTED_AFTER_13}
};
enum { PROBES = sizeof probes / sizeof probes[0] };

/* How a roster meets a record: its school stands on it, does not, or the size is wrong. */
enum meeting { LISTED, NOT_LISTED, WRONG_SIZE };

/* The full book for the probes, of this school. */
static void make_full_book(struct dice *dice, struct shelf *shelf, const uint8_t *account)
{
    make_shelf(dice, shelf, 1, 1);
    add_line(dice, shelf, account, 10, MOST_ARRIVED - LEFT, IN_NO_MARK);
    unique_slip_key(shelf->slips, 0);
    memcpy(shelf->slips + IN_PARTY, account, IN_PARTY);
    put_little(shelf->slips + IN_LINE_OF_SLIP, 2, 0);
    put_little(shelf->slips + IN_COPIES, 2, ON_SLIP);
    shelf->used[1] = 1;
}

/* Books a probe's record, which names the article of the book's line or, as often, another:
   its answer is the same. Both classes count: that of the roster and, where the school is not
   on it, that of the probe. */
static void try_probe(struct dice *dice, const struct probe *probe, const struct roster *roster,
                      struct shelf *shelf, enum meeting meeting, enum class class)
{
    uint8_t key[IN_TITLED], slip[IN_SLIP_KEY];
    memcpy(key, shelf->lines, IN_TITLED);
    int names_other = chance(dice, 2);
    if (names_other)
        make_other_title(dice, shelf->lines + IN_KEY, key + IN_KEY);
    if (probe->line == OTHER)
        key[IN_REFERENCE] ^= 1;
    if (probe->line == BLANK)
        memset(key + IN_REFERENCE, ' ', 10);
    unique_slip_key(slip, probe->same_slip ? 0 : 1);
    const struct booking booking = {probe->shape, key, probe->copies,
                                    probe->shape == GOODS_SHAPE ? slip : NULL};
    uint64_t wanted = meeting == WRONG_SIZE ? 20
                    : meeting == NOT_LISTED && !probe->before_24 ? 24 : probe->answer;
    expect(class, 1, book_before(dice, roster, shelf, booking), wanted);
    came_up(probe->class, meeting == NOT_LISTED);
    came_up(names_other ? REFUSED_WITH_OTHER_ARTICLE : REFUSED_WITH_ARTICLE, wanted != 0);
}

static void try_all_probes(struct dice *dice, const struct roster *roster, struct shelf *shelf,
                           enum meeting meeting, enum class class)
{
    for (size_t i = 0; i < PROBES; i++)
        try_probe(dice, &probes[i], roster, shelf, meeting, class);
}

/* The account that the bytes around the pieces name too, or any. */
static void pick_account(struct dice *dice, uint8_t *account)
{
    memcpy(account, "43210     VD", IN_PARTY);
    if (chance(dice, 3))
        make_party(dice, account);
}

static enum class class_of_length(size_t length)
{
    size_t entries = length / IN_SCHOOL;
    return length % IN_SCHOOL != 0 ? ROSTER_RAGGED
         : entries == 0 ? ROSTER_OF_NONE
         : entries < IN_MOST_SCHOOLS ? ROSTER_OF_1_TO_63
         : entries == IN_MOST_SCHOOLS ? ROSTER_OF_64 : ROSTER_OVER_64;
}

/* Every length up to 66 entries. The account stands in the last whole entry, or in none. */
static void meet_every_length(struct dice *dice)
{
    enum { LONGEST = (IN_MOST_SCHOOLS + 2) * IN_SCHOOL };
    static struct roster roster;
    static struct shelf shelf;
    uint8_t account[IN_PARTY];
    pick_account(dice, account);
    make_full_book(dice, &shelf, account);
    for (size_t length = 0; length <= LONGEST; length++) {
        size_t entries = length / IN_SCHOOL;
        int listed = entries > 0 && !chance(dice, 4);
        make_roster_without(dice, &roster, account, entries + 1);
        if (listed)
            put_school(&roster, entries - 1, account, WQ_HIGHEST_CEILING);
        else
            put_school(&roster, entries, account, WQ_HIGHEST_CEILING);
        roster.length = length;
        int wrong = length % IN_SCHOOL != 0 || entries > IN_MOST_SCHOOLS;
        try_probe(dice, &probes[below(dice, PROBES)], &roster, &shelf,
                  wrong ? WRONG_SIZE : listed ? LISTED : NOT_LISTED, class_of_length(length));
    }
}

/* Every record before the sizes at which the rule has its ends. */
static void meet_edge_sizes(struct dice *dice)
{
    static struct roster roster;
    static struct shelf shelf;
    uint8_t account[IN_PARTY];
    pick_account(dice, account);
    make_full_book(dice, &shelf, account);
    roster.length = 0;
    try_all_probes(dice, &roster, &shelf, NOT_LISTED, ROSTER_OF_NONE);
    make_roster_of(dice, &roster, account, WQ_HIGHEST_CEILING, IN_MOST_SCHOOLS,
                   IN_MOST_SCHOOLS - 1);
    try_all_probes(dice, &roster, &shelf, LISTED, ROSTER_OF_64);
    make_roster_of(dice, &roster, account, WQ_HIGHEST_CEILING, IN_MOST_SCHOOLS + 1, 0);
    try_all_probes(dice, &roster, &shelf, WRONG_SIZE, ROSTER_OVER_64);
    roster.length = IN_SCHOOL + between(dice, 1, IN_SCHOOL - 1);
    try_all_probes(dice, &roster, &shelf, WRONG_SIZE, ROSTER_RAGGED);
}

/* The account in the first, a middle and the last entry, the others near to it. */
static void meet_every_place(struct dice *dice)
{
    static const size_t sizes[] = {2, 3, 4, 17, 33, 63, 64};
    static struct roster roster;
    static struct shelf shelf;
    uint8_t account[IN_PARTY];
    for (size_t i = 0; i < sizeof sizes / sizeof sizes[0]; i++) {
        size_t last = sizes[i] - 1, places[] = {0, last / 2, below(dice, sizes[i]), last};
        pick_account(dice, account);
        make_full_book(dice, &shelf, account);
        for (size_t j = 0; j < sizeof places / sizeof places[0]; j++) {
            enum class class = places[j] == 0 ? ACCOUNT_FIRST
                             : places[j] == last ? ACCOUNT_LAST : ACCOUNT_IN_MIDDLE;
            make_roster_of(dice, &roster, account, WQ_HIGHEST_CEILING, sizes[i], places[j]);
            for (size_t k = 0; k < 4; k++)
                try_probe(dice, &probes[below(dice, PROBES)], &roster, &shelf, LISTED, class);
        }
    }
}

/* An entry that is one byte off, whichever, is another account. The right one may follow. */
static void meet_near_entries(struct dice *dice)
{
    static struct roster roster;
    static struct shelf shelf;
    uint8_t account[IN_PARTY], near[IN_PARTY];
    pick_account(dice, account);
    make_full_book(dice, &shelf, account);
    for (size_t i = 0; i < IN_PARTY; i++) {
        enum class class = i < IN_ADDRESS ? ENTRY_ADDRESS_OFF : ENTRY_QUALIFIER_OFF;
        memcpy(near, account, IN_PARTY);
        near[i] ^= (uint8_t)(1u << below(dice, 8));
        put_school(&roster, 0, near, any_ceiling(dice));
        put_school(&roster, 1, account, WQ_HIGHEST_CEILING);
        roster.length = IN_SCHOOL;
        try_all_probes(dice, &roster, &shelf, NOT_LISTED, class);
        roster.length = 2 * IN_SCHOOL;
        try_probe(dice, &probes[below(dice, PROBES)], &roster, &shelf, LISTED, class);
    }
}

/* The address with another qualifier is another account, and so is the supplier. */
static void meet_other_parties(struct dice *dice)
{
    static const char *const qualifiers[] = {"VD", "IB", "SA"};
    static struct roster roster;
    static struct shelf shelf;
    uint8_t account[IN_PARTY];
    pick_account(dice, account);
    make_full_book(dice, &shelf, account);
    roster.length = IN_SCHOOL;
    put_school(&roster, 0, shelf.lines + IN_PARTY, WQ_HIGHEST_CEILING);
    try_all_probes(dice, &roster, &shelf, NOT_LISTED, ENTRY_OF_SUPPLIER);
    for (size_t i = 0; i < 3; i++) {
        uint8_t *qualifier = roster.bytes + IN_ADDRESS;
        put_school(&roster, 0, account, WQ_HIGHEST_CEILING);
        memcpy(qualifier, qualifiers[i], IN_QUALIFIER);
        if (memcmp(qualifier, account + IN_ADDRESS, IN_QUALIFIER) != 0)
            try_all_probes(dice, &roster, &shelf, NOT_LISTED, ENTRY_OF_OTHER_QUALIFIER);
    }
}

/* The account's bytes at another place than an entry's start are no entry. */
static void meet_across_entries(struct dice *dice)
{
    static struct roster roster;
    static struct shelf shelf;
    uint8_t account[IN_PARTY];
    pick_account(dice, account);
    make_full_book(dice, &shelf, account);
    for (size_t place = 1; place < IN_SCHOOL; place++) {
        make_roster_across(&roster, account, place);
        for (size_t i = 0; i < 3; i++)
            try_probe(dice, &probes[below(dice, PROBES)], &roster, &shelf, NOT_LISTED,
                      ACCOUNT_ACROSS_ENTRIES);
    }
}

/* 20 for the roster, the book or both stands before all else. */
static void meet_unsound(struct dice *dice)
{
    static struct roster right, wrong;
    static struct shelf sound, shelf;
    uint8_t account[IN_PARTY];
    pick_account(dice, account);
    make_full_book(dice, &sound, account);
    for (size_t i = 0; i < 12; i++) {
        make_wrong_roster(dice, &wrong, account);
        make_roster_without(dice, &right, account, below(dice, 4));
        shelf = sound;
        if (i % 3 == 0)
            shelf.used[i % 2] += between(dice, 1, 3);
        else if (i % 3 == 1)
            put_little(shelf.lines + IN_ORDERED, 2, 0);
        else
            shelf.slips_length--;
        const struct probe *probe = &probes[below(dice, PROBES)];
        try_probe(dice, probe, &wrong, &shelf, WRONG_SIZE, ROSTER_WRONG_BOOK_UNSOUND);
        try_probe(dice, probe, &right, &shelf, WRONG_SIZE, BOOK_UNSOUND_NOT_LISTED);
    }
}

/* Whether the roster is not asked for the account where this is the answer. */
static int comes_before_24(uint64_t answer)
{
    return answer == 20 || (answer >= 1 && answer <= 13);
}

/* A record before a roster without its school, then before one with it. */
static void meet_without(struct dice *dice, const uint8_t *record, size_t length,
                         struct shelf *shelf)
{
    static struct roster roster;
    make_roster_without(dice, &roster, account_of(record, length), below(dice, 6));
    uint64_t without = both_book(record, length, &roster, shelf);
    uint64_t listed = book_listed(dice, record, length, shelf);
    insist(without == (comes_before_24(listed) ? listed : 24),
           "24 stands just where no earlier answer does");
    came_up(UNREAD_NOT_LISTED, listed >= 1 && listed <= 10);
    came_up(record[0] == 'B' ? ORDER_AFTER_24 : record[0] == 'L' ? DELIVERY_AFTER_24
            : REPORT_AFTER_24, without == 24 && listed == 0);
}

/* The copies of an order that can be read; of any other record some number. */
static size_t copies_of(const uint8_t *record, size_t length)
{
    enum { DIGIT_BITS = 0x0f };
    size_t copies = 0;
    for (size_t i = 0; i < 4 && IN_ORDER_COPIES + i < length; i++)
        copies = copies * 10 + (record[IN_ORDER_COPIES + i] & DIGIT_BITS);
    return copies;
}

/* A record before a roster with a ceiling near what would be open then. */
static void meet_ceiling(struct dice *dice, const uint8_t *record, size_t length,
                         struct shelf *shelf)
{
    static struct roster roster;
    const uint8_t *account = account_of(record, length);
    size_t sum = open_on(shelf, account) + copies_of(record, length);
    size_t ceiling = sum + below(dice, 3) - (sum > 0 ? 1 : 0);
    int order = length > 0 && record[0] == 'B';
    make_roster(dice, &roster, account, ceiling);
    uint64_t answer = both_book(record, length, &roster, shelf);
    insist(answer != 25 || (order && sum > ceiling), "25 stands for orders over the ceiling");
    insist(!order || sum <= ceiling || (answer != 0 && answer != 15),
           "an order over the ceiling is never booked, nor 15");
    if (answer != 25)
        return;
    uint64_t listed = book_listed(dice, record, length, shelf);
    insist(listed == 0 || listed == 15, "25 stands where nothing earlier does");
    came_up(ORDER_AFTER_25, listed == 0);
}

/* A record before a roster of wrong size. */
static void meet_wrong_size(struct dice *dice, const uint8_t *record, size_t length,
                            struct shelf *shelf)
{
    static struct roster roster;
    int unread = both_check(record, length, IN_FULL_TABLE) != 0;
    make_wrong_roster(dice, &roster, account_of(record, length));
    expect(unread ? ROSTER_WRONG_RECORD_UNREAD : ROSTER_WRONG_RECORD_READ, 1,
           both_book(record, length, &roster, shelf), 20);
}

void book_meeting(struct dice *dice, const uint8_t *record, size_t length,
                  struct shelf *shelf)
{
    switch (below(dice, 8)) {
    case 0: meet_without(dice, record, length, shelf); break;
    case 1: meet_ceiling(dice, record, length, shelf); break;
    case 2: meet_wrong_size(dice, record, length, shelf); break;
    default: book_listed(dice, record, length, shelf);
    }
}

void compare_rosters(struct dice *dice)
{
    meet_every_length(dice);
    for (size_t i = 0; i < 3; i++) {
        meet_edge_sizes(dice);
        meet_every_place(dice);
        meet_near_entries(dice);
        meet_other_parties(dice);
        meet_across_entries(dice);
        meet_unsound(dice);
    }
}
