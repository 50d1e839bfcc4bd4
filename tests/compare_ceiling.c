/* Cases for the ceiling: what is open for a school and what is not, and 25 among the other
   answers. */
#include "cases.h"

#include <string.h>

enum { NEW_LINE = 999000, MIDDLE_ROOM = 60 };

/* The account that most cases order for. */
static const uint8_t ours[] = "43210     VD";

/* The key of a line that no book here has. */
static void new_key(const uint8_t *account, uint8_t *key)
{
    unique_line_key(key, NEW_LINE);
    memcpy(key, account, IN_PARTY);
}

uint64_t order_under(struct dice *dice, struct shelf *shelf, const uint8_t *account,
                     size_t copies, uint64_t ceiling)
{
    static struct roster roster;
    uint8_t key[IN_TITLED];
    const struct booking booking = {ORDER_SHAPE, key, copies, NULL};
    new_key(account, key);
    make_roster(dice, &roster, account, ceiling);
    return book_before(dice, &roster, shelf, booking);
}

void order_at_edge(struct dice *dice, struct shelf *shelf, const uint8_t *account,
                   size_t copies, enum class class)
{
    size_t sum = open_on(shelf, account) + copies;
    expect(class, 1, order_under(dice, shelf, account, copies, sum - 1), 25);
    came_up(ONE_ABOVE_CEILING, 1);
    expect(class, 1, order_under(dice, shelf, account, copies, sum), 0);
    came_up(AT_CEILING, 1);
    shelf->used[0]--;
}

static size_t some_copies(struct dice *dice)
{
    return chance(dice, 4) ? IN_MOST_COPIES : between(dice, 1, 300);
}

/* Sums at the ends of one and two bytes and around them, and any. */
static void order_at_sums(struct dice *dice)
{
    const size_t sums[] = {1, 2, 9, 255, 256, 257, 511, 512, 9998, 9999, 10000, 65534, 65535,
                           65536, 65537, 131071, 131072, between(dice, 1, 9999),
                           between(dice, 10000, 65535), between(dice, 65536, 400000)};
    static struct shelf shelf;
    for (size_t i = 0; i < sizeof sums / sizeof sums[0]; i++) {
        size_t most = sums[i] < IN_MOST_COPIES ? sums[i] : IN_MOST_COPIES;
        size_t copies = chance(dice, 3) ? most : between(dice, 1, most);
        make_shelf(dice, &shelf, MIDDLE_ROOM, 1);
        add_open(dice, &shelf, ours, sums[i] - copies);
        order_at_edge(dice, &shelf, ours, copies,
                      sums[i] > 65535 ? OPEN_SUM_OVER_2_16 : OPEN_SUM_TO_2_16);
    }
}

/* A ceiling that is under the sum by one of its bytes alone, and one that is the sum. */
static void order_by_byte(struct dice *dice)
{
    static const enum class classes[] = {CEILING_BY_BYTE_0, CEILING_BY_BYTE_1,
                                         CEILING_BY_BYTE_2};
    static struct shelf shelf;
    for (size_t i = 0; i < 3; i++) {
        size_t byte = (size_t)1 << 8 * i;
        size_t sum = between(dice, 1, 5) * byte + below(dice, byte);
        size_t copies = 1 + below(dice, sum < IN_MOST_COPIES ? sum : IN_MOST_COPIES);
        make_shelf(dice, &shelf, MIDDLE_ROOM, 1);
        add_open(dice, &shelf, ours, sum - copies);
        expect(classes[i], 1, order_under(dice, &shelf, ours, copies, sum - byte), 25);
        expect(classes[i], 1, order_under(dice, &shelf, ours, copies, sum), 0);
    }
}

/* Ceilings that no book reaches, low in all bytes but the highest, and the ceiling 0. */
static void order_under_ends(struct dice *dice)
{
    const uint64_t high[] = {(uint64_t)1 << 24, (uint64_t)3 << 24, 0x7f000000, 0x80000000,
                             0x80000001, 0xff000000, WQ_HIGHEST_CEILING - 1,
                             WQ_HIGHEST_CEILING};
    static struct shelf shelf;
    for (size_t i = 0; i < sizeof high / sizeof high[0]; i++) {
        make_shelf(dice, &shelf, MIDDLE_ROOM, 1);
        add_open(dice, &shelf, ours, below(dice, 3) * below(dice, 200000));
        enum class class = high[i] == WQ_HIGHEST_CEILING ? CEILING_HIGHEST
                         : high[i] >> 31 != 0 ? CEILING_OVER_2_31 : CEILING_BY_BYTE_3;
        expect(class, 1, order_under(dice, &shelf, ours, some_copies(dice), high[i]), 0);
        make_shelf(dice, &shelf, MIDDLE_ROOM, 1);
        expect(CEILING_ZERO, 1, order_under(dice, &shelf, ours, 1, 0), 25);
        expect(CEILING_ZERO, 1, order_under(dice, &shelf, ours, some_copies(dice), 0), 25);
    }
}

/* Of the account's entries the first speaks, whatever stands on the roster besides. */
static void order_by_first(struct dice *dice)
{
    static struct roster roster;
    static struct shelf shelf;
    uint8_t key[IN_TITLED];
    new_key(ours, key);
    for (size_t i = 0; i < 24; i++) {
        const struct booking booking = {ORDER_SHAPE, key, some_copies(dice), NULL};
        size_t entries = i % 3 == 0 ? 2 : between(dice, 2, IN_MOST_SCHOOLS);
        size_t first = below(dice, entries - 1);
        size_t second = between(dice, first + 1, entries - 1), low_first = i % 2;
        make_shelf(dice, &shelf, 1, 1);
        make_roster_without(dice, &roster, ours, entries);
        put_school(&roster, first, ours, booking.copies - low_first);
        put_school(&roster, second, ours, booking.copies - !low_first);
        expect(low_first ? ACCOUNT_TWICE_LOW_FIRST : ACCOUNT_TWICE_HIGH_FIRST, 1,
               book_before(dice, &roster, &shelf, booking), low_first ? 25 : 0);
    }
}

/* What is filled, let go or extra is not open; what a J holds is. */
static void order_beside_closed(struct dice *dice)
{
    static struct shelf shelf;
    for (size_t i = 0; i < 12; i++) {
        size_t ordered = between(dice, 2, IN_MOST_COPIES);
        make_shelf(dice, &shelf, 9, 1);
        add_open(dice, &shelf, ours, below(dice, 50));
        add_line(dice, &shelf, ours, ordered, below(dice, ordered), IN_LET_GO);
        order_at_edge(dice, &shelf, ours, some_copies(dice), OPEN_BESIDE_LET_GO);
        add_line(dice, &shelf, ours, ordered, ordered + between(dice, 1, 9999), (uint8_t)(i % 3));
        order_at_edge(dice, &shelf, ours, some_copies(dice), OPEN_BESIDE_EXTRA);
        add_line(dice, &shelf, ours, ordered, ordered, (uint8_t)(i % 3));
        order_at_edge(dice, &shelf, ours, some_copies(dice), OPEN_BESIDE_FILLED);
        add_line(dice, &shelf, ours, ordered, between(dice, 1, ordered - 1), IN_HELD);
        order_at_edge(dice, &shelf, ours, some_copies(dice), OPEN_AFTER_PART);
    }
}

/* Lines of a school that is one byte off, or of which ours is the supplier, do not count. */
static void order_beside_neighbours(struct dice *dice)
{
    static struct shelf shelf;
    uint8_t near[IN_PARTY];
    for (size_t i = 0; i < IN_PARTY; i++) {
        make_shelf(dice, &shelf, 9, 1);
        add_open(dice, &shelf, ours, below(dice, 50));
        memcpy(near, ours, IN_PARTY);
        near[i] ^= (uint8_t)(1u << below(dice, 8));
        add_open(dice, &shelf, near, some_copies(dice));
        memcpy(shelf.lines + (shelf.used[0] - 1) * IN_LINE + IN_PARTY, ours, IN_PARTY);
        add_open(dice, &shelf, ours, below(dice, 50));
        order_at_edge(dice, &shelf, ours, some_copies(dice), OPEN_BESIDE_NEIGHBOUR);
    }
}

/* Each line of the school counts, also where its key repeats; none past the used count. */
static void order_beside_repeated(struct dice *dice)
{
    static struct shelf shelf;
    for (size_t i = 0; i < 8; i++) {
        make_shelf(dice, &shelf, 9, 1);
        for (size_t lines = between(dice, 3, 7); lines > 0; lines--)
            add_open(dice, &shelf, ours, between(dice, 1, IN_MOST_COPIES));
        size_t last = shelf.used[0] - 1;
        memcpy(shelf.lines + last * IN_LINE, shelf.lines + below(dice, last) * IN_LINE, IN_KEY);
        order_at_edge(dice, &shelf, ours, some_copies(dice), OPEN_ON_REPEATED_KEYS);
        shelf.used[0]--;
        order_at_edge(dice, &shelf, ours, some_copies(dice), OPEN_PAST_USED);
    }
}

/* Books of any sound lines, also with repeated keys, of few schools. */
static void order_beside_any(struct dice *dice)
{
    static struct shelf shelf;
    for (size_t i = 0; i < 12; i++) {
        make_shelf(dice, &shelf, 30, 9);
        stock_shelf(dice, &shelf, between(dice, 5, 29), below(dice, 9), between(dice, 1, 4));
        const uint8_t *line = shelf.lines + below(dice, shelf.used[0]) * IN_LINE;
        order_at_edge(dice, &shelf, line, some_copies(dice), OPEN_ON_ANY_LINES);
    }
}

/* 14 stands before 25, and 25 before 15. */
static void order_with_others(struct dice *dice)
{
    static struct roster roster;
    static struct shelf shelf;
    for (size_t lines = 1; lines < 6; lines++) {
        size_t copies = some_copies(dice);
        make_shelf(dice, &shelf, lines + lines % 2, 1);
        while (shelf.used[0] < lines)
            add_line(dice, &shelf, ours, between(dice, 1, 9999), below(dice, 9),
                     (uint8_t)below(dice, 3));
        const struct booking again = {ORDER_SHAPE, shelf.lines + below(dice, lines) * IN_LINE,
                                      copies, NULL};
        size_t sum = open_on(&shelf, ours) + copies;
        make_roster(dice, &roster, ours, sum - between(dice, 1, sum));
        expect(CEILING_PASSED_14, 1, book_before(dice, &roster, &shelf, again), 14);
        shelf.lines_length = lines * IN_LINE;
        expect(CEILING_PASSED_14, 1, book_before(dice, &roster, &shelf, again), 14);
        expect(CEILING_PASSED_15, 1, order_under(dice, &shelf, ours, copies, sum - 1), 25);
        expect(CEILING_KEPT_15, 1, order_under(dice, &shelf, ours, copies, sum), 15);
    }
}

/* A booking for one of our lines under this ceiling. */
static uint64_t book_under(struct dice *dice, struct shelf *shelf, const struct booking *booking,
                           uint64_t ceiling)
{
    static struct roster roster;
    make_roster(dice, &roster, ours, ceiling);
    return book_before(dice, &roster, shelf, *booking);
}

/* A report for a line of ours with this mark; whichever the dice gave first is put right. */
static void report_until(struct dice *dice, struct shelf *shelf, size_t index, uint8_t mark,
                         uint64_t ceiling, enum class class)
{
    uint8_t *line = shelf->lines + index * IN_LINE;
    const struct booking report = {REPORT_SHAPE, line, 0, NULL};
    do
        expect(class, 1, book_under(dice, shelf, &report, ceiling), 0);
    while (line[IN_MARK] != mark);
}

/* An N makes room under the ceiling; a J that opens the copies again stands, and so does a
   delivery; the next order is refused until enough has come. */
static void reopen(struct dice *dice)
{
    static struct shelf shelf;
    uint8_t slip[IN_SLIP_KEY];
    size_t copies = between(dice, 2, IN_MOST_COPIES), ceiling = copies + below(dice, copies);
    make_shelf(dice, &shelf, 4, 4);
    add_line(dice, &shelf, ours, copies, 0, IN_NO_MARK);
    expect(REOPENED, 1, order_under(dice, &shelf, ours, ceiling - copies + 1, ceiling), 25);
    report_until(dice, &shelf, 0, IN_LET_GO, ceiling, REOPENED);
    expect(REOPENED, 1, order_under(dice, &shelf, ours, copies, ceiling), 0);
    report_until(dice, &shelf, 0, IN_HELD, below(dice, ceiling + 1), REOPENED);
    shelf.lines[IN_LINE + IN_REFERENCE] ^= 1;
    expect(REOPENED, 1, order_under(dice, &shelf, ours, 1, ceiling), 25);
    unique_slip_key(slip, 7);
    const struct booking rest = {GOODS_SHAPE, shelf.lines, copies, slip};
    expect(CEILING_NOT_FOR_DELIVERIES, 1, book_under(dice, &shelf, &rest, below(dice, 2)), 0);
    order_at_edge(dice, &shelf, ours, 1, REOPENED);
    expect(REOPENED, 1, order_under(dice, &shelf, ours, 1, copies + 1), 0);
}

/* A ceiling of 0 is nothing to a delivery or a report, whatever is open. */
static void pass_by_ceiling(struct dice *dice)
{
    static struct shelf shelf;
    uint8_t slip[IN_SLIP_KEY];
    make_shelf(dice, &shelf, 9, 9);
    for (size_t i = 0; i < 4; i++) {
        add_open(dice, &shelf, ours, between(dice, 1, IN_MOST_COPIES));
        const uint8_t *line = shelf.lines + below(dice, shelf.used[0]) * IN_LINE;
        const struct booking goods = {GOODS_SHAPE, line, some_copies(dice), slip};
        const struct booking report = {REPORT_SHAPE, line, 0, NULL};
        unique_slip_key(slip, i);
        expect(CEILING_NOT_FOR_DELIVERIES, 1, book_under(dice, &shelf, &goods, 0), 0);
        expect(CEILING_NOT_FOR_REPORTS, 1, book_under(dice, &shelf, &report, 0), 0);
    }
}

void compare_ceilings(struct dice *dice)
{
    order_at_sums(dice);
    order_by_byte(dice);
    order_under_ends(dice);
    order_by_first(dice);
    order_beside_closed(dice);
    order_beside_neighbours(dice);
    order_beside_repeated(dice);
    order_beside_any(dice);
    order_with_others(dice);
    reopen(dice);
    pass_by_ceiling(dice);
}
