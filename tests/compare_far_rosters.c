/* Cases of rosters far too long, and of ceilings before large books. */
#include "cases.h"

#include <string.h>

enum {
    MOST_LINES = 512, LOW_BYTE = 256, FAR_SCHOOLS = 65536 + 70, MOST_OPEN_LINES = MOST_LINES - 1
};

static const uint8_t ours[] = "43210     VD";

/* Rosters whose length is right in its low two bytes alone, or wrong there too; the account
   stands at their start, where the low bytes would look for it. */
static void meet_far_lengths(struct dice *dice)
{
    static struct roster roster;
    static struct shelf shelf;
    uint8_t key[IN_TITLED];
    unique_line_key(key, 0);
    for (size_t i = 0; i < 12; i++) {
        enum shape shape = i % 3 == 0 ? REPORT_SHAPE : i % 3 == 1 ? ORDER_SHAPE : GOODS_SHAPE;
        const struct booking booking = {shape, key, 7, NULL};
        make_shelf(dice, &shelf, 2, 2);
        if (shape != ORDER_SHAPE)
            add_line(dice, &shelf, ours, 10, 0, IN_NO_MARK);
        make_roster_of(dice, &roster, ours, WQ_HIGHEST_CEILING, IN_MOST_SCHOOLS, 0);
        expect(ROSTER_OF_64, 1, book_before(dice, &roster, &shelf, booking), 0);
        roster.length = FAR_ROSTER + below(dice, IN_MOST_SCHOOLS + 1) * IN_SCHOOL;
        if (i % 4 == 3)
            roster.length += between(dice, 1, IN_SCHOOL - 1);
        expect(ROSTER_OVER_65536, 1, book_before(dice, &roster, &shelf, booking), 20);
    }
}

/* Counts of schools that are right in their low bytes alone. */
static void ask_far_counts(struct dice *dice)
{
    static wq_school schools[FAR_SCHOOLS];
    const size_t counts[] = {LOW_BYTE, LOW_BYTE + 1, LOW_BYTE + 64, 4096 + between(dice, 1, 64),
                             65536, 65536 + 1, 65536 + between(dice, 2, 64)};
    for (size_t i = 0; i < IN_MOST_SCHOOLS; i++) {
        memcpy(schools[i].address, ours, IN_ADDRESS);
        memcpy(schools[i].qualifier, ours + IN_ADDRESS, IN_QUALIFIER);
    }
    for (size_t i = 0; i < sizeof counts / sizeof counts[0]; i++)
        expect(ASKED_ON_FAR_COUNT, counts[i] >= LOW_BYTE,
               both_account(schools, counts[i], ours, IN_ADDRESS, ours + IN_ADDRESS,
                            IN_QUALIFIER), 20);
}

/* A full sum of large lines, and the ceilings that differ from it in one byte. */
static void order_beside_many(struct dice *dice)
{
    const size_t lines[] = {7, 255, 256, 257, between(dice, 258, 510), MOST_OPEN_LINES};
    static struct shelf shelf;
    for (size_t i = 0; i < sizeof lines / sizeof lines[0]; i++) {
        size_t copies = between(dice, 1, IN_MOST_COPIES);
        size_t sum = lines[i] * IN_MOST_COPIES + copies;
        make_shelf(dice, &shelf, MOST_LINES, 1);
        add_open(dice, &shelf, ours, lines[i] * IN_MOST_COPIES);
        for (size_t bits = 0; bits < 24 && sum >> bits != 0; bits += 8)
            expect(OPEN_SUM_OVER_2_16, sum > 65535,
                   order_under(dice, &shelf, ours, copies, sum - ((size_t)1 << bits)), 25);
        order_at_edge(dice, &shelf, ours, copies,
                      lines[i] > LOW_BYTE ? OPEN_ON_OVER_256_LINES : OPEN_SUM_OVER_2_16);
    }
}

/* The only open lines of the school stand far behind, among those of its neighbours. */
static void order_beside_far(struct dice *dice)
{
    static struct shelf shelf;
    uint8_t near[IN_PARTY];
    for (size_t i = 0; i < 4; i++) {
        size_t far = i == 0 ? LOW_BYTE : between(dice, LOW_BYTE, MOST_OPEN_LINES - 1);
        make_shelf(dice, &shelf, MOST_LINES, 1);
        while (shelf.used[0] < MOST_OPEN_LINES) {
            memcpy(near, ours, IN_PARTY);
            near[below(dice, IN_PARTY)] ^= (uint8_t)(1u << below(dice, 8));
            add_line(dice, &shelf, shelf.used[0] == far ? ours : near,
                     between(dice, 1, IN_MOST_COPIES), 0, (uint8_t)below(dice, IN_LET_GO));
        }
        order_at_edge(dice, &shelf, ours, between(dice, 1, 9), OPEN_ON_LINE_FROM_256);
        memcpy(shelf.lines + MOST_OPEN_LINES / 2 * IN_LINE, ours, IN_PARTY);
        memcpy(shelf.lines, ours, IN_PARTY);
        order_at_edge(dice, &shelf, ours, between(dice, 1, 9), OPEN_ON_LINE_FROM_256);
    }
}

/* A full book of any lines of few schools: 25 just where the sum passes, else 15. */
static void order_into_full(struct dice *dice)
{
    static struct shelf shelf;
    make_shelf(dice, &shelf, MOST_LINES, 9);
    stock_shelf(dice, &shelf, MOST_LINES, 9, 3);
    for (size_t i = 0; i < 6; i++) {
        size_t copies = between(dice, 1, IN_MOST_COPIES);
        const uint8_t *account = shelf.lines + below(dice, MOST_LINES) * IN_LINE;
        size_t sum = open_on(&shelf, account) + copies;
        expect(CEILING_PASSED_15, 1, order_under(dice, &shelf, account, copies, sum - 1), 25);
        expect(CEILING_KEPT_15, 1, order_under(dice, &shelf, account, copies, sum), 15);
    }
}

void compare_far_rosters(struct dice *dice)
{
    meet_far_lengths(dice);
    ask_far_counts(dice);
    order_beside_many(dice);
    order_beside_far(dice);
    order_into_full(dice);
}
