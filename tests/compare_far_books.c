/* Cases of large books: the line or slip that decides stands far behind the first ones. */
#include "cases.h"

#include <string.h>

enum {
    MOST_LINES = 512, MOST_SLIPS = 1024, FULL_SAVE = WQ_SAVE_LENGTH(MOST_LINES, MOST_SLIPS),
    LOW_BYTE = 256, LOW_BITS = 8, TWO_BYTES_BITS = 16, MISSING = 12, OVER = 8
};

static const uint64_t two_32 = (uint64_t)1 << 32;

static int is_within(size_t number, size_t least, size_t most)
{
    return number >= least && number <= most;
}

/* A delivery under a slip key that the book does not have. */
static uint64_t deliver_new(struct dice *dice, struct shelf *shelf, const uint8_t *key,
                            size_t copies)
{
    uint8_t slip[IN_SLIP_KEY];
    unique_slip_key(slip, MOST_SLIPS + shelf->used[1]);
    return book_one(dice, shelf, GOODS_SHAPE, key, copies, slip);
}

/* Rooms nearly full, filled up and over by bookings. */
static void fill_rooms(struct dice *dice, size_t line_room, size_t slip_room)
{
    static struct shelf shelf;
    uint8_t key[IN_TITLED];
    make_shelf(dice, &shelf, line_room, slip_room);
    stock_unique(dice, &shelf, line_room - MISSING, slip_room - MISSING);
    for (size_t i = line_room - 2 * MISSING; i < line_room + OVER; i++) {
        size_t used = shelf.used[0];
        unique_line_key(key, i);
        insist(book_one(dice, &shelf, ORDER_SHAPE, key, 7, NULL)
               == (i < used ? 14u : i < line_room ? 0u : 15u), "orders fill the room");
        came_up(ORDER_AS_256_TO_489, is_within(used, 256, 489) && shelf.used[0] > used);
        deliver_new(dice, &shelf, key, 5);
        book_one(dice, &shelf, REPORT_SHAPE, key, 0, NULL);
        ask_line(key, &shelf);
    }
    insist(shelf.used[0] == line_room && shelf.used[1] == slip_room, "the rooms are full");
    came_up(ROOM_61_TO_199, is_within(line_room, 61, 199));
    came_up(ROOM_201_TO_511, is_within(line_room, 201, 511));
    save_and_load(dice, &shelf, 1);
}

/* Every call that looks for a line, for one far behind. */
static void find_far_line(struct dice *dice, struct shelf *shelf, size_t index)
{
    int far = is_within(index, 64, 489);
    size_t slips = shelf->used[1];
    uint8_t key[IN_TITLED];
    memcpy(key, shelf->lines + index * IN_LINE, IN_TITLED);
    expect(LINE_ASKED_64_TO_489, far, ask_line(key, shelf), 0);
    expect(ORDER_AGAIN_64_TO_489, far, book_one(dice, shelf, ORDER_SHAPE, key, 7, NULL), 14);
    expect(DELIVERY_FOR_64_TO_489, far, deliver_new(dice, shelf, key, 3), 0);
    came_up(SLIP_AS_256_TO_1009, is_within(slips, 256, 1009));
    expect(AGREES_64_TO_489, far, tally.agreed, 1);
    expect(REPORT_FOR_64_TO_489, far, book_one(dice, shelf, REPORT_SHAPE, key, 0, NULL), 0);
    expect(AGREES_64_TO_489, far, tally.agreed, 1);
    ask_line(key, shelf);
    make_other_title(dice, shelf->lines + index * IN_LINE + IN_KEY, key + IN_KEY);
    expect(ORDER_AGAIN_64_TO_489, far, book_one(dice, shelf, ORDER_SHAPE, key, 7, NULL), 14);
    expect(DELIVERY_FOR_64_TO_489, far, deliver_new(dice, shelf, key, 3), 0);
    expect(AGREES_NOT_64_TO_489, far, tally.agreed, 0);
    expect(REPORT_FOR_64_TO_489, far, book_one(dice, shelf, REPORT_SHAPE, key, 0, NULL), 0);
    expect(AGREES_NOT_64_TO_489, far, tally.agreed, 0);
}

/* 18 by the copies of a stored slip, which are the record's in their low byte or modulo
   10,000 alone. */
static void repeat_with_copies(struct dice *dice, struct shelf *shelf, size_t index,
                               const uint8_t *key)
{
    uint8_t slip[IN_SLIP], *stored = shelf->slips + index * IN_SLIP;
    memcpy(slip, stored, IN_SLIP);
    size_t copies = get_little(slip + IN_COPIES, 2);
    for (size_t bit = LOW_BITS; bit < TWO_BYTES_BITS; bit++) {
        put_little(stored + IN_COPIES, 2, copies ^ (size_t)1 << bit);
        expect(COPIES_SAME_LOW_BYTE, 1,
               book_one(dice, shelf, GOODS_SHAPE, key, copies, slip), 18);
    }
    put_little(stored + IN_COPIES, 2, copies + 10000 * between(dice, 1, 5));
    expect(COPIES_SAME_MODULO_10000, 1,
           book_one(dice, shelf, GOODS_SHAPE, key, copies, slip), 18);
    memcpy(stored, slip, IN_SLIP);
}

/* 17 and 18 by a slip far behind, by its line and by its copies. */
static void repeat_slip(struct dice *dice, struct shelf *shelf, size_t index)
{
    uint8_t slip[IN_SLIP], key[IN_TITLED];
    memcpy(slip, shelf->slips + index * IN_SLIP, IN_SLIP);
    size_t line = get_little(slip + IN_LINE_OF_SLIP, 2), copies = get_little(slip + IN_COPIES, 2);
    memcpy(key, shelf->lines + line * IN_LINE, IN_TITLED);
    expect(SLIP_AGAIN_FROM_64, index >= 64,
           book_one(dice, shelf, GOODS_SHAPE, key, copies, slip), 17);
    came_up(SLIP_AGAIN_ON_LINE_FROM_256, line >= 256);
    make_title(dice, key + IN_KEY);
    expect(SLIP_AGAIN_FROM_64, index >= 64,
           book_one(dice, shelf, GOODS_SHAPE, key, copies, slip), 17);
    repeat_with_copies(dice, shelf, index, key);
    came_up(SLIP_DIFFERS_FROM_64, index >= 64);
    line = line >= LOW_BYTE ? line - LOW_BYTE : line + LOW_BYTE;
    if (line >= shelf->used[0])
        return;
    memcpy(key, shelf->lines + line * IN_LINE, IN_TITLED);
    expect(SLIP_OF_LINE_256_BEFORE, 1,
           book_one(dice, shelf, GOODS_SHAPE, key, copies, slip), 18);
}

/* The first slip of a line that one byte cannot name, or 0. */
static size_t slip_of_far_line(const struct shelf *shelf)
{
    for (size_t i = 0; i < shelf->used[1]; i++)
        if (get_little(shelf->slips + i * IN_SLIP + IN_LINE_OF_SLIP, 2) >= LOW_BYTE)
            return i;
    return 0;
}

/* A key that stands again far behind, there with the article that a record names: the first
   line with the key is booked on, and does not agree. */
static void find_first_of_key(struct dice *dice, struct shelf *shelf)
{
    uint8_t key[IN_TITLED], untouched[IN_LINE];
    size_t later = between(dice, 256, shelf->used[0] - 1), first = between(dice, 64, later - 1);
    uint8_t *line = shelf->lines + first * IN_LINE, *again = shelf->lines + later * IN_LINE;
    memcpy(again, line, IN_KEY);
    make_other_title(dice, line + IN_KEY, again + IN_KEY);
    memcpy(untouched, again, IN_LINE);
    memcpy(key, again, IN_TITLED);
    expect(FIRST_OF_KEY_FAR, 1, deliver_new(dice, shelf, key, 3), 0);
    expect(FIRST_OF_KEY_FAR, 1, tally.agreed, 0);
    expect(FIRST_OF_KEY_FAR, 1, book_one(dice, shelf, REPORT_SHAPE, key, 0, NULL), 0);
    expect(FIRST_OF_KEY_FAR, 1, tally.agreed, 0);
    insist(memcmp(again, untouched, IN_LINE) == 0, "a later line with the key stays as it was");
    memcpy(key, line, IN_TITLED);
    expect(FIRST_OF_KEY_FAR, 1, book_one(dice, shelf, REPORT_SHAPE, key, 0, NULL), 0);
    expect(FIRST_OF_KEY_FAR, 1, tally.agreed, 1);
}

/* A book of so many lines and slips, asked and booked at its far entries. */
static void find_far(struct dice *dice, size_t lines, size_t slips)
{
    static const size_t indexes[] = {63, 64, 65, 100, 127, 128, 200, 254, 255, 256, 257, 0, 0};
    static struct shelf shelf;
    uint8_t key[IN_TITLED];
    make_shelf(dice, &shelf, MOST_LINES, MOST_SLIPS);
    stock_unique(dice, &shelf, lines, slips);
    for (size_t i = 0; i < sizeof indexes / sizeof indexes[0]; i++) {
        size_t used = shelf.used[0], index = indexes[i];
        unique_line_key(key, MOST_LINES + i);
        expect(ORDER_AS_256_TO_489, is_within(used, 256, 489),
               book_one(dice, &shelf, ORDER_SHAPE, key, 7, NULL), 0);
        find_far_line(dice, &shelf, index > 0 && index < lines ? index : between(dice, 128, used));
        repeat_slip(dice, &shelf, index > 0 ? index : between(dice, 258, shelf.used[1] - 1));
    }
    repeat_slip(dice, &shelf, slip_of_far_line(&shelf));
    save_and_load(dice, &shelf, 1);
    find_first_of_key(dice, &shelf);
}

/* Every call that judges the book refuses it. */
static void refuse_book(struct dice *dice, struct shelf *shelf, enum class class)
{
    static uint8_t out[FULL_SAVE];
    uint8_t key[IN_TITLED];
    unique_line_key(key, below(dice, 2) * MOST_LINES);
    expect(class, 1, book_one(dice, shelf, ORDER_SHAPE, key, 7, NULL), 20);
    expect(class, 1, deliver_new(dice, shelf, key, 7), 20);
    expect(class, 1, ask_line(key, shelf), 20);
    expect(class, 1, both_save(shelf, out, FULL_SAVE), 20);
    expect(class, 1, both_save(shelf, out, below(dice, IN_SAVED_END)), 20);
}

/* Marks with messages that they do not go with, on a far line. */
static void part_mark_and_message(struct dice *dice, struct shelf *shelf, uint8_t *line)
{
    static const struct { uint8_t mark; size_t message; } pairs[] = {
        {IN_NO_MARK, 0}, {IN_NO_MARK, IN_UNKNOWN}, {IN_HELD, IN_NO_REPORT},
        {IN_LET_GO, IN_NO_REPORT}
    };
    for (size_t i = 0; i < sizeof pairs / sizeof pairs[0]; i++) {
        put_state(line, pairs[i].mark, pairs[i].message, BLANK_DATE);
        refuse_book(dice, shelf, MARK_APART_FROM_3);
    }
}

/* Each number of a far line past its end, and its mark apart from its message; a line past the
   used ones is not looked at. */
static void break_far_lines(struct dice *dice)
{
    static const struct { size_t place, width, number; } faults[] = {
        {IN_ORDERED, 2, 0}, {IN_ORDERED, 2, 10000}, {IN_MARK, 1, 3}, {IN_MESSAGE, 2, 1000},
        {IN_EXPECTED, 1, 'x'}, {IN_ARRIVED, 4, 10000000}, {IN_ARRIVED, 4, 1 << 24}
    };
    static struct shelf shelf;
    make_shelf(dice, &shelf, MOST_LINES, 20);
    stock_unique(dice, &shelf, between(dice, 300, 500), 9);
    size_t used = shelf.used[0];
    const size_t indexes[] = {3, 4, between(dice, 5, 63), 64, between(dice, 65, 255), 256,
                              between(dice, 257, used - 2), used - 1, used};
    for (size_t i = 0; i < sizeof indexes / sizeof indexes[0]; i++) {
        size_t which = below(dice, sizeof faults / sizeof faults[0]);
        uint8_t *line = shelf.lines + indexes[i] * IN_LINE, right[IN_LINE];
        memcpy(right, line, IN_LINE);
        put_little(line + faults[which].place, faults[which].width, faults[which].number);
        if (indexes[i] < used) {
            refuse_book(dice, &shelf, UNSOUND_LINE_FROM_3);
            memcpy(line, right, IN_LINE);
            part_mark_and_message(dice, &shelf, line);
        } else {
            insist(ask_line(shelf.lines, &shelf) == 0, "a line that is not used is not judged");
        }
        memcpy(line, right, IN_LINE);
    }
}

/* A slip of a line that its low byte would take for a used one. */
static void break_line_of_slip(struct dice *dice, struct shelf *shelf, uint8_t *slip)
{
    size_t line = get_little(slip + IN_LINE_OF_SLIP, 2);
    for (size_t bit = LOW_BITS; bit < TWO_BYTES_BITS; bit++) {
        put_little(slip + IN_LINE_OF_SLIP, 2, line ^ (size_t)1 << bit);
        refuse_book(dice, shelf, LINE_OF_SLIP_FAR);
    }
    put_little(slip + IN_LINE_OF_SLIP, 2, line);
}

/* A far slip of a line that is not used: the next one, and such as are used ones by their
   low byte. */
static void break_far_slips(struct dice *dice)
{
    static struct shelf shelf;
    make_shelf(dice, &shelf, MOST_LINES, MOST_SLIPS);
    stock_unique(dice, &shelf, between(dice, 4, 200), between(dice, 300, 1000));
    size_t used = shelf.used[1], lines = shelf.used[0];
    const size_t indexes[] = {7, 8, between(dice, 9, 63), 64, between(dice, 65, 255), 256,
                              between(dice, 257, used - 2), used - 1, used};
    for (size_t i = 0; i < sizeof indexes / sizeof indexes[0]; i++) {
        uint8_t *slip = shelf.slips + indexes[i] * IN_SLIP, right[IN_SLIP];
        memcpy(right, slip, IN_SLIP);
        put_little(slip + IN_LINE_OF_SLIP, 2, lines);
        if (indexes[i] < used)
            refuse_book(dice, &shelf, UNSOUND_SLIP_FROM_7);
        else
            insist(ask_line(shelf.lines, &shelf) == 0, "a slip that is not used is not judged");
        memcpy(slip, right, IN_SLIP);
    }
    break_line_of_slip(dice, &shelf, shelf.slips + below(dice, used) * IN_SLIP);
}

/* Slips where no line is used, and used counts that only their low bytes make sound. */
static void break_counts(struct dice *dice)
{
    static const size_t slips[] = {1, 2, 7, 64, 900};
    static struct shelf shelf;
    for (size_t i = 0; i < sizeof slips / sizeof slips[0]; i++) {
        make_shelf(dice, &shelf, 3, MOST_SLIPS);
        stock_unique(dice, &shelf, 1, slips[i]);
        shelf.used[0] = two_32 + 1;
        refuse_book(dice, &shelf, USED_OVER_2_32);
        shelf.used[0] = 1;
        shelf.used[1] += two_32;
        refuse_book(dice, &shelf, USED_OVER_2_32);
        shelf.used[1] = slips[i];
        shelf.used[0] = 0;
        refuse_book(dice, &shelf, SLIPS_WITHOUT_LINES);
    }
}

/* One entry more than there is room for, more often than there are pairs of what can stand
   behind the room: a line or a slip that would count is among it. */
static void overuse_rooms(struct dice *dice)
{
    enum { LINES = 3, SLIPS = 4, TIMES = 150 };
    static struct shelf shelf;
    make_shelf(dice, &shelf, LINES, SLIPS);
    stock_unique(dice, &shelf, LINES, SLIPS);
    for (size_t i = 0; i < TIMES; i++) {
        shelf.used[0] = LINES + i % 2;
        shelf.used[1] = SLIPS + (i + 1) % 2;
        refuse_book(dice, &shelf, USED_ONE_OVER);
    }
}

void compare_far_books(struct dice *dice)
{
    overuse_rooms(dice);
    fill_rooms(dice, MOST_LINES, MOST_SLIPS);
    fill_rooms(dice, between(dice, 61, 199), between(dice, 61, 199));
    fill_rooms(dice, between(dice, 201, 511), between(dice, 201, 1023));
    find_far(dice, 250, between(dice, 300, 900));
    find_far(dice, between(dice, 300, 470), between(dice, 600, 950));
    break_far_lines(dice);
    break_far_slips(dice);
    break_counts(dice);
}
