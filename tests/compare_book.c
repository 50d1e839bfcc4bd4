/* Cases for book and line: bookings in sequence, unsound books, wrong keys. */
#include "cases.h"

#include <string.h>

enum { HISTORY = 32, LONGER = 256, LONGEST_FIELD = IN_NAME + LONGER };

/* Widths of the five fields of a line's key. */
static const size_t part_widths[KEY_PARTS] = {10, 2, 10, 2, 10};

uint64_t ask_line(const uint8_t *key, struct shelf *shelf)
{
    const uint8_t *parts[KEY_PARTS];
    for (size_t i = 0; i < KEY_PARTS; key += part_widths[i++])
        parts[i] = key;
    return both_line(parts, part_widths, shelf);
}

uint64_t book_before(struct dice *dice, const struct roster *roster, struct shelf *shelf,
                     struct booking booking)
{
    struct sheet sheet;
    uint8_t record[RECORD_ROOM];
    make_fixed(dice, &sheet, booking.shape, booking.key, booking.copies);
    if (booking.slip != NULL)
        memcpy(sheet.fixed + IN_DELIVERY_DATE, booking.slip + IN_DATE, IN_DATE_TO_POSITION);
    return both_book(record, assemble(&sheet, record), roster, shelf);
}

uint64_t book_one(struct dice *dice, struct shelf *shelf, enum shape shape,
                  const uint8_t *key, size_t copies, const uint8_t *slip)
{
    static struct roster roster;
    const struct booking booking = {shape, key, copies, slip};
    make_roster(dice, &roster, key, WQ_HIGHEST_CEILING);
    return book_before(dice, &roster, shelf, booking);
}

uint64_t book_listed(struct dice *dice, const uint8_t *record, size_t length,
                     struct shelf *shelf)
{
    static struct roster roster;
    make_roster(dice, &roster, account_of(record, length), WQ_HIGHEST_CEILING);
    return both_book(record, length, &roster, shelf);
}

/* The key of a line that is on the shelf, or of one that may be. */
static void pick_key(struct dice *dice, const struct shelf *shelf, size_t variety,
                     uint8_t *key)
{
    size_t room = shelf->lines_length / IN_LINE;
    size_t used = shelf->used[0] < room ? shelf->used[0] : room;
    if (used > 0 && !chance(dice, 3))
        memcpy(key, shelf->lines + below(dice, used) * IN_LINE, IN_TITLED);
    else
        make_line_key(dice, variety, key);
}

/* A record that may be booked: mostly goods, orders and reports of few keys. */
static size_t make_booking(struct dice *dice, const struct shelf *shelf, size_t variety,
                           uint8_t *record)
{
    static const enum shape shapes[] = {GOODS_SHAPE, GOODS_SHAPE, GOODS_SHAPE, GOODS_SHAPE,
                                        GOODS_SHAPE, ORDER_SHAPE, ORDER_SHAPE, ORDER_SHAPE,
                                        REPORT_SHAPE, REPORT_SHAPE, ADVANCE_SHAPE,
                                        CLOSING_SHAPE};
    struct sheet sheet;
    uint8_t key[IN_TITLED];
    enum shape shape = shapes[below(dice, chance(dice, 3) ? 12 : 10)];
    size_t copies = chance(dice, 12) ? 0 : chance(dice, 6) ? 9999 : between(dice, 1, 6);
    if (shape == ORDER_SHAPE)
        make_line_key(dice, variety, key);
    else
        pick_key(dice, shelf, variety, key);
    if (chance(dice, 4))
        make_title(dice, key + IN_KEY);
    if (chance(dice, 15))
        memset(key + 24, ' ', 10);
    make_fixed(dice, &sheet, shape, key, copies);
    if (chance(dice, 3))
        add_some_fields(dice, &sheet, 3);
    return assemble(&sheet, record);
}

/* What the last report on a line said, asked for in a sequence. */
static void ask_in_sequence(const uint8_t *key, struct shelf *shelf)
{
    if (ask_line(key, shelf) != 0)
        return;
    uint64_t message = tally.said.message;
    came_up(message == IN_NO_REPORT ? SEQUENCE_NO_REPORT
            : message == IN_UNKNOWN ? SEQUENCE_UNKNOWN
            : (enum class)(SEQUENCE_DAY + tally.said.expected - IN_AS_DAY), 1);
}

/* Saves the book and loads it again; a book made by bookings goes on as it was loaded, now and
   then. */
static void save_in_sequence(struct dice *dice, struct shelf *shelf, int by_bookings)
{
    static struct shelf loaded;
    save_and_load(dice, shelf, by_bookings);
    if (by_bookings && chance(dice, 2)) {
        insist(load_again(dice, shelf, &loaded) == 0, "a book made by bookings is loaded");
        *shelf = loaded;
    }
}

/* Bookings one after another, with repeated, swapped and damaged records. */
static void book_sequence(struct dice *dice, struct shelf *shelf, size_t steps,
                          size_t variety, int by_bookings)
{
    static uint8_t history[HISTORY][RECORD_ROOM];
    uint8_t key[IN_TITLED];
    size_t lengths[HISTORY], known = 0;
    for (size_t step = 0; step < steps; step++) {
        size_t at = known < HISTORY ? known++ : below(dice, HISTORY);
        lengths[at] = make_booking(dice, shelf, variety, history[at]);
        book_meeting(dice, history[at], lengths[at], shelf);
        if (chance(dice, 4)) {
            at = below(dice, known);
            book_meeting(dice, history[at], lengths[at], shelf);
        }
        if (chance(dice, 6)) {
            at = below(dice, known);
            history[at][below(dice, lengths[at])] ^= (uint8_t)(1u << below(dice, 8));
            book_meeting(dice, history[at], lengths[at], shelf);
        }
        if (chance(dice, 3)) {
            pick_key(dice, shelf, variety, key);
            ask_in_sequence(key, shelf);
        }
        if (chance(dice, 25))
            save_in_sequence(dice, shelf, by_bookings);
    }
}

static void book_small(struct dice *dice)
{
    static const size_t rooms[][2] = {{1, 1}, {1, 2}, {2, 1}, {1, 9}, {3, 5}, {8, 16}, {40, 60}};
    static struct shelf shelf;
    for (size_t i = 0; i < sizeof rooms / sizeof rooms[0]; i++) {
        make_shelf(dice, &shelf, rooms[i][0], rooms[i][1]);
        book_sequence(dice, &shelf, 150, between(dice, 1, 4), 1);
        make_shelf(dice, &shelf, rooms[i][0], rooms[i][1]);
        stock_shelf(dice, &shelf, below(dice, rooms[i][0] + 1), below(dice, rooms[i][1] + 1),
                    2);
        book_sequence(dice, &shelf, 100, 2, 0);
    }
}

/* Records that no reading takes, before a sound book: answers 1 to 10 and their places. */
static void book_unreadable(struct dice *dice)
{
    static struct shelf shelf;
    struct sheet sheet;
    uint8_t record[RECORD_ROOM], content[IN_LONGEST];
    memset(content, 'c', sizeof content);
    make_shelf(dice, &shelf, 200, 200);
    for (size_t i = 0; i < 250; i++) {
        make_sheet(dice, &sheet, (enum shape)below(dice, SHAPES), 3);
        switch (i % 5) {
        case 0: add_field(&sheet, 8888, content, between(dice, 800, IN_LONGEST)); break;
        case 1: add_valid_field(dice, &sheet, listed_ids[below(dice, listed_count)]); break;
        case 2: add_field(&sheet, listed_ids[below(dice, listed_count)], content,
                          below(dice, 9)); break;
        case 3:
            for (size_t more = between(dice, IN_MOST_FIELDS - 14, IN_MOST_FIELDS + 6); more > 0;
                 more--)
                add_field(&sheet, 7, content, 0);
            break;
        default: break;
        }
        size_t length = assemble(&sheet, record);
        if (i % 5 == 4)
            record[below(dice, length)] = (uint8_t)(chance(dice, 2) ? '*' : roll(dice));
        book_meeting(dice, record, chance(dice, 6) ? below(dice, length) : length, &shelf);
    }
}

/* An order, a delivery and a report of the most fields are booked; with one field more each is
   8 at the star of that field. */
static void book_field_limit(struct dice *dice)
{
    static const enum shape shapes[] = {ORDER_SHAPE, GOODS_SHAPE, REPORT_SHAPE};
    static struct shelf shelf;
    struct sheet sheet;
    uint8_t record[RECORD_ROOM], key[IN_TITLED];
    make_shelf(dice, &shelf, 2, 2);
    make_line_key(dice, 0, key);
    for (size_t i = 0; i < sizeof shapes / sizeof shapes[0]; i++) {
        make_fixed(dice, &sheet, shapes[i], key, 3);
        while (sheet.count <= IN_MOST_FIELDS)
            add_field(&sheet, below(dice, 1000), (const uint8_t *)"7", below(dice, 2));
        const size_t *last = sheet.table + 3 * IN_MOST_FIELDS;
        size_t length = assemble(&sheet, record), star = length - 5 - last[2] - 5;
        expect(BOOKED_OF_97_IS_8, 1, book_listed(dice, record, length, &shelf), 8);
        insist(tally.place == star, "8 stands at the 97th field");
        memcpy(record + star, "*9999", 5);
        expect(BOOKED_OF_96, 1, book_listed(dice, record, star + 5, &shelf), 0);
    }
}

/* A at the limit from both sides; with all slips used, 21 stands before 19. */
static void book_at_limit(struct dice *dice)
{
    static const size_t missing[] = {0, 1, 2, 3, 9998, 9999, 10000};
    static const size_t copies[] = {1, 2, 3, 4, 9998, 9999};
    static struct shelf shelf;
    struct sheet sheet;
    uint8_t record[RECORD_ROOM];
    for (size_t i = 0; i < 7; i++)
        for (size_t j = 0; j < 6; j++) {
            make_shelf(dice, &shelf, 3, 4);
            stock_shelf(dice, &shelf, 3, 3, 0);
            shelf.used[1] += (size_t)chance(dice, 3);
            put_little(shelf.slips + 3 * IN_SLIP + IN_LINE_OF_SLIP, 2, 0);
            uint8_t *line = shelf.lines + below(dice, 3) * IN_LINE;
            put_little(line + IN_ARRIVED, 4, 9999999 - missing[i]);
            make_fixed(dice, &sheet, GOODS_SHAPE, line, copies[j]);
            size_t length = assemble(&sheet, record);
            book_listed(dice, record, length, &shelf);
            ask_line(line, &shelf);
            book_listed(dice, record, length, &shelf);
        }
}

/* A stored key that differs from the record's in one byte, whichever, is another key, though
   the line has the record's article. */
static void book_near_keys(struct dice *dice)
{
    static struct shelf sound, shelf;
    uint8_t new_slip[IN_SLIP_KEY];
    make_shelf(dice, &sound, 3, 3);
    stock_unique(dice, &sound, 1, 1);
    unique_slip_key(new_slip, 1);
    size_t copies = get_little(sound.slips + IN_COPIES, 2);
    for (size_t i = 0; i < IN_KEY + IN_SLIP_KEY; i++) {
        int of_line = i < IN_KEY;
        shelf = sound;
        *(of_line ? shelf.lines + i : shelf.slips + i - IN_KEY)
            ^= (uint8_t)(1u << below(dice, 8));
        insist(book_one(dice, &shelf, GOODS_SHAPE, sound.lines, copies, sound.slips)
               == (of_line ? 18u : 0u), "every byte of a key counts for a delivery");
        insist(book_one(dice, &shelf, GOODS_SHAPE, sound.lines, copies, new_slip)
               == (of_line ? 16u : 0u), "every byte of a key counts for a new slip");
        insist(ask_line(sound.lines, &shelf) == (of_line ? 16u : 0u),
               "every byte of a key counts for the call by key");
        insist(book_one(dice, &shelf, REPORT_SHAPE, sound.lines, 0, NULL)
               == (of_line ? 16u : 0u), "every byte of a key counts for a report");
        insist(book_one(dice, &shelf, ORDER_SHAPE, sound.lines, 1, NULL)
               == (of_line ? 0u : 14u), "every byte of a key counts for an order");
        came_up(of_line ? LINE_KEYS_ONE_BYTE_APART : SLIP_KEYS_ONE_BYTE_APART, 1);
    }
}

/* Where keys repeat, the first line and the first slip count. */
static void book_repeated_keys(struct dice *dice)
{
    static struct shelf shelf;
    make_shelf(dice, &shelf, 4, 4);
    stock_unique(dice, &shelf, 3, 3);
    uint8_t *first = shelf.slips, *last = shelf.slips + 2 * IN_SLIP;
    memcpy(shelf.lines + 2 * IN_LINE, shelf.lines, IN_KEY);
    memcpy(last, first, IN_SLIP_KEY);
    put_little(first + IN_LINE_OF_SLIP, 2, 0);
    put_little(first + IN_COPIES, 2, 3);
    put_little(last + IN_COPIES, 2, 4);
    insist(book_one(dice, &shelf, GOODS_SHAPE, shelf.lines, 3, first) == 17,
           "the first slip counts");
    insist(book_one(dice, &shelf, GOODS_SHAPE, shelf.lines, 4, first) == 18,
           "the last slip does not count");
    ask_line(shelf.lines, &shelf);
    book_one(dice, &shelf, REPORT_SHAPE, shelf.lines, 0, NULL);
    book_one(dice, &shelf, GOODS_SHAPE, shelf.lines, 5, NULL);
    came_up(KEYS_REPEATED, 1);
}

/* Every call on one book, with a record that is valid or not. */
static void try_all(struct dice *dice, const struct shelf *shelf)
{
    static struct shelf copy;
    static uint8_t out[SAVE_ROOM];
    uint8_t record[RECORD_ROOM], key[IN_TITLED];
    size_t length = make_booking(dice, shelf, 1, record);
    if (chance(dice, 3))
        record[below(dice, length)] = (uint8_t)roll(dice);
    copy = *shelf;
    book_listed(dice, record, chance(dice, 8) ? 0 : length, &copy);
    copy = *shelf;
    make_line_key(dice, 1, key);
    ask_line(key, &copy);
    both_save(&copy, out, chance(dice, 4) ? below(dice, 400) : 1000);
    length = make_save(dice, out, (enum saved_form)below(dice, SAVED_FORMS), between(dice, 1, 3),
                       below(dice, 3), 0);
    both_load(out, length - (size_t)chance(dice, 3), &copy);
}

/* Each number of each entry at its ends and past them; unused entries do not count. */
static void break_entries(struct dice *dice)
{
    static const size_t ordered[] = {0, 1, 9999, 10000, 65535, 256};
    static const size_t marks[] = {0, 1, 2, 3, 255, 'N'};
    static const size_t arrived[] = {9999999, 10000000, 0xffffffffu, 0x01000000, 16777215, 0};
    static struct shelf sound, shelf;
    make_shelf(dice, &sound, 4, 5);
    stock_shelf(dice, &sound, 3, 4, 1);
    for (size_t i = 0; i < 4; i++)
        for (size_t j = 0; j < 6; j++)
            for (size_t what = 0; what < 3; what++) {
                shelf = sound;
                uint8_t *line = shelf.lines + i * IN_LINE;
                if (what == 0)
                    put_little(line + IN_ORDERED, 2, ordered[j]);
                else if (what == 1)
                    line[IN_MARK] = (uint8_t)marks[j];
                else
                    put_little(line + IN_ARRIVED, 4, arrived[j]);
                try_all(dice, &shelf);
            }
    for (size_t i = 0; i < 5; i++)
        for (size_t index = 0; index < 7; index++) {
            shelf = sound;
            put_little(shelf.slips + i * IN_SLIP + IN_LINE_OF_SLIP, 2,
                       index < 5 ? index : index * 256 - 1);
            put_little(shelf.slips + i * IN_SLIP + IN_COPIES, 2, roll(dice));
            try_all(dice, &shelf);
        }
}

/* Used counts over the room and huge; rooms of wrong sizes. */
static void break_sizes(struct dice *dice)
{
    const size_t counts[] = {0, 3, 4, 5, 6, 512, 1025, SIZE_MAX, SIZE_MAX / 2 + 1,
                             SIZE_MAX / IN_LINE + 1, SIZE_MAX / IN_SLIP + 1};
    static const size_t line_rooms[] = {0, 1, IN_LINE - 1, IN_LINE, IN_LINE + 1,
                                        2 * IN_LINE - 1, 4 * IN_LINE, 512 * IN_LINE,
                                        512 * IN_LINE + 1, 513 * IN_LINE, 514 * IN_LINE};
    static const size_t slip_rooms[] = {0, 1, IN_SLIP - 1, IN_SLIP, IN_SLIP + 1, 2 * IN_SLIP,
                                        5 * IN_SLIP, 1024 * IN_SLIP, 1024 * IN_SLIP + 1,
                                        1025 * IN_SLIP, 1026 * IN_SLIP};
    static struct shelf sound, shelf;
    make_shelf(dice, &sound, SHELF_LINES, SHELF_SLIPS);
    stock_shelf(dice, &sound, 5, 6, 1);
    for (size_t i = 0; i < 11; i++)
        for (size_t which = 0; which < 2; which++) {
            shelf = sound;
            shelf.lines_length = 4 * IN_LINE;
            shelf.slips_length = 5 * IN_SLIP;
            shelf.used[0] = 3;
            shelf.used[1] = 0;
            shelf.used[which] = counts[i];
            try_all(dice, &shelf);
        }
    for (size_t i = 0; i < 11; i++)
        for (size_t j = 0; j < 11; j++) {
            if (i > 6 && j > 6 && !chance(dice, 4))
                continue;
            shelf = sound;
            shelf.lines_length = line_rooms[i];
            shelf.slips_length = slip_rooms[j];
            shelf.used[0] = below(dice, 2);
            shelf.used[1] = shelf.used[0] * below(dice, 2);
            put_little(shelf.slips + IN_LINE_OF_SLIP, 2, 0);
            try_all(dice, &shelf);
        }
}

/* One field of the key of this length: right in its own length alone, and 20 before it. */
static void ask_with_length(struct dice *dice, struct shelf *shelf, const uint8_t *key,
                            size_t which, size_t length)
{
    const uint8_t *parts[KEY_PARTS];
    size_t lengths[KEY_PARTS];
    for (size_t i = 0; i < KEY_PARTS; i++) {
        lengths[i] = i == which ? length : part_widths[i];
        parts[i] = key;
        key += chance(dice, 2) ? part_widths[i] : lengths[i];
    }
    int right = length == part_widths[which];
    insist(both_line(parts, lengths, shelf) == (right ? 0u : 16u), "lengths are the widths");
    shelf->used[1] += 7;
    insist(both_line(parts, lengths, shelf) == 20, "20 stands before 16");
    shelf->used[1] -= 7;
    came_up(KEY_FIELD_OF_20, length == 20);
    came_up(KEY_FIELD_256_LONGER, length == part_widths[which] + LONGER);
    came_up(KEY_FIELD_WITH_ARTICLE, which == KEY_PARTS - 1 && length == IN_NAME + IN_TITLE);
}

/* Lengths that move a byte from one field of the key to the next match no line. */
static void ask_shifted(struct shelf *shelf, const uint8_t *key)
{
    for (size_t which = 0; which + 1 < KEY_PARTS; which++) {
        const uint8_t *parts[KEY_PARTS], *at = key;
        size_t lengths[KEY_PARTS];
        memcpy(lengths, part_widths, sizeof lengths);
        lengths[which]--;
        lengths[which + 1]++;
        for (size_t i = 0; i < KEY_PARTS; at += lengths[i++])
            parts[i] = at;
        insist(both_line(parts, lengths, shelf) == 16, "a shifted key matches no line");
    }
}

/* The call by key with each field of wrong length, also where the joined bytes would
   make the key, and with each byte changed. The line's article stands behind the key. */
static void ask_wrong_keys(struct dice *dice)
{
    static struct shelf shelf;
    uint8_t key[IN_KEY + LONGEST_FIELD];
    make_shelf(dice, &shelf, 6, 6);
    stock_shelf(dice, &shelf, 5, 3, 2);
    memset(key, ' ', sizeof key);
    memcpy(key, shelf.lines + below(dice, 5) * IN_LINE, IN_TITLED);
    insist(ask_line(key, &shelf) == 0, "a line of the book is found");
    for (size_t i = 0; i < IN_KEY; i++) {
        key[i] ^= 1;
        ask_line(key, &shelf);
        key[i] ^= 1;
    }
    for (size_t which = 0; which < KEY_PARTS; which++) {
        for (size_t length = 0; length <= IN_NAME + IN_TITLE; length++)
            ask_with_length(dice, &shelf, key, which, length);
        ask_with_length(dice, &shelf, key, which, part_widths[which] + LONGER);
    }
    ask_shifted(&shelf, key);
}

void compare_bookings(struct dice *dice)
{
    for (size_t i = 0; i < 3; i++)
        book_small(dice);
    book_unreadable(dice);
    book_field_limit(dice);
    book_at_limit(dice);
    book_near_keys(dice);
    for (size_t i = 0; i < 4; i++)
        book_repeated_keys(dice);
    break_entries(dice);
    break_sizes(dice);
    for (size_t i = 0; i < 5; i++)
        ask_wrong_keys(dice);
}
