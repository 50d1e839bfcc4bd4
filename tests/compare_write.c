/* Cases for write: valid sheets, bad fixed parts, bad tables, every limit. */
#include "cases.h"

#include <string.h>

static uint64_t write_sheet(const struct sheet *sheet, uint8_t *out, size_t out_length)
{
    size_t table_length = sheet->count > SHEET_FIELDS ? 3 * SHEET_FIELDS : 3 * sheet->count;
    return both_write(sheet, sheet->fixed_length, table_length, sheet->contents_length,
                      out, out_length);
}

/* A valid sheet is written as assembled, into outputs of all sizes near its own. */
static void write_valid(struct dice *dice, enum shape shape)
{
    struct sheet sheet;
    uint8_t record[RECORD_ROOM], out[RECORD_ROOM];
    make_sheet(dice, &sheet, shape, 8);
    size_t length = assemble(&sheet, record);
    for (size_t room = length - 3; room <= length + 3; room++) {
        uint64_t answer = write_sheet(&sheet, out, room);
        if (length <= IN_LONGEST)
            insist(answer == (room < length ? 23 : 0), "a valid sheet is written where it fits");
        if (answer == 0)
            insist(memcmp(out, record, length) == 0, "the record written is as assembled");
    }
    write_sheet(&sheet, out, 0);
    write_sheet(&sheet, out, RECORD_ROOM);
}

/* The fixed part damaged at every byte, and of every length. */
static void write_bad_fixed(struct dice *dice, enum shape shape)
{
    struct sheet sheet, damaged;
    uint8_t out[RECORD_ROOM];
    make_sheet(dice, &sheet, shape, 2);
    for (size_t place = 0; place < sheet.fixed_length; place++)
        for (size_t i = 0; i < 3; i++) {
            damaged = sheet;
            damaged.fixed[place] = odd_byte(dice, sheet.fixed[place]);
            if (chance(dice, 4))
                damaged.fixed[below(dice, sheet.fixed_length)] = (uint8_t)roll(dice);
            if (chance(dice, 8))
                damaged.count = IN_MOST_FIELDS + 1 + below(dice, 3);
            write_sheet(&damaged, out, IN_LONGEST);
        }
    damaged = sheet;
    memset(damaged.fixed + sheet.fixed_length, '0', sizeof damaged.fixed - sheet.fixed_length);
    for (size_t length = 0; length <= sizeof damaged.fixed; length++)
        both_write(&damaged, length, 3 * sheet.count, sheet.contents_length, out, IN_LONGEST);
}

/* An entry that says too much: IDs of 9999 and more, places and lengths that would wrap. */
static void spoil_entry(struct dice *dice, struct sheet *sheet, size_t index)
{
    const size_t huge[] = {SIZE_MAX, SIZE_MAX - 1, SIZE_MAX / 2, SIZE_MAX / 2 + 1,
                           (size_t)1 << 31, 0xffffffffu, 65536, 1025, 1024};
    const size_t ids[] = {9998, 9999, 10000, 10001, 11003, 65536 + 1003, SIZE_MAX, 0};
    size_t *entry = sheet->table + 3 * index;
    switch (below(dice, 7)) {
    case 0: entry[0] = ids[below(dice, 8)]; break;
    case 1: entry[1] = huge[below(dice, 9)]; break;
    case 2: entry[2] = huge[below(dice, 9)]; break;
    case 3: entry[1] = SIZE_MAX - entry[2] + below(dice, 3); break;
    case 4: entry[2] = SIZE_MAX - entry[1] + below(dice, 3); break;
    case 5: entry[1] = sheet->contents_length - entry[2] + below(dice, 3); break;
    default:
        entry[1] = sheet->contents_length + below(dice, 2);
        entry[2] = below(dice, 2);
    }
}

static void write_bad_tables(struct dice *dice)
{
    struct sheet sheet, damaged;
    uint8_t out[RECORD_ROOM];
    make_sheet(dice, &sheet, (enum shape)below(dice, SHAPES), 5);
    add_some_fields(dice, &sheet, 3);
    add_valid_field(dice, &sheet, 8888);
    for (size_t i = 0; i < 150; i++) {
        damaged = sheet;
        for (size_t faults = between(dice, 1, 2); faults > 0; faults--)
            spoil_entry(dice, &damaged, below(dice, sheet.count));
        write_sheet(&damaged, out, chance(dice, 4) ? below(dice, IN_LONGEST) : IN_LONGEST);
    }
    for (size_t i = 0; i < 100; i++) {
        size_t place = below(dice, sheet.contents_length);
        damaged = sheet;
        damaged.contents[place] = odd_byte(dice, sheet.contents[place]);
        write_sheet(&damaged, out, IN_LONGEST);
    }
    for (size_t length = 0; length <= sheet.contents_length; length++)
        both_write(&sheet, sheet.fixed_length, 3 * sheet.count, length, out, IN_LONGEST);
}

/* Tables under and over their count, and counts past the most fields. */
static void write_bad_counts(struct dice *dice)
{
    const size_t counts[] = {IN_MOST_FIELDS - 1, IN_MOST_FIELDS, IN_MOST_FIELDS + 1,
                             IN_MOST_FIELDS + 2, SHEET_FIELDS, SIZE_MAX, SIZE_MAX / 3,
                             SIZE_MAX / 3 + 1, SIZE_MAX / 3 + 2};
    struct sheet sheet;
    uint8_t out[RECORD_ROOM];
    make_sheet(dice, &sheet, (enum shape)below(dice, SHAPES), 0);
    for (size_t i = 0; i < SHEET_FIELDS; i++)
        add_field(&sheet, 1 + below(dice, 900), (const uint8_t *)"xyz", below(dice, 3));
    for (size_t i = 0; i < sizeof counts / sizeof counts[0]; i++) {
        sheet.count = counts[i];
        for (size_t length = IN_FULL_TABLE - 3; length <= IN_FULL_TABLE + 6; length++) {
            uint64_t answer = both_write(&sheet, sheet.fixed_length, length,
                                         sheet.contents_length, out, IN_LONGEST);
            came_up(WRITTEN_OF_96, counts[i] == IN_MOST_FIELDS && answer == 0);
            came_up(WRITTEN_OF_97_IS_8, counts[i] == IN_MOST_FIELDS + 1 && answer == 8);
        }
        both_write(&sheet, sheet.fixed_length, 0, sheet.contents_length, out, IN_LONGEST);
    }
    for (size_t count = 0; count < 5; count++) {
        sheet.count = count;
        if (chance(dice, 2))
            sheet.table[0] = 9999;
        for (size_t length = 0; length <= 16; length++)
            both_write(&sheet, sheet.fixed_length, length, sheet.contents_length, out,
                       IN_LONGEST);
    }
}

/* Any IDs in any order with contents mostly right: 9 and 10 by field. */
static void write_groups(struct dice *dice)
{
    static const size_t ids[] = {1017, 1018, 1029, 1030, 1032, 1101, 1102, 1203, 1204, 1003,
                                 8888, 9999, 11018};
    struct sheet sheet;
    uint8_t out[RECORD_ROOM];
    for (size_t i = 0; i < 400; i++) {
        make_sheet(dice, &sheet, (enum shape)below(dice, SHAPES), 0);
        size_t id = ids[below(dice, 11)];
        for (size_t count = between(dice, 1, 5); count > 0; count--) {
            add_valid_field(dice, &sheet, id);
            id = chance(dice, 4) || group_next(id) == 0 ? ids[below(dice, 13)]
                                                        : group_next(id);
        }
        write_sheet(&sheet, out, chance(dice, 6) ? 60 : IN_LONGEST);
    }
}

/* Whole records around 1,024 bytes, from one content or from many that share bytes. */
static void write_length_limit(struct dice *dice)
{
    struct sheet sheet;
    uint8_t record[RECORD_ROOM], out[RECORD_ROOM], content[IN_LONGEST + 9];
    memset(content, 'c', sizeof content);
    for (size_t wanted = 1020; wanted <= 1028; wanted++)
        for (size_t shape = 0; shape < SHAPES; shape++) {
            make_sheet(dice, &sheet, (enum shape)shape, 2);
            add_field(&sheet, 8888, content, wanted - assemble(&sheet, record) - 5);
            for (size_t room = 1022; room <= 1026; room++)
                write_sheet(&sheet, out, room);
            write_sheet(&sheet, out, wanted - 1);
        }
    for (size_t i = 0; i < 20; i++) {
        make_sheet(dice, &sheet, (enum shape)below(dice, SHAPES), 0);
        for (size_t count = between(dice, 2, IN_MOST_FIELDS); count > 0; count--) {
            add_field(&sheet, 7000, content, 0);
            sheet.table[3 * sheet.count - 2] = below(dice, 3);
            sheet.table[3 * sheet.count - 1] = 1000 + below(dice, 25);
        }
        memset(sheet.contents, 'c', 1100);
        both_write(&sheet, sheet.fixed_length, 3 * sheet.count, 1020, out, 2000);
    }
}

void compare_writes(struct dice *dice)
{
    for (size_t shape = 0; shape < SHAPES; shape++) {
        for (size_t i = 0; i < 20; i++)
            write_valid(dice, (enum shape)shape);
        write_bad_fixed(dice, (enum shape)shape);
    }
    for (size_t i = 0; i < 10; i++) {
        write_bad_tables(dice);
        write_bad_counts(dice);
    }
    write_groups(dice);
    write_length_limit(dice);
}
