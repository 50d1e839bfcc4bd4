/* Cases of records with numbers far past their limits, and of groups that end a record. */
#include "cases.h"

#include <string.h>

enum { HEAD = 5, TWO_BYTES = 65536, FAR_OUTPUT = TWO_BYTES + 4000, STEPS = 4 };

static const uint64_t two_32 = (uint64_t)1 << 32;

static uint8_t out[FAR_OUTPUT];

static uint64_t write_all(const struct sheet *sheet, size_t table_fields, size_t out_length)
{
    return both_write(sheet, sheet->fixed_length, 3 * table_fields, sheet->contents_length,
                      out, out_length);
}

/* A sheet whose last field has this ID, the members of its group standing before it. */
static void make_sheet_to(struct dice *dice, struct sheet *sheet, size_t id, size_t count,
                          size_t before)
{
    make_sheet(dice, sheet, (enum shape)below(dice, SHAPES), 0);
    while (sheet->count + before + 1 < count)
        add_field(sheet, 7, (const uint8_t *)"", 0);
    if (before > 0)
        add_valid_field(dice, sheet, group_previous(id));
    add_valid_field(dice, sheet, id);
}

/* A group broken at the last field. To write, the table goes on behind the count, with
   just the field that would make the group whole. */
static void break_last(struct dice *dice, size_t id, size_t count, size_t before)
{
    struct sheet sheet;
    uint8_t record[RECORD_ROOM];
    make_sheet_to(dice, &sheet, id, count, before);
    size_t length = assemble(&sheet, record);
    size_t star = length - 2 * HEAD - sheet.table[3 * count - 1];
    uint64_t answer = both_check(record, length, IN_FULL_TABLE);
    insist(tally.place == star, "10 stands at the last field");
    expect(GROUP_BROKEN_AT_LAST, count < IN_MOST_FIELDS, answer, 10);
    came_up(GROUP_BROKEN_AT_96TH, count == IN_MOST_FIELDS);
    add_valid_field(dice, &sheet, group_next(id) != 0 ? group_next(id) : group_previous(id));
    sheet.count = count;
    expect(WRITTEN_GROUP_BROKEN_AT_LAST, 1, write_all(&sheet, count + 1, IN_LONGEST), 10);
    insist(tally.place == count - 1, "10 stands at the last field to write");
}

/* Each member of each group last, without its neighbours and, where it is not the end of
   its group, with the one before it. */
static void break_groups_last(struct dice *dice)
{
    const size_t counts[] = {1, 2, between(dice, 3, IN_MOST_FIELDS - 2), IN_MOST_FIELDS - 1,
                             IN_MOST_FIELDS};
    for (size_t i = 0; i < listed_count; i++)
        for (size_t j = 0; j < sizeof counts / sizeof counts[0]; j++) {
            size_t id = listed_ids[i], previous = group_previous(id);
            if (previous == 0 && group_next(id) == 0)
                continue;
            break_last(dice, id, counts[j], 0);
            if (previous != 0 && group_next(id) != 0 && counts[j] > 1)
                break_last(dice, id, counts[j], 1);
        }
}

/* Numbers of the table that are right in their low bytes alone. */
static void write_far_numbers(struct dice *dice)
{
    static const enum class classes[] = {ID_OVER_2_32, PLACE_OVER_2_32, LENGTH_OVER_2_32};
    const uint64_t steps[STEPS] = {two_32, two_32 * 5, two_32 << 16, two_32 << 31};
    struct sheet sheet;
    make_sheet(dice, &sheet, (enum shape)below(dice, SHAPES), 0);
    for (size_t i = 0; i < 4; i++)
        add_valid_field(dice, &sheet, i % 2 ? 8888 : 1003);
    insist(write_all(&sheet, sheet.count, IN_LONGEST) == 0, "four fields are written");
    for (size_t i = 0; i < 3 * STEPS * sheet.count; i++) {
        size_t *number = &sheet.table[i / STEPS], right = *number;
        *number += steps[i % STEPS];
        expect(classes[i / STEPS % 3], *number > two_32,
               write_all(&sheet, sheet.count, IN_LONGEST), 9);
        insist(tally.place == i / STEPS / 3, "9 stands at the field with the far number");
        *number = right;
    }
    for (size_t i = 0; i < STEPS; i++) {
        sheet.count = steps[i] + i;
        expect(FIELDS_OVER_2_32, sheet.count >= two_32, write_all(&sheet, 4, IN_LONGEST), 8);
    }
}

/* Outputs much larger than the record, also such as are too small by their low bytes. */
static void write_into_large(struct dice *dice)
{
    const size_t rooms[] = {9001, TWO_BYTES - 1, TWO_BYTES, TWO_BYTES + 1, TWO_BYTES + 60,
                            between(dice, 9001, FAR_OUTPUT), FAR_OUTPUT};
    struct sheet sheet;
    for (size_t i = 0; i < sizeof rooms / sizeof rooms[0]; i++) {
        make_sheet(dice, &sheet, (enum shape)below(dice, SHAPES), 2);
        expect(OUTPUT_OVER_9000, rooms[i] > 9000, write_all(&sheet, sheet.count, rooms[i]), 0);
    }
}

/* Records and tables whose length is right in its low two bytes alone, or wrong there. */
static void check_far_lengths(struct dice *dice)
{
    static uint8_t record[TWO_BYTES + RECORD_ROOM];
    static struct shelf shelf;
    struct sheet sheet;
    for (size_t shape = 0; shape < SHAPES; shape++) {
        make_sheet(dice, &sheet, (enum shape)shape, 1);
        size_t length = assemble(&sheet, record);
        expect(TABLE_OVER_65536, 1,
               both_check(record, length, TWO_BYTES + below(dice, IN_FULL_TABLE)), 0);
        memset(record + length, 'c', TWO_BYTES);
        expect(RECORD_OVER_65536, 1, both_check(record, TWO_BYTES + length, IN_FULL_TABLE), 1);
        make_shelf(dice, &shelf, 2, 2);
        expect(RECORD_OVER_65536, 1, book_listed(dice, record, TWO_BYTES + length, &shelf),
               1);
    }
}

void compare_far_records(struct dice *dice)
{
    break_groups_last(dice);
    write_far_numbers(dice);
    write_into_large(dice);
    check_far_lengths(dice);
}
