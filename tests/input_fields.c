/* Generated optional fields: contents of every ID, whole groups, and records in parts. */
#include "inputs.h"

#include <string.h>

/* Document 01's table of contents, a second time: what, and how long. */
enum sort { ANY, DIGITS, CAPITALS, CHOICE, DAY, DAYS_360, FORM };

static const struct { size_t id; enum sort sort; size_t least, most; const char *choices; }
listed[] = {
    {1001, ANY, 1, 35, 0}, {1003, ANY, 1, 35, 0}, {1101, ANY, 1, 35, 0},
    {1005, CAPITALS, 2, 2, 0}, {1007, CAPITALS, 2, 2, 0}, {1013, CAPITALS, 2, 2, 0},
    {1018, CAPITALS, 2, 2, 0}, {1030, CAPITALS, 2, 2, 0}, {1102, CAPITALS, 2, 2, 0},
    {1108, CAPITALS, 2, 2, 0}, {1114, CAPITALS, 2, 2, 0}, {1116, CAPITALS, 2, 2, 0},
    {1202, CAPITALS, 2, 2, 0}, {1204, CAPITALS, 2, 2, 0},
    {1009, ANY, 3, 3, 0}, {1017, ANY, 1, 39, 0}, {9010, ANY, 1, 40, 0},
    {1019, CHOICE, 1, 1, "012"}, {1021, CHOICE, 1, 1, "JN"}, {1045, CHOICE, 1, 1, "JN"},
    {1025, DIGITS, 5, 8, 0}, {1029, DIGITS, 5, 15, 0}, {1032, CAPITALS, 3, 3, 0},
    {1047, CHOICE, 1, 1, "J"}, {9003, CHOICE, 1, 1, "JU"},
    {1051, ANY, 1, 5, 0}, {1113, ANY, 1, 5, 0},
    {1107, DIGITS, 1, 4, 0}, {9007, DIGITS, 1, 4, 0}, {1115, ANY, 1, 10, 0},
    {1129, DIGITS, 1, 6, 0}, {1131, ANY, 1, 3, 0}, {1151, FORM, 3, 3, 0},
    {1201, DAY, 8, 8, 0}, {1203, DAYS_360, 1, 3, 0}, {9001, ANY, 1, 1, 0},
    {9011, DIGITS, 1, 14, 0}, {9012, DIGITS, 13, 13, 0}, {9016, DIGITS, 1, 4, 0}
};

const size_t listed_ids[] = {
    1001, 1003, 1101, 1005, 1007, 1013, 1018, 1030, 1102, 1108, 1114, 1116, 1202, 1204,
    1009, 1017, 9010, 1019, 1021, 1045, 1025, 1029, 1032, 1047, 9003, 1051, 1113, 1107,
    9007, 1115, 1129, 1131, 1151, 1201, 1203, 9001, 9011, 9012, 9016
};
const size_t listed_count = sizeof listed_ids / sizeof listed_ids[0];

static size_t make_sorted(struct dice *dice, enum sort sort, size_t length,
                          const char *choices, int order, uint8_t *content)
{
    switch (sort) {
    case DIGITS: put_random_digits(dice, content, length); break;
    case CAPITALS: put_capitals(dice, content, length); break;
    case CHOICE: content[0] = (uint8_t)choices[below(dice, strlen(choices))]; break;
    case DAY: make_day(dice, content); break;
    case DAYS_360:
        put_digits(content, 3, between(dice, 1, 360));
        break;
    case FORM: memcpy(content, chance(dice, 2) ? "PHY" : "DIG", 3); break;
    default:
        for (size_t i = 0; i < length; i++)
            content[i] = allowed_byte(dice, order);
    }
    return sort == DAYS_360 ? 3 : length;
}

/* A content that keeps the rule of its ID; an ID not listed takes anything. */
size_t make_content(struct dice *dice, size_t id, int order, uint8_t *content)
{
    for (size_t i = 0; i < sizeof listed / sizeof listed[0]; i++)
        if (listed[i].id == id)
            return make_sorted(dice, listed[i].sort,
                               between(dice, listed[i].least, listed[i].most),
                               listed[i].choices, order, content);
    return make_sorted(dice, ANY, below(dice, 9), 0, 0, content);
}

/* Adds a field; its content stands behind the others, with a byte between that no rule
   looks at. */
void add_field(struct sheet *sheet, size_t id, const uint8_t *content, size_t length)
{
    size_t *entry = sheet->table + 3 * sheet->count++;
    sheet->contents[sheet->contents_length++] = sheet->count % 2 ? '*' : 7;
    entry[0] = id;
    entry[1] = sheet->contents_length;
    entry[2] = length;
    memcpy(sheet->contents + sheet->contents_length, content, length);
    sheet->contents_length += length;
}

void add_valid_field(struct dice *dice, struct sheet *sheet, size_t id)
{
    uint8_t content[64];
    size_t length = make_content(dice, id, sheet->fixed[0] == 'B', content);
    add_field(sheet, id, content, length);
}

static const size_t group_steps[][2] = {
    {1017, 1018}, {1029, 1030}, {1030, 1032}, {1101, 1102}, {1107, 1108},
    {1113, 1114}, {1115, 1116}, {1201, 1202}, {1203, 1204}
};

size_t group_next(size_t id)
{
    for (size_t i = 0; i < sizeof group_steps / sizeof group_steps[0]; i++)
        if (group_steps[i][0] == id)
            return group_steps[i][1];
    return 0;
}

size_t group_previous(size_t id)
{
    for (size_t i = 0; i < sizeof group_steps / sizeof group_steps[0]; i++)
        if (group_steps[i][1] == id)
            return group_steps[i][0];
    return 0;
}

/* Adds a field with this content, and the rest of its group valid around it. */
void add_with_group(struct dice *dice, struct sheet *sheet, size_t id,
                    const uint8_t *content, size_t length)
{
    size_t previous = group_previous(id);
    if (previous != 0) {
        if (group_previous(previous) != 0)
            add_valid_field(dice, sheet, group_previous(previous));
        add_valid_field(dice, sheet, previous);
    }
    add_field(sheet, id, content, length);
    for (size_t next = group_next(id); next != 0; next = group_next(next))
        add_valid_field(dice, sheet, next);
}

/* Adds up to so many valid fields or groups. */
void add_some_fields(struct dice *dice, struct sheet *sheet, size_t most)
{
    uint8_t content[64];
    for (size_t left = below(dice, most + 1); left > 0; left--) {
        size_t id = chance(dice, 4) ? below(dice, 9999) : listed_ids[below(dice, listed_count)];
        size_t length = make_content(dice, id, sheet->fixed[0] == 'B', content);
        add_with_group(dice, sheet, id, content, length);
    }
}

/* A valid record of this shape in parts. */
void make_sheet(struct dice *dice, struct sheet *sheet, enum shape shape, size_t most)
{
    uint8_t key[IN_TITLED];
    make_line_key(dice, chance(dice, 2) ? 0 : 4, key);
    make_fixed(dice, sheet, shape, key, chance(dice, 9) ? 0 : between(dice, 1, 9999));
    if (chance(dice, 9) && shape != CLOSING_SHAPE)
        memset(sheet->fixed + (shape == ORDER_SHAPE ? 36 : shape == REPORT_SHAPE ? 38 : 50),
               ' ', 10);
    add_some_fields(dice, sheet, most);
}

/* The whole record of a sheet; only the last four digits of an ID are written. */
size_t assemble(const struct sheet *sheet, uint8_t *record)
{
    size_t length = sheet->fixed_length;
    memcpy(record, sheet->fixed, length);
    for (size_t i = 0; i < sheet->count; i++) {
        const size_t *entry = sheet->table + 3 * i;
        record[length] = '*';
        put_digits(record + length + 1, 4, entry[0]);
        memcpy(record + length + 5, sheet->contents + entry[1], entry[2]);
        length += 5 + entry[2];
    }
    memcpy(record + length, "*9999", 5);
    return length + 5;
}
