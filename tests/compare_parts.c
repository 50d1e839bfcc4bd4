/* Cases for parts: bundles of all sizes, loops that are not whole, records without parts. */
#include "cases.h"

#include <string.h>

enum { UNITS = 5, BYTES = 256 };

/* Where the units of a loop begin: 1019, the two prices, the article, 1151. A unit is one field
   or one group, so it can be moved without breaking a group. */
static const size_t unit_starts[UNITS + 1] = {0, 1, 4, 7, 9, IN_LOOP};

static uint8_t parts[PARTS_ROOM];

/* Reads the parts of a record, beside reading the record itself. */
static uint64_t read_parts(const uint8_t *record, size_t length)
{
    uint64_t checked = both_check(record, length, IN_FULL_TABLE), place = tally.place;
    uint64_t answer = both_parts(record, length, parts, IN_FULL_PARTS);
    if (checked != 0)
        insist(answer == checked && tally.place == place, "1 to 10 are those of reading");
    else
        insist((answer == 0 || answer == 26 || answer == 27) && tally.place == 0,
               "a record that is read has parts, or is 26 or 27");
    return answer;
}

static uint64_t read_sheet(const struct sheet *sheet)
{
    uint8_t record[RECORD_ROOM];
    return read_parts(record, assemble(sheet, record));
}

/* A bundle's sheet with its loops in it; gives the index of their first field. */
static size_t make_looped(struct dice *dice, struct sheet *sheet, size_t loops)
{
    static struct bundle bundle;
    make_bundle(dice, &bundle, loops);
    *sheet = bundle.sheet;
    for (size_t i = 0; i < loops; i++)
        add_loop(sheet, bundle.parts + i * IN_PART);
    return bundle.sheet.count;
}

/* Takes so many fields out, from this index on. */
static void drop_fields(struct sheet *sheet, size_t index, size_t count)
{
    size_t *entry = sheet->table + 3 * index;
    sheet->count -= count;
    memmove(entry, entry + 3 * count, 3 * (sheet->count - index) * sizeof *entry);
}

/* Moves the last field to this index. */
static void move_last(struct sheet *sheet, size_t index)
{
    size_t *entry = sheet->table + 3 * index, last[3];
    memcpy(last, sheet->table + 3 * (sheet->count - 1), sizeof last);
    memmove(entry + 3, entry, 3 * (sheet->count - 1 - index) * sizeof *entry);
    memcpy(entry, last, sizeof last);
}

/* What a part holds at its ends. */
static void note_part(const uint8_t *part)
{
    const size_t places[] = {IN_PART_NET, IN_PART_LIST};
    for (size_t i = 0; i < 2; i++) {
        const uint8_t *price = part + places[i];
        size_t digits = price[IN_PRICE_DIGITS];
        uint64_t amount = get_little(price, 8);
        came_up(PRICE_OF_5_DIGITS, digits == IN_LEAST_DIGITS);
        came_up(PRICE_OF_15_DIGITS, digits == IN_MOST_DIGITS);
        came_up(PRICE_OF_NINES, amount == power_of_ten(digits) - 1);
        came_up(PRICE_OVER_2_32, amount >> 32 != 0);
        came_up(PRICE_WITH_ZEROS, amount > 0 && amount < power_of_ten(digits - 1));
        came_up(PRICE_OF_NOTHING, amount == 0);
    }
    came_up(PRICES_OF_TWO_CURRENCIES,
            memcmp(part + IN_PART_NET + IN_PRICE_CURRENCY,
                   part + IN_PART_LIST + IN_PRICE_CURRENCY, IN_CURRENCY) != 0);
    came_up(LIST_PRICE_LP, part[IN_PART_LIST + IN_PRICE_QUALIFIER] == 'L');
    came_up(LIST_PRICE_FP, part[IN_PART_LIST + IN_PRICE_QUALIFIER] == 'F');
    came_up(PART_ARTICLE_OF_1, part[IN_PART_LENGTH] == 1);
    came_up(PART_ARTICLE_OF_35, part[IN_PART_LENGTH] == IN_LONGEST_ARTICLE);
    came_up(PART_PHYSICAL, part[IN_PART_MEDIUM] == IN_PHYSICAL);
    came_up(PART_DIGITAL, part[IN_PART_MEDIUM] == IN_DIGITAL);
}

/* A bundle is read into the parts that were put into it, and written back from them. */
static void read_bundle(struct dice *dice, size_t count)
{
    static struct bundle bundle;
    uint8_t record[RECORD_ROOM], out[IN_LONGEST];
    make_bundle(dice, &bundle, count);
    size_t length = assemble_bundle(&bundle, record);
    expect((enum class)(BUNDLE_OF_1 + count - 1), 1, read_parts(record, length), 0);
    insist(tally.value == count && memcmp(parts, bundle.parts, count * IN_PART) == 0,
           "the parts that are read are those of the record");
    came_up(BUNDLE_IN_ADVANCE, record[IN_DELIVERY_DATE + 8] == ' ');
    for (size_t i = 0; i < count; i++)
        note_part(parts + i * IN_PART);
    memcpy(bundle.parts, parts, count * IN_PART);
    expect(PARTS_WRITTEN_BACK, 1, both_write_parts(&bundle, out, sizeof out), 0);
    insist(tally.value == length && memcmp(out, record, length) == 0,
           "a bundle is written back as it was");
}

/* Loops, whole and not, where the mark is not 6, or in records that have none. */
static void read_without_mark(struct dice *dice, size_t loops)
{
    struct sheet sheet;
    uint8_t content[50];
    make_looped(dice, &sheet, loops);
    if (chance(dice, 3))
        add_valid_field(dice, &sheet, 9001);
    sheet.fixed[IN_TAX_MARK] = (uint8_t)between(dice, '0', '2');
    expect(LOOPS_WITHOUT_MARK, 1, read_sheet(&sheet), 0);
    insist(tally.value == 0, "without mark 6 there are no parts");
    for (size_t shape = 0; shape < SHAPES; shape++) {
        if (shape == GOODS_SHAPE || shape == ADVANCE_SHAPE)
            continue;
        make_sheet(dice, &sheet, (enum shape)shape, 0);
        memset(content, '6', sizeof content);
        add_field(&sheet, 8888, content, sizeof content);
        for (size_t i = 0; i < loops; i++) {
            make_part(dice, 0, parts);
            add_loop(&sheet, parts);
        }
        expect(shape == ORDER_SHAPE ? LOOPS_IN_ORDER : shape == REPORT_SHAPE ? LOOPS_IN_REPORT
                                                     : LOOPS_IN_CLOSING,
               1, read_sheet(&sheet), 0);
        insist(tally.value == 0, "a record that is no delivery, or a closing one, has no parts");
    }
}

/* Mark 6 and no 1019; it is read, written and booked all the same. */
static void read_without_loops(struct dice *dice)
{
    struct sheet sheet;
    uint8_t out[IN_LONGEST];
    make_looped(dice, &sheet, 0);
    expect(NO_TAX_FIELD_IS_26, 1, read_sheet(&sheet), 26);
    expect(WRITTEN_THOUGH_26, 1, both_write(&sheet, sheet.fixed_length, 3 * sheet.count,
                                            sheet.contents_length, out, sizeof out), 0);
}

/* Each field of a loop left out. Without its 1019 the first loop is other fields before the
   second. */
static void drop_each_field(struct dice *dice, size_t loops)
{
    struct sheet sheet, damaged;
    size_t first = make_looped(dice, &sheet, loops);
    for (size_t i = 0; i < loops * IN_LOOP; i++) {
        size_t field = i % IN_LOOP;
        int passes = i == 0 && loops > 1, grouped = field > 0 && field < IN_LOOP - 1;
        damaged = sheet;
        drop_fields(&damaged, first + i, 1);
        expect(passes ? FIRST_TAX_FIELD_MISSING : grouped ? LOOP_SHORT_IS_10 : LOOP_SHORT_IS_26,
               1, read_sheet(&damaged), passes ? 0 : grouped ? 10 : 26);
        insist(!passes || tally.value == loops - 1, "a loop without its 1019 is no part");
    }
}

/* Each unit of a loop left out. */
static void drop_each_unit(struct dice *dice, size_t loops)
{
    struct sheet sheet, damaged;
    size_t first = make_looped(dice, &sheet, loops);
    for (size_t i = 0; i < loops * UNITS; i++) {
        size_t unit = i % UNITS, start = first + i / UNITS * IN_LOOP + unit_starts[unit];
        if (i == 0 && loops > 1)
            continue;
        damaged = sheet;
        drop_fields(&damaged, start, unit_starts[unit + 1] - unit_starts[unit]);
        expect(UNIT_MISSING_IS_26, 1, read_sheet(&damaged), 26);
    }
}

/* Each unit of a loop replaced by as many other fields, an article also by another group. */
static void replace_each_unit(struct dice *dice, size_t loops)
{
    static const size_t groups[][2] = {{8888, 8888}, {1017, 1018}, {1113, 1114}, {1115, 1116}};
    struct sheet sheet, damaged;
    size_t first = make_looped(dice, &sheet, loops);
    for (size_t i = 0; i < loops * UNITS; i++) {
        size_t unit = i % UNITS, start = first + i / UNITS * IN_LOOP + unit_starts[unit];
        const size_t *others = groups[unit == 3 ? below(dice, 4) : 0];
        int passes = i == 0 && loops > 1;
        damaged = sheet;
        for (size_t j = unit_starts[unit]; j < unit_starts[unit + 1]; j++) {
            uint8_t content[2] = {'K', 'L'};
            add_field(&damaged, others[j % 2 == unit_starts[unit] % 2 ? 0 : 1], content, 2);
            move_last(&damaged, start + j - unit_starts[unit]);
        }
        drop_fields(&damaged, start + unit_starts[unit + 1] - unit_starts[unit],
                    unit_starts[unit + 1] - unit_starts[unit]);
        expect(passes ? FIRST_TAX_FIELD_MISSING : UNIT_REPLACED_IS_26, 1, read_sheet(&damaged),
               passes ? 0 : 26);
    }
}

/* As many other fields before the loops as a record may have. */
static void read_behind_many(struct dice *dice, size_t loops)
{
    struct sheet sheet;
    make_bundle_sheet(dice, &sheet, 0);
    while (sheet.count + loops * IN_LOOP < IN_MOST_FIELDS)
        add_field(&sheet, below(dice, 1000), (const uint8_t *)"", 0);
    size_t first = sheet.count;
    for (size_t i = 0; i < loops; i++) {
        make_part(dice, 9, parts + i * IN_PART);
        add_loop(&sheet, parts + i * IN_PART);
    }
    expect(LOOPS_BEHIND_64_FIELDS, first >= 64, read_sheet(&sheet), 0);
    insist(tally.value == loops, "all loops behind many fields are read");
}

/* Two neighbouring fields exchanged. Only where a loop ends no group is broken. */
static void exchange_fields(struct dice *dice, size_t loops)
{
    struct sheet sheet, damaged;
    size_t first = make_looped(dice, &sheet, loops);
    for (size_t i = 0; i + 1 < loops * IN_LOOP; i++) {
        int at_end = i % IN_LOOP == IN_LOOP - 1;
        size_t *entry = damaged.table + 3 * (first + i), *right = sheet.table + 3 * (first + i);
        damaged = sheet;
        memcpy(entry, right + 3, 3 * sizeof *entry);
        memcpy(entry + 3, right, 3 * sizeof *entry);
        expect(at_end ? FIELDS_EXCHANGED_IS_26 : FIELDS_EXCHANGED_IS_10, 1,
               read_sheet(&damaged), at_end ? 26 : 10);
    }
}

/* Any two units of one loop exchanged, the two prices among them. */
static void exchange_units(struct dice *dice, size_t loops)
{
    struct sheet sheet, damaged;
    size_t first = make_looped(dice, &sheet, loops) + below(dice, loops) * IN_LOOP;
    for (size_t i = 0; i + 1 < UNITS; i++)
        for (size_t j = i + 1; j < UNITS; j++) {
            size_t to = first;
            damaged = sheet;
            for (size_t unit = 0; unit < UNITS; unit++) {
                size_t from = unit == i ? j : unit == j ? i : unit;
                size_t fields = unit_starts[from + 1] - unit_starts[from];
                memcpy(damaged.table + 3 * to, sheet.table + 3 * (first + unit_starts[from]),
                       3 * fields * sizeof sheet.table[0]);
                to += fields;
            }
            expect(i == 1 && j == 2 ? PRICES_EXCHANGED_IS_26 : UNITS_EXCHANGED_IS_26, 1,
                   read_sheet(&damaged), 26);
        }
}

/* A field more at every place of the loops, before and behind them: one that stands alone, or
   another 1019. */
static void put_field_in(struct dice *dice, size_t loops, size_t id)
{
    struct sheet sheet, damaged;
    size_t first = make_looped(dice, &sheet, loops), count = loops * IN_LOOP;
    for (size_t i = 0; i <= count; i++) {
        size_t field = i % IN_LOOP;
        int in_group = field == 2 || field == 3 || field == 5 || field == 6 || field == 8;
        int passes = i == 0 && id != IN_TAX_ID;
        enum class class = passes ? FIELD_BEFORE_LOOPS : in_group ? FIELD_IN_GROUP_IS_10
                         : id == IN_TAX_ID ? TAX_FIELD_MORE_IS_26
                         : i == count ? FIELD_AFTER_LOOPS_IS_26
                         : field == 0 ? FIELD_BETWEEN_LOOPS_IS_26 : FIELD_IN_LOOP_IS_26;
        damaged = sheet;
        add_valid_field(dice, &damaged, id);
        move_last(&damaged, first + i);
        expect(class, 1, read_sheet(&damaged), passes ? 0 : in_group ? 10 : 26);
    }
}

/* The qualifier of one price, as told: 26 for all but NO, or all but LP and FP. */
static void qualify(struct dice *dice, size_t loops, size_t field, const char *qualifier)
{
    struct sheet sheet;
    size_t first = make_looped(dice, &sheet, loops) + below(dice, loops) * IN_LOOP;
    int net = field == 2;
    int right = net ? strcmp(qualifier, "NO") == 0
                    : strcmp(qualifier, "LP") == 0 || strcmp(qualifier, "FP") == 0;
    memcpy(sheet.contents + sheet.table[3 * (first + field) + 1], qualifier, IN_QUALIFIER);
    expect(right ? PRICES_QUALIFIED : net ? NET_OTHERWISE_IS_26 : LIST_OTHERWISE_IS_26, 1,
           read_sheet(&sheet), right ? 0 : 26);
}

static void qualify_prices(struct dice *dice)
{
    static const char *const qualifiers[] = {
        "NO", "LP", "FP", "NP", "LO", "FO", "ON", "PL", "PF", "NN", "OO", "MO", "NQ", "KP", "MP",
        "EP", "GP", "LQ", "FQ", "LA", "VP", "AA", "ZZ"
    };
    for (size_t i = 0; i < sizeof qualifiers / sizeof qualifiers[0]; i++)
        for (size_t field = 2; field <= 5; field += 3)
            qualify(dice, between(dice, 1, 8), field, qualifiers[i]);
    for (size_t i = 0; i < 10; i++) {
        char any[IN_QUALIFIER + 1] = {0};
        put_capitals(dice, (uint8_t *)any, IN_QUALIFIER);
        qualify(dice, between(dice, 1, 4), i % 2 ? 2 : 5, any);
    }
}

/* Nine loops: 27, also of 96 fields; 26 where something else is wrong with them; 8 of 97. */
static void read_nine(struct dice *dice)
{
    enum { NINE = IN_MOST_PARTS + 1 };
    struct sheet sheet, damaged;
    size_t first = make_looped(dice, &sheet, NINE);
    expect(NINE_PARTS_IS_27, 1, read_sheet(&sheet), 27);
    for (size_t more = 1; more <= IN_MOST_FIELDS - NINE * IN_LOOP + 1; more++) {
        damaged = sheet;
        for (size_t i = 0; i < more; i++) {
            add_field(&damaged, 7, (const uint8_t *)"", 0);
            move_last(&damaged, 0);
        }
        if (damaged.count > IN_MOST_FIELDS)
            expect(NINE_PARTS_AND_8, 1, read_sheet(&damaged), 8);
        else
            expect(NINE_PARTS_OF_96_IS_27, damaged.count == IN_MOST_FIELDS,
                   read_sheet(&damaged), 27);
    }
    damaged = sheet;
    add_valid_field(dice, &damaged, 9001);
    expect(NINE_PARTS_AND_FIELD_IS_26, 1, read_sheet(&damaged), 26);
    damaged = sheet;
    drop_fields(&damaged, sheet.count - 1, 1);
    expect(NINTH_PART_BROKEN_IS_26, 1, read_sheet(&damaged), 26);
    for (size_t i = 0; i < NINE; i++) {
        size_t field = first + i * IN_LOOP + (chance(dice, 2) ? 2 : 5);
        damaged = sheet;
        memcpy(damaged.contents + sheet.table[3 * field + 1], "VP", IN_QUALIFIER);
        expect(NINTH_PART_BROKEN_IS_26, i == NINE - 1, read_sheet(&damaged), 26);
    }
}

/* What has no parts to read, or too many, is booked as one article like any other. */
static void book_bundles(struct dice *dice)
{
    static const struct { size_t loops, more; uint64_t answer; enum class class; } bundles[] = {
        {0, 1, 26, BOOKED_THOUGH_26}, {2, 0, 0, BOOKED_WITH_PARTS}, {2, 1, 26, BOOKED_THOUGH_26},
        {9, 0, 27, BOOKED_THOUGH_27}
    };
    static struct shelf shelf;
    struct sheet sheet;
    uint8_t record[RECORD_ROOM], key[IN_TITLED];
    for (size_t i = 0; i < sizeof bundles / sizeof bundles[0]; i++) {
        make_shelf(dice, &shelf, 2, 2);
        make_line_key(dice, 0, key);
        make_fixed(dice, &sheet, GOODS_SHAPE, key, 3);
        sheet.fixed[IN_TAX_MARK] = '6';
        for (size_t j = 0; j < bundles[i].loops; j++) {
            make_part(dice, 0, parts);
            add_loop(&sheet, parts);
        }
        for (size_t j = 0; j < bundles[i].more; j++)
            add_valid_field(dice, &sheet, 9001);
        size_t length = assemble(&sheet, record);
        insist(read_parts(record, length) == bundles[i].answer, "26 and 27 are of parts");
        insist(book_one(dice, &shelf, ORDER_SHAPE, key, 5, NULL) == 0, "the bundle is ordered");
        expect(bundles[i].class, 1, book_listed(dice, record, length, &shelf), 0);
    }
}

/* Rooms of all sizes, before records of all answers. */
static void read_into_rooms(struct dice *dice)
{
    static const size_t rooms[] = {0, 1, IN_PART - 1, IN_PART, 2 * IN_PART, IN_FULL_PARTS - IN_PART,
                                   IN_FULL_PARTS - 1, IN_FULL_PARTS, IN_FULL_PARTS + 1,
                                   IN_FULL_PARTS + IN_PART, PARTS_ROOM};
    static const size_t loops[] = {1, 8, 0, 9, 2, 3};
    struct sheet sheet;
    uint8_t record[RECORD_ROOM];
    for (size_t i = 0; i < sizeof rooms / sizeof rooms[0]; i++)
        for (size_t j = 0; j < sizeof loops / sizeof loops[0]; j++) {
            make_looped(dice, &sheet, loops[j]);
            size_t length = assemble(&sheet, record);
            if (loops[j] == 2)
                record[below(dice, length)] = odd_byte(dice, 'x');
            if (loops[j] == 3)
                record[IN_TAX_MARK] = '1';
            uint64_t answer = both_parts(record, length, parts, rooms[i]);
            if (rooms[i] < IN_FULL_PARTS)
                expect(rooms[i] == 0 ? PARTS_ROOM_OF_NONE_IS_23 : PARTS_ROOM_SHORT_IS_23,
                       rooms[i] == 0 || rooms[i] == IN_FULL_PARTS - 1, answer, 23);
            else
                came_up(rooms[i] == IN_FULL_PARTS ? PARTS_ROOM_JUST_RIGHT : PARTS_ROOM_LARGER,
                        answer == 0 && loops[j] == 8);
            came_up(PARTS_ROOM_SHORT_OF_OTHERS_IS_23, answer == 23 && loops[j] == 3);
            came_up(PARTS_ROOM_SHORT_BEFORE_26, answer == 23 && loops[j] == 0);
            came_up(PARTS_ROOM_SHORT_BEFORE_27, answer == 23 && loops[j] == 9);
        }
}

/* A bundle cut at every length, with a byte damaged, taken out or put in at every place. */
static void damage_bundle(struct dice *dice, size_t loops)
{
    enum { VALUES = 3 };
    struct sheet sheet;
    uint8_t record[RECORD_ROOM], damaged[RECORD_ROOM];
    make_looped(dice, &sheet, loops);
    size_t length = assemble(&sheet, record);
    for (size_t place = 0; place < length; place++) {
        memcpy(damaged, record, length);
        both_parts(record, place, parts, IN_FULL_PARTS);
        for (size_t i = 0; i < VALUES; i++) {
            damaged[place] = odd_byte(dice, record[place]);
            both_parts(damaged, length, parts, IN_FULL_PARTS);
        }
        memmove(damaged + place, record + place + 1, length - place - 1);
        both_parts(damaged, length - 1, parts, IN_FULL_PARTS);
        memcpy(damaged + place + 1, record + place, length - place);
        damaged[place] = odd_byte(dice, record[place]);
        both_parts(damaged, length + 1, parts, IN_FULL_PARTS);
    }
    came_up(LOOPS_DAMAGED, 1);
}

/* Records that reading refuses, each answer by itself. */
static void read_refused(struct dice *dice)
{
    struct sheet sheet;
    uint8_t record[RECORD_ROOM];
    for (size_t i = 0; i < 12; i++) {
        make_looped(dice, &sheet, between(dice, 1, 3));
        if (i == 8)
            make_bundle_sheet(dice, &sheet, 0);
        while (i == 8 && sheet.count <= IN_MOST_FIELDS)
            add_field(&sheet, 7, (const uint8_t *)"", 0);
        if (i == 9)
            add_field(&sheet, 1019, (const uint8_t *)"3", 1);
        if (i == 10)
            add_valid_field(dice, &sheet, 1101);
        size_t length = assemble(&sheet, record);
        switch (i) {
        case 1: memset(record + length, 'c', IN_LONGEST); length += IN_LONGEST; break;
        case 2: record[0] = 'T'; break;
        case 3: length = between(dice, 4, 112); break;
        case 4: record[below(dice, length)] = 127; break;
        case 5: record[IN_TAX_MARK] = (uint8_t)"3457 "[below(dice, 5)]; break;
        case 6: record[length - 3] = 'x'; break;
        case 7: length -= 5; break;
        default: break;
        }
        uint64_t answer = read_parts(record, length);
        insist(i == 0 || i > 10 ? answer == 0 : answer == i || (i == 4 && answer == 2),
               "reading parts refuses what reading refuses");
    }
}

/* Every byte in an article that is read. */
static void read_article_bytes(struct dice *dice)
{
    struct sheet sheet;
    for (size_t byte = 0; byte < BYTES; byte++) {
        size_t first = make_looped(dice, &sheet, 2);
        const size_t *article = sheet.table + 3 * (first + IN_LOOP + 7);
        sheet.contents[article[1] + below(dice, article[2])] = (uint8_t)byte;
        int allowed = is_allowed((uint8_t)byte) && byte != '*';
        uint64_t answer = read_sheet(&sheet);
        insist((answer == 0) == allowed, "an article is of allowed bytes without a star");
        came_up(MARK_IN_ARTICLE, answer == 0 && is_typographic((uint8_t)byte));
    }
}

/* A room whose length is too small in its low two bytes alone. */
static void read_into_far_rooms(struct dice *dice)
{
    enum { TWO_BYTES = 65536 };
    static uint8_t room[TWO_BYTES + IN_FULL_PARTS];
    struct sheet sheet;
    uint8_t record[RECORD_ROOM];
    for (size_t loops = 1; loops <= IN_MOST_PARTS; loops++) {
        make_looped(dice, &sheet, loops);
        size_t length = assemble(&sheet, record);
        expect(PARTS_ROOM_OVER_65536, 1,
               both_parts(record, length, room, TWO_BYTES + below(dice, IN_FULL_PARTS)), 0);
    }
}

void compare_parts(struct dice *dice)
{
    for (size_t count = 1; count <= IN_MOST_PARTS; count++) {
        for (size_t i = 0; i < 6; i++)
            read_bundle(dice, count);
        read_without_mark(dice, count);
        read_without_loops(dice);
        read_behind_many(dice, count);
    }
    for (size_t loops = 1; loops <= 3; loops++) {
        drop_each_field(dice, loops);
        drop_each_unit(dice, loops);
        replace_each_unit(dice, loops);
        exchange_fields(dice, loops);
        exchange_units(dice, loops);
        put_field_in(dice, loops, chance(dice, 2) ? 8888 : 9001);
        put_field_in(dice, loops, IN_TAX_ID);
    }
    read_without_mark(dice, IN_MOST_PARTS + 1);
    qualify_prices(dice);
    read_nine(dice);
    book_bundles(dice);
    read_into_rooms(dice);
    read_refused(dice);
    damage_bundle(dice, 1 + below(dice, 2));
}

void compare_part_bytes(struct dice *dice)
{
    read_article_bytes(dice);
    read_into_far_rooms(dice);
}
