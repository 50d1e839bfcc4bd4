/* Cases for writing with parts: bundles that are right, every refusal and every two of them. */
#include "cases.h"

#include <string.h>

enum { BYTES = 256, HEAD = 5, TABLE_FIELDS = 3 };

static const uint64_t two_32 = (uint64_t)1 << 32;

/* The fields of a loop that a part's value can break, all but the qualifiers of its prices. */
static const size_t ruled_fields[] = {0, 1, 3, 4, 6, 7, 8, 9};
enum { RULED = sizeof ruled_fields / sizeof ruled_fields[0] };

static uint64_t write_bundle(const struct bundle *bundle)
{
    static uint8_t out[IN_LONGEST];
    return both_write_parts(bundle, out, sizeof out);
}

static uint8_t *part_of(struct bundle *bundle, size_t index)
{
    return bundle->parts + index * IN_PART;
}

/* What stands behind the articles is not looked at. */
static void scribble(struct dice *dice, struct bundle *bundle)
{
    for (size_t i = 0; i < bundle->count; i++) {
        uint8_t *part = part_of(bundle, i);
        for (size_t j = part[IN_PART_LENGTH]; j < IN_LONGEST_ARTICLE; j++)
            part[IN_PART_ARTICLE + j] = (uint8_t)(chance(dice, 4) ? '*' : roll(dice));
    }
}

/* A bundle is written as assembled, into outputs of all sizes near its own, and as writing it
   without parts from a table of all fields; its parts are read back. */
static void write_right(struct dice *dice, size_t count)
{
    static struct bundle bundle, scribbled;
    static uint8_t record[RECORD_ROOM], out[RECORD_ROOM], parts[IN_FULL_PARTS];
    make_bundle(dice, &bundle, count);
    size_t length = assemble_bundle(&bundle, record);
    scribbled = bundle;
    scribble(dice, &scribbled);
    for (size_t room = length - 2; room <= length + 2; room++)
        expect(room < length ? BUNDLE_OUT_SHORT_IS_23 : (enum class)(WRITTEN_OF_1_PART + count - 1),
               1, both_write_parts(&scribbled, out, room), room < length ? 23 : 0);
    insist(tally.value == length && memcmp(out, record, length) == 0,
           "a bundle is written as assembled");
    both_write_parts(&bundle, out, 0);
    both_write_parts(&bundle, out, RECORD_ROOM);
    expect(PARTS_READ_BACK, 1, both_parts(out, length, parts, sizeof parts), 0);
    insist(tally.value == count && memcmp(parts, bundle.parts, count * IN_PART) == 0,
           "the parts that are read are those that were written");
    insist(both_check(out, length, IN_FULL_TABLE) == 0
           && tally.value == bundle.sheet.count + count * IN_LOOP,
           "what is written has the table's fields and those of the parts");
    for (size_t i = 0; i < count; i++)
        add_loop(&bundle.sheet, part_of(&bundle, i));
    insist(both_write(&bundle.sheet, bundle.sheet.fixed_length, 3 * bundle.sheet.count,
                      bundle.sheet.contents_length, out, sizeof out) == 0
           && tally.value == length && memcmp(out, record, length) == 0,
           "a bundle is written from a table of all its fields alike");
}

/* Without parts a record that is no bundle is written as by wq_write, whatever is in it, and may
   have 1019; what else the room holds is not looked at. */
static void write_without_parts(struct dice *dice)
{
    static struct bundle bundle;
    uint8_t out[IN_LONGEST], other[IN_LONGEST];
    struct sheet *sheet = &bundle.sheet;
    make_sheet(dice, sheet, (enum shape)below(dice, SHAPES), 4);
    if (sheet->fixed[0] == 'L' && sheet->fixed[IN_TAX_MARK] == '6')
        sheet->fixed[IN_TAX_MARK] = '2';
    int listed = chance(dice, 2);
    if (listed)
        add_valid_field(dice, sheet, IN_TAX_ID);
    if (chance(dice, 3))
        sheet->fixed[below(dice, IN_TAX_MARK)] = odd_byte(dice, '0');
    if (chance(dice, 3))
        sheet->table[below(dice, 3 * sheet->count + 1)] = between(dice, 1000, 1200);
    bundle.table_length = 3 * sheet->count;
    bundle.parts_length = below(dice, PARTS_ROOM);
    bundle.count = 0;
    uint64_t answer = both_write(sheet, sheet->fixed_length, bundle.table_length,
                                 sheet->contents_length, other, sizeof other);
    uint64_t place = tally.place, length = tally.value;
    expect(WRITTEN_WITHOUT_PARTS, answer == 0, both_write_parts(&bundle, out, sizeof out),
           answer);
    insist(tally.place == place && tally.value == length
           && (answer != 0 || memcmp(out, other, (size_t)length) == 0),
           "without parts all is as in writing");
    came_up(TAX_FIELD_WITHOUT_PARTS, answer == 0 && listed);
}

/* A bundle to break: three fields that stand alone, behind which the table goes on with empty
   fields, and a content that no field has yet. */
static void make_breakable(struct dice *dice, struct bundle *bundle, size_t count)
{
    struct sheet *sheet = &bundle->sheet;
    make_bundle_sheet(dice, sheet, 0);
    add_field(sheet, 1003, (const uint8_t *)"ABC", 3);
    add_field(sheet, 8888, (const uint8_t *)"DE", 2);
    add_field(sheet, 1001, (const uint8_t *)"F", 1);
    while (sheet->count < SHEET_FIELDS)
        add_field(sheet, 7, (const uint8_t *)"", 0);
    memset(sheet->contents + sheet->contents_length, 'g', IN_LONGEST);
    sheet->contents_length += IN_LONGEST;
    sheet->count = TABLE_FIELDS;
    for (size_t i = 0; i < count; i++)
        make_part(dice, 20, part_of(bundle, i));
    bundle->table_length = 3 * TABLE_FIELDS;
    bundle->parts_length = count * IN_PART;
    bundle->count = count;
}

/* Breaks the value of one field of a part, one way or another. */
static void break_part(struct dice *dice, uint8_t *part, size_t field)
{
    uint8_t *price = part + (field < 4 ? IN_PART_NET : IN_PART_LIST);
    uint8_t *article = part + IN_PART_ARTICLE;
    switch (field) {
    case 0: part[0] = (uint8_t)"36 /\0\1"[below(dice, 6)]; break;
    case 1: case 4:
        if (chance(dice, 2))
            price[IN_PRICE_DIGITS] = (uint8_t)(chance(dice, 2) ? below(dice, 5)
                                                               : between(dice, 16, 255));
        else
            put_little(price, 8, power_of_ten(price[IN_PRICE_DIGITS]) + below(dice, 2));
        break;
    case 3: case 6:
        price[IN_PRICE_CURRENCY + below(dice, IN_CURRENCY)] = (uint8_t)"@[a1*\0"[below(dice, 6)];
        break;
    case 7:
        if (chance(dice, 2))
            part[IN_PART_LENGTH] = (uint8_t)(chance(dice, 2) ? 0 : between(dice, 36, 255));
        else
            article[below(dice, part[IN_PART_LENGTH])] = (uint8_t)"*\0\37\177\201"[below(dice, 5)];
        break;
    case 8:
        part[IN_PART_QUALIFIER + below(dice, IN_QUALIFIER)] = (uint8_t)"@[a1*\0"[below(dice, 6)];
        break;
    default: part[IN_PART_MEDIUM] = (uint8_t)(chance(dice, 2) ? 0 : between(dice, 3, 255));
    }
}

/* Faults of a bundle to write, in the order in which they are answered; at last those of the
   fields of the first part, of the last part, and of the whole. */
enum fault {
    COUNT_FAULT, ROOM_FAULT, MARK_FAULT, KIND_FAULT, SHORT_FAULT, LISTED_FAULT, NET_FAULT,
    LIST_FAULT, FIXED_FAULT, FIELDS_FAULT, TABLE_FAULT, CONTENT_FAULT, GROUP_FAULT,
    FIRST_PART_FAULTS, LAST_PART_FAULTS = FIRST_PART_FAULTS + RULED,
    LENGTH_FAULT = LAST_PART_FAULTS + RULED, OUTPUT_FAULT, FAULTS
};

static const struct { uint64_t answer, place; } told[] = {
    [COUNT_FAULT] = {27, 0}, [ROOM_FAULT] = {23, 0}, [MARK_FAULT] = {26, 0},
    [KIND_FAULT] = {26, 0}, [SHORT_FAULT] = {26, 0}, [LISTED_FAULT] = {26, 0},
    [NET_FAULT] = {26, 0}, [LIST_FAULT] = {26, 0}, [FIXED_FAULT] = {5, 5},
    [FIELDS_FAULT] = {8, IN_MOST_FIELDS}, [TABLE_FAULT] = {23, 0}, [CONTENT_FAULT] = {9, 0},
    [GROUP_FAULT] = {10, TABLE_FIELDS - 1}, [LENGTH_FAULT] = {1, 0}, [OUTPUT_FAULT] = {23, 0}
};

/* Puts a fault in. Those of the counts look at the bundle as it is then. */
static void put_fault(struct dice *dice, struct bundle *bundle, size_t fault, size_t *room)
{
    struct sheet *sheet = &bundle->sheet;
    size_t lent = bundle->parts_length / IN_PART, any = below(dice, lent);
    switch (fault) {
    case COUNT_FAULT: bundle->count = IN_MOST_PARTS + 1 + below(dice, 3); break;
    case ROOM_FAULT: bundle->parts_length -= 1 + below(dice, IN_PART); break;
    case MARK_FAULT: sheet->fixed[IN_TAX_MARK] = (uint8_t)"0125 "[below(dice, 5)]; break;
    case KIND_FAULT: memcpy(sheet->fixed, chance(dice, 2) ? "B101" : "L102", 4); break;
    case SHORT_FAULT: sheet->fixed_length = IN_TAX_MARK; break;
    case LISTED_FAULT: sheet->table[3] = IN_TAX_ID; break;
    case NET_FAULT: part_of(bundle, any)[IN_PART_NET + IN_PRICE_QUALIFIER] = 'L'; break;
    case LIST_FAULT: part_of(bundle, any)[IN_PART_LIST + IN_PRICE_QUALIFIER] = 'N'; break;
    case FIXED_FAULT: sheet->fixed[IN_DELIVERY_DATE] = 'x'; break;
    case FIELDS_FAULT:
        sheet->count = IN_MOST_FIELDS - lent * IN_LOOP + 1;
        bundle->table_length = 3 * SHEET_FIELDS;
        break;
    case TABLE_FAULT: bundle->table_length = 3 * sheet->count - 1 - below(dice, 3); break;
    case CONTENT_FAULT: sheet->table[0] = chance(dice, 2) ? 9999 : 1151; break;
    case GROUP_FAULT: sheet->table[3 * (TABLE_FIELDS - 1)] = chance(dice, 2) ? 1101 : 1017; break;
    case LENGTH_FAULT:
        sheet->table[4] = sheet->contents_length - IN_LONGEST;
        sheet->table[5] = IN_LONGEST;
        break;
    case OUTPUT_FAULT: *room = below(dice, 200); break;
    default: {
        size_t which = fault - FIRST_PART_FAULTS;
        break_part(dice, part_of(bundle, which < RULED ? 0 : lent - 1),
                   ruled_fields[which % RULED]);
    }
    }
}

/* The place of a fault in a part. */
static uint64_t place_in_parts(size_t fault, size_t count)
{
    size_t which = fault - FIRST_PART_FAULTS;
    return TABLE_FIELDS + (which < RULED ? 0 : count - 1) * IN_LOOP + ruled_fields[which % RULED];
}

static int is_part_fault(size_t fault)
{
    return fault >= FIRST_PART_FAULTS && fault < LENGTH_FAULT;
}

/* One fault, or two at once: the one that stands first is answered. */
static void write_faulty(struct dice *dice, size_t first, size_t second)
{
    static struct bundle bundle;
    static uint8_t out[IN_LONGEST];
    size_t count = between(dice, 2, 4), room = sizeof out;
    make_breakable(dice, &bundle, count);
    put_fault(dice, &bundle, first, &room);
    if (second != first)
        put_fault(dice, &bundle, second, &room);
    uint64_t answer = both_write_parts(&bundle, out, room);
    uint64_t wanted = is_part_fault(first) ? 9 : told[first].answer;
    expect(second == first ? ONE_FAULT_TO_WRITE : TWO_FAULTS_TO_WRITE, 1, answer, wanted);
    insist(tally.place == (is_part_fault(first) ? place_in_parts(first, count)
                                                : told[first].place),
           "a fault in writing has its place");
    came_up(TABLE_SHORT_WITH_PARTS_IS_23, first == TABLE_FAULT);
    if (is_part_fault(first))
        came_up((enum class)(PART_TAX_IS_9 + (first - FIRST_PART_FAULTS) % RULED), 1);
}

static void write_faults(struct dice *dice)
{
    for (size_t first = 0; first < FAULTS; first++)
        for (size_t second = first; second < FAULTS; second++)
            write_faulty(dice, first, second);
}

/* Each field of each of eight parts broken. */
static void break_each_part(struct dice *dice)
{
    static struct bundle right, bundle;
    make_bundle(dice, &right, IN_MOST_PARTS);
    for (size_t i = 0; i < IN_MOST_PARTS * RULED; i++) {
        size_t index = i / RULED, field = ruled_fields[i % RULED];
        bundle = right;
        break_part(dice, part_of(&bundle, index), field);
        expect(EIGHTH_PART_IS_9, index == IN_MOST_PARTS - 1, write_bundle(&bundle), 9);
        insist(tally.place == right.sheet.count + index * IN_LOOP + field,
               "9 stands at the field of its part");
        bundle.parts_length = PARTS_ROOM;
        bundle.count = index;
        if (index > 0)
            expect(PARTS_PAST_COUNT, 1, write_bundle(&bundle), 0);
    }
}

/* Counts of parts over eight, and far over, with room for all or for none. */
static void write_counts(struct dice *dice)
{
    const size_t counts[] = {9, 10, 16, 255, 256, 256 + 2, 65536, 65536 + 2, two_32, two_32 + 2,
                             SIZE_MAX, SIZE_MAX / 2 + 2, SIZE_MAX / IN_PART + 2, SIZE_MAX - 1};
    static struct bundle bundle;
    for (size_t i = 0; i < sizeof counts / sizeof counts[0]; i++) {
        make_breakable(dice, &bundle, 2);
        bundle.count = counts[i];
        bundle.parts_length = chance(dice, 2) ? 2 * IN_PART : below(dice, PARTS_ROOM);
        if (chance(dice, 3))
            bundle.sheet.fixed[below(dice, 108)] = '1';
        expect(counts[i] < two_32 ? COUNT_OVER_8_IS_27 : COUNT_OVER_2_32_IS_27, 1,
               write_bundle(&bundle), 27);
    }
}

/* Room for parts of all sizes near their count. */
static void write_from_rooms(struct dice *dice)
{
    static struct bundle bundle;
    for (size_t count = 1; count <= IN_MOST_PARTS; count++) {
        const size_t rooms[] = {0, count * IN_PART - IN_PART, count * IN_PART - 1,
                                count * IN_PART, count * IN_PART + 1, PARTS_ROOM};
        for (size_t i = 0; i < sizeof rooms / sizeof rooms[0]; i++) {
            make_bundle(dice, &bundle, count);
            bundle.parts_length = rooms[i];
            if (rooms[i] < count * IN_PART)
                expect(PARTS_SHORT_IS_23, 1, write_bundle(&bundle), 23);
            else
                expect(PARTS_ROOM_RAGGED, rooms[i] % IN_PART != 0, write_bundle(&bundle), 0);
        }
    }
}

/* Mark 6 and no parts, though the room has some; parts and another kind. */
static void write_unmarked(struct dice *dice)
{
    static struct bundle bundle;
    for (size_t i = 0; i < 4; i++) {
        make_breakable(dice, &bundle, 2);
        bundle.count = 0;
        if (chance(dice, 2))
            bundle.sheet.fixed[IN_DELIVERY_DATE] = 'x';
        expect(NONE_TO_WRITE_IS_26, 1, write_bundle(&bundle), 26);
    }
    for (size_t shape = 0; shape < SHAPES; shape++) {
        make_breakable(dice, &bundle, 1);
        make_sheet(dice, &bundle.sheet, (enum shape)shape, 0);
        memset(bundle.sheet.fixed + bundle.sheet.fixed_length, '6',
               sizeof bundle.sheet.fixed - bundle.sheet.fixed_length);
        if (shape == GOODS_SHAPE || shape == ADVANCE_SHAPE)
            bundle.sheet.fixed[IN_TAX_MARK] = '1';
        else if (chance(dice, 2))
            bundle.sheet.fixed_length = 108;
        bundle.table_length = 0;
        expect(PARTS_WITHOUT_MARK_IS_26, 1, write_bundle(&bundle), 26);
    }
}

/* The fixed part of a bundle damaged at every byte, and of every length: 26 where it is then no
   bundle's, else 5; without parts the other way round. */
static void write_bad_fixed(struct dice *dice)
{
    static struct bundle right, bundle;
    make_breakable(dice, &right, 2);
    for (size_t place = 0; place < right.sheet.fixed_length; place++)
        for (size_t i = 0; i < 2; i++) {
            uint8_t *byte = &bundle.sheet.fixed[place];
            bundle = right;
            *byte = odd_byte(dice, *byte);
            int told_by = place < 4 || place == IN_TAX_MARK;
            uint64_t answer = write_bundle(&bundle);
            insist(*byte == right.sheet.fixed[place] ? answer == 0
                   : told_by ? answer == 26 : answer == 0 || answer == 5,
                   "26 asks the kind and the mark of a fixed part");
            came_up(FIXED_OF_BUNDLE_IS_5, answer == 5);
        }
    memset(right.sheet.fixed + right.sheet.fixed_length, '6',
           sizeof right.sheet.fixed - right.sheet.fixed_length);
    for (size_t length = 0; length <= sizeof right.sheet.fixed; length++) {
        right.sheet.fixed_length = length;
        uint64_t wanted = length <= IN_TAX_MARK ? 26 : length == 108 ? 0 : 5;
        expect(length <= IN_TAX_MARK ? FIXED_SHORT_IS_26 : FIXED_LONG_IS_5, length != 108,
               write_bundle(&right), wanted);
        insist(tally.place == 0, "a fixed part of wrong length is wrong at 0");
        bundle = right;
        bundle.count = 0;
        expect(length <= IN_TAX_MARK ? FIXED_SHORT_IS_5 : FIXED_LONG_IS_26, length != 108,
               write_bundle(&bundle), length <= IN_TAX_MARK ? 5 : 26);
    }
}

/* 1019 in the table at every index: 26 where its entry is of the first `fields` and whole. */
static void write_listed(struct dice *dice)
{
    static struct bundle right, bundle;
    make_breakable(dice, &right, 2);
    for (size_t index = 0; index < SHEET_FIELDS; index++) {
        size_t fields[] = {index, index + 1, index + 2, SIZE_MAX, two_32 + index};
        for (size_t i = 0; i < sizeof fields / sizeof fields[0]; i++) {
            size_t lent = 3 * (index + 1) - (chance(dice, 3) ? 0 : below(dice, 4));
            bundle = right;
            bundle.sheet.table[3 * index] = IN_TAX_ID;
            bundle.sheet.count = fields[i];
            bundle.table_length = lent;
            int counted = fields[i] > index, whole = lent == 3 * (index + 1);
            uint64_t answer = write_bundle(&bundle);
            insist((answer == 26) == (counted && whole), "1019 is 26 in an entry that is there");
            came_up(LISTED_IS_26, counted && whole && fields[i] == index + 1);
            came_up(LISTED_IN_SHORT_TABLE_IS_26, counted && whole && fields[i] == index + 2);
            came_up(LISTED_FROM_96_ON_IS_26, counted && whole && index >= IN_MOST_FIELDS);
            came_up(LISTED_WITH_FAR_COUNT_IS_26, counted && whole && fields[i] >= two_32);
            came_up(LISTED_IN_PART_IS_23, counted && !whole && answer == 23);
            came_up(LISTED_PAST_COUNT, !counted && answer == 0);
            came_up(FAR_COUNT_IS_8, fields[i] >= two_32 && answer == 8);
        }
    }
}

/* 1019 as a place or a length of the table, and as the low bytes of an ID: no 26. */
static void write_nearly_listed(struct dice *dice)
{
    static struct bundle bundle;
    for (size_t i = 0; i < 6; i++) {
        make_breakable(dice, &bundle, 2);
        size_t *entry = bundle.sheet.table + 3 * below(dice, TABLE_FIELDS);
        switch (i) {
        case 0: entry[0] = two_32 + IN_TAX_ID; break;
        case 1: entry[0] = 65536 + IN_TAX_ID; break;
        case 2: entry[0] = IN_TAX_ID + 10000; break;
        case 3: entry[0] = chance(dice, 2) ? 1018 : 1020; break;
        case 4: entry[2] = IN_TAX_ID; break;
        default:
            memset(bundle.sheet.contents + IN_TAX_ID, 'h', 1);
            entry[1] = IN_TAX_ID;
            entry[2] = 1;
        }
        uint64_t answer = write_bundle(&bundle);
        insist(answer != 26, "only an ID of 1019 is 26");
        came_up(NEARLY_1019, answer == 0 || answer == 9);
    }
}

/* Fields of the table and of the parts, 96 and 97 together; far counts of fields. */
static void write_together(struct dice *dice)
{
    static struct bundle bundle;
    for (size_t count = 1; count <= IN_MOST_PARTS; count++) {
        size_t most = IN_MOST_FIELDS - count * IN_LOOP;
        const size_t fields[] = {most - 1, most, most + 1, most + 2, IN_MOST_FIELDS,
                                 IN_MOST_FIELDS + 1, SIZE_MAX, SIZE_MAX - count * IN_LOOP + 1,
                                 SIZE_MAX / 3 + 2, two_32, two_32 + 1};
        for (size_t i = 0; i < sizeof fields / sizeof fields[0]; i++) {
            make_breakable(dice, &bundle, 1);
            for (size_t j = 0; j < count; j++)
                make_part(dice, 0, part_of(&bundle, j));
            bundle.parts_length = count * IN_PART;
            bundle.count = count;
            bundle.sheet.count = fields[i];
            bundle.table_length = chance(dice, 4) ? below(dice, 3 * SHEET_FIELDS)
                                                  : 3 * SHEET_FIELDS;
            uint64_t answer = write_bundle(&bundle);
            insist((answer == 8) == (fields[i] > most), "8 counts all fields together");
            insist(answer != 8 || tally.place == IN_MOST_FIELDS, "8 stands at 96");
            came_up(TOGETHER_96, fields[i] == most && answer == 0);
            came_up(TOGETHER_97_IS_8, fields[i] == most + 1 && answer == 8);
        }
    }
}

/* A group that the parts would follow is broken at the last field of the table, also where the
   table goes on behind the count with the missing member. */
static void break_last_group(struct dice *dice)
{
    static struct bundle bundle;
    struct sheet *sheet = &bundle.sheet;
    for (size_t i = 0; i < listed_count; i++) {
        size_t id = listed_ids[i], next = group_next(id), previous = group_previous(id);
        if (next == 0)
            continue;
        make_bundle(dice, &bundle, between(dice, 1, 4));
        size_t before = sheet->count;
        if (previous != 0)
            add_valid_field(dice, sheet, previous);
        add_valid_field(dice, sheet, id);
        add_valid_field(dice, sheet, next);
        bundle.table_length = 3 * sheet->count;
        expect(GROUP_BEFORE_PARTS, group_next(next) == 0, write_bundle(&bundle),
               group_next(next) == 0 ? 0 : 10);
        sheet->count--;
        size_t last = sheet->count - 1;
        for (size_t lent = 3 * sheet->count; lent <= 3 * sheet->count + 3; lent += 3) {
            bundle.table_length = lent;
            expect(GROUP_BEFORE_PARTS_IS_10, 1, write_bundle(&bundle), 10);
            insist(tally.place == last, "10 stands at the last field before the parts");
        }
        sheet->count = before;
        bundle.table_length = 3 * before;
        insist(write_bundle(&bundle) == 0, "without that group the bundle is right");
    }
}

/* Whole bundles around 1,024 bytes. */
static void write_length_limit(struct dice *dice)
{
    static struct bundle bundle;
    static uint8_t record[RECORD_ROOM], out[RECORD_ROOM];
    uint8_t content[IN_LONGEST];
    memset(content, 'c', sizeof content);
    for (size_t wanted = 1021; wanted <= 1027; wanted++)
        for (size_t count = 1; count <= IN_MOST_PARTS; count++) {
            make_bundle(dice, &bundle, count);
            size_t length = assemble_bundle(&bundle, record);
            add_field(&bundle.sheet, 8888, content, wanted - length - HEAD);
            bundle.table_length += 3;
            insist(assemble_bundle(&bundle, record) == wanted, "a bundle has the wanted length");
            uint64_t answer = both_write_parts(&bundle, out, 2000);
            insist(answer == (wanted > IN_LONGEST ? 1 : 0), "a bundle has 1,024 bytes at most");
            insist(answer != 0 || memcmp(out, record, wanted) == 0, "a long bundle is written");
            came_up(BUNDLE_OF_1024, wanted == IN_LONGEST);
            came_up(BUNDLE_OF_1025_IS_1, wanted == IN_LONGEST + 1);
            both_write_parts(&bundle, out, wanted - 1);
        }
}

/* Any bytes of the parts, the table and the contents damaged. */
static void spoil_bundle(struct dice *dice)
{
    const size_t numbers[] = {SIZE_MAX, SIZE_MAX - 2, two_32, two_32 + 1003, 9999, 1019, 1101, 0,
                              1};
    static struct bundle right, bundle;
    make_bundle(dice, &right, between(dice, 1, IN_MOST_PARTS));
    struct sheet *sheet = &bundle.sheet;
    for (size_t i = 0; i < 150; i++) {
        bundle = right;
        for (size_t faults = between(dice, 1, 2); faults > 0; faults--) {
            uint8_t *byte = &bundle.parts[below(dice, right.parts_length)];
            switch (below(dice, 5)) {
            case 0:
                if (sheet->count > 0)
                    sheet->table[below(dice, 3 * sheet->count)] = numbers[below(dice, 9)];
                break;
            case 1: sheet->contents_length -= below(dice, sheet->contents_length + 1); break;
            default: *byte = odd_byte(dice, *byte);
            }
        }
        write_bundle(&bundle);
    }
}

/* Every value of one byte of a part, at this place. */
static void sweep_byte(struct dice *dice, size_t place, enum class class)
{
    static struct bundle bundle;
    size_t count = between(dice, 1, IN_MOST_PARTS);
    make_bundle(dice, &bundle, count);
    uint8_t *byte = part_of(&bundle, below(dice, count)) + place;
    for (size_t value = 0; value < BYTES; value++) {
        *byte = (uint8_t)value;
        write_bundle(&bundle);
    }
    came_up(class, 1);
}

/* Every byte of a price but for its amount. */
static void sweep_price(struct dice *dice, size_t price)
{
    sweep_byte(dice, price + IN_PRICE_DIGITS, EVERY_NUMBER_OF_DIGITS);
    for (size_t i = 0; i < IN_QUALIFIER; i++)
        sweep_byte(dice, price + IN_PRICE_QUALIFIER + i, EVERY_QUALIFIER_BYTE);
    for (size_t i = 0; i < IN_CURRENCY; i++)
        sweep_byte(dice, price + IN_PRICE_CURRENCY + i, EVERY_CURRENCY_BYTE);
}

static void sweep_bytes(struct dice *dice)
{
    sweep_byte(dice, 0, EVERY_TAX_BYTE);
    sweep_byte(dice, IN_PART_MEDIUM, EVERY_MEDIUM_BYTE);
    sweep_price(dice, IN_PART_NET);
    sweep_price(dice, IN_PART_LIST);
    sweep_byte(dice, IN_PART_LENGTH, EVERY_ARTICLE_LENGTH);
    sweep_byte(dice, IN_PART_ARTICLE, EVERY_ARTICLE_BYTE);
    for (size_t i = 0; i < IN_QUALIFIER; i++)
        sweep_byte(dice, IN_PART_QUALIFIER + i, EVERY_ARTICLE_QUALIFIER_BYTE);
}

/* An amount for a number of digits: 9 from 10 to that power on. */
static void write_amount(struct dice *dice, size_t digits, uint64_t amount)
{
    static struct bundle bundle;
    size_t count = between(dice, 1, 3), net = below(dice, 2);
    make_breakable(dice, &bundle, count);
    uint8_t *price = part_of(&bundle, count - 1) + (net ? IN_PART_NET : IN_PART_LIST);
    put_little(price, 8, amount);
    price[IN_PRICE_DIGITS] = (uint8_t)digits;
    uint64_t bound = power_of_ten(digits);
    int right = amount < bound;
    uint64_t answer = write_bundle(&bundle);
    insist(answer == (right ? 0 : 9), "an amount has no more digits than it is written with");
    insist(right || tally.place == TABLE_FIELDS + (count - 1) * IN_LOOP + (net ? 1 : 4),
           "9 stands at the amount");
    came_up(AMOUNT_OF_NINES, amount == bound - 1);
    came_up(AMOUNT_ONE_OVER_IS_9, amount == bound);
    came_up(AMOUNT_OVER_2_63_IS_9, amount >> 63 != 0);
}

static void write_amounts(struct dice *dice)
{
    for (size_t digits = IN_LEAST_DIGITS; digits <= IN_MOST_DIGITS; digits++) {
        uint64_t bound = power_of_ten(digits);
        const uint64_t amounts[] = {0, 1, bound / 10 - 1, bound / 10, bound - 1, bound, bound + 1,
                                    bound * 10, two_32, two_32 + 7, (uint64_t)1 << 63,
                                    UINT64_MAX, UINT64_MAX - bound, roll(dice), roll(dice) % bound,
                                    bound + two_32, bound | (uint64_t)1 << 56};
        for (size_t i = 0; i < sizeof amounts / sizeof amounts[0]; i++)
            write_amount(dice, digits, amounts[i]);
    }
}

/* Numbers of digits and articles of every length, at their ends and past them. */
static void write_lengths(struct dice *dice)
{
    static struct bundle bundle;
    for (size_t length = 0; length <= IN_LONGEST_ARTICLE + 1; length++) {
        make_breakable(dice, &bundle, 2);
        uint8_t *part = part_of(&bundle, 1);
        memset(part + IN_PART_ARTICLE, '-', IN_LONGEST_ARTICLE);
        part[IN_PART_LENGTH] = (uint8_t)length;
        if (length < IN_LONGEST_ARTICLE)
            part[IN_PART_ARTICLE + length] = '*';
        int right = length > 0 && length <= IN_LONGEST_ARTICLE;
        expect(right ? STAR_BEHIND_ARTICLE : ARTICLE_LENGTH_IS_9, 1, write_bundle(&bundle),
               right ? 0 : 9);
        if (!right)
            continue;
        part[IN_PART_ARTICLE + length - 1] = '*';
        expect(STAR_IN_ARTICLE_IS_9, 1, write_bundle(&bundle), 9);
        part[IN_PART_ARTICLE + length - 1] = 129;
        expect(BYTE_IN_ARTICLE_IS_9, 1, write_bundle(&bundle), 9);
    }
    for (size_t digits = 0; digits <= 20; digits++) {
        make_breakable(dice, &bundle, 1);
        put_little(bundle.parts + IN_PART_LIST, 8, 0);
        bundle.parts[IN_PART_LIST + IN_PRICE_DIGITS] = (uint8_t)digits;
        int right = digits >= IN_LEAST_DIGITS && digits <= IN_MOST_DIGITS;
        expect(right ? NUMBER_OF_DIGITS : NUMBER_OF_DIGITS_IS_9, 1, write_bundle(&bundle),
               right ? 0 : 9);
    }
}

/* An output whose length is too small in its low two bytes alone. */
static void write_into_far_output(struct dice *dice)
{
    enum { TWO_BYTES = 65536 };
    static struct bundle bundle;
    static uint8_t out[TWO_BYTES + IN_LONGEST];
    for (size_t count = 1; count <= IN_MOST_PARTS; count++) {
        make_bundle(dice, &bundle, count);
        expect(BUNDLE_OUT_OVER_65536, 1,
               both_write_parts(&bundle, out, TWO_BYTES + below(dice, 100)), 0);
    }
}

void compare_written_parts(struct dice *dice)
{
    for (size_t count = 1; count <= IN_MOST_PARTS; count++)
        for (size_t i = 0; i < 3; i++)
            write_right(dice, count);
    for (size_t i = 0; i < 30; i++)
        write_without_parts(dice);
    write_faults(dice);
    break_each_part(dice);
    write_counts(dice);
    write_from_rooms(dice);
    write_unmarked(dice);
    write_nearly_listed(dice);
    write_together(dice);
    break_last_group(dice);
    write_length_limit(dice);
    spoil_bundle(dice);
    write_amounts(dice);
    write_lengths(dice);
}

void compare_written_bytes(struct dice *dice)
{
    write_bad_fixed(dice);
    write_listed(dice);
    sweep_bytes(dice);
    write_into_far_output(dice);
}
