/* Cases for check: valid records, every damage, every limit. */
#include "cases.h"

#include <string.h>

enum { SHAPE_FIELDS = 17 };

static uint64_t check(const uint8_t *record, size_t length)
{
    return both_check(record, length, IN_FULL_TABLE);
}

static uint64_t check_sheet(const struct sheet *sheet)
{
    uint8_t record[RECORD_ROOM];
    return check(record, assemble(sheet, record));
}

/* A record cut at every length, with a byte damaged, taken out or put in at every place. */
static void damage_record(struct dice *dice, enum shape shape)
{
    enum { VALUES = 5 };
    struct sheet sheet;
    uint8_t record[RECORD_ROOM], damaged[RECORD_ROOM];
    make_sheet(dice, &sheet, shape, 6);
    size_t length = assemble(&sheet, record);
    insist(length > IN_LONGEST || check(record, length) == 0, "a generated record is valid");
    for (size_t place = 0; place < length; place++) {
        memcpy(damaged, record, length);
        check(record, place);
        for (size_t i = 0; i < VALUES; i++) {
            damaged[place] = odd_byte(dice, record[place]);
            check(damaged, length);
        }
        memmove(damaged + place, record + place + 1, length - place - 1);
        check(damaged, length - 1);
        memcpy(damaged + place + 1, record + place, length - place);
        damaged[place] = odd_byte(dice, record[place]);
        check(damaged, length + 1);
    }
}

/* Kinds that are cut are none, whatever stands behind them. */
static void cut_kinds(void)
{
    static const char *const kinds[] = {"B101", "L101", "M101"};
    for (size_t i = 0; i < sizeof kinds / sizeof kinds[0]; i++)
        for (size_t length = 0; length < strlen(kinds[i]); length++)
            for (size_t j = 0; j < EVERY_GUARD; j++)
                insist(check((const uint8_t *)kinds[i], length) == 2, "a kind has four bytes");
}

/* Each fixed field filled with one byte, from its start or from its second byte on. */
static void fill_fields(struct dice *dice, enum shape shape)
{
    static const size_t widths[][SHAPE_FIELDS] = {
        [ORDER_SHAPE] = {4, 10, 2, 10, 2, 8, 10, 13, 2, 4, 2},
        [GOODS_SHAPE] = {4, 10, 2, 10, 2, 8, 10, 4, 10, 13, 2, 4, 15, 2, 3, 8, 1},
        [ADVANCE_SHAPE] = {4, 10, 2, 10, 2, 8, 10, 4, 10, 13, 2, 4, 15, 2, 3, 8, 1},
        [CLOSING_SHAPE] = {4, 10, 2, 10, 2, 8, 10, 4, 10, 13, 2, 4, 15, 2, 3, 8, 1},
        [REPORT_SHAPE] = {4, 10, 2, 10, 2, 10, 10, 13, 2, 3, 1, 8, 4}
    };
    static const char bytes[] = " 09AJX";
    struct sheet sheet;
    size_t place = 0;
    for (size_t i = 0; i < SHAPE_FIELDS; place += widths[shape][i++])
        for (size_t j = 0; j < 2 * (sizeof bytes - 1) && widths[shape][i] > 0; j++) {
            make_sheet(dice, &sheet, shape, 1);
            memset(sheet.fixed + place + j % 2, bytes[j / 2], widths[shape][i] - j % 2);
            check_sheet(&sheet);
        }
}

/* Two faults at once show the order of the answers. */
static void damage_twice(struct dice *dice)
{
    struct sheet sheet;
    uint8_t record[RECORD_ROOM], damaged[RECORD_ROOM];
    make_sheet(dice, &sheet, (enum shape)below(dice, SHAPES), 6);
    size_t length = assemble(&sheet, record);
    for (size_t i = 0; i < 100; i++) {
        memcpy(damaged, record, length);
        for (size_t faults = between(dice, 2, 3); faults > 0; faults--) {
            size_t place = below(dice, length);
            damaged[place] = odd_byte(dice, damaged[place]);
        }
        check(damaged, chance(dice, 9) ? below(dice, length) : length);
    }
}

/* Bytes without sense, and valid fixed parts followed by little sense. */
static void check_nonsense(struct dice *dice)
{
    static const char few[] = "**1029901X9 J";
    static const char *const kinds[] = {"B101", "L101", "M101", "T101", "b101", "B102"};
    struct sheet sheet;
    uint8_t record[RECORD_ROOM];
    for (size_t i = 0; i < 300; i++) {
        size_t length = below(dice, chance(dice, 10) ? 2000 : 200);
        for (size_t j = 0; j < length; j++)
            record[j] = (uint8_t)(chance(dice, 2) ? roll(dice) : between(dice, 32, 90));
        if (length >= 4 && chance(dice, 2))
            memcpy(record, kinds[below(dice, 6)], 4);
        check(record, length);
    }
    make_sheet(dice, &sheet, (enum shape)below(dice, SHAPES), 2);
    for (size_t i = 0; i < 500; i++) {
        size_t length = assemble(&sheet, record) - (chance(dice, 2) ? 5 : 0);
        for (size_t more = below(dice, 20); more > 0; more--)
            record[length++] = (uint8_t)few[below(dice, sizeof few - 1)];
        if (chance(dice, 2)) {
            memcpy(record + length, "*9999", 5);
            length += 5;
        }
        check(record, length);
    }
}

/* A content of each class, for each listed ID and its neighbours, at every length. */
static void fill_content(struct dice *dice, size_t class, uint8_t *content, size_t length)
{
    static const char few[] = "0123JNUPHYDIGX?'+: ";
    for (size_t i = 0; i < length; i++)
        switch (class) {
        case 0: content[i] = (uint8_t)between(dice, '0', '9'); break;
        case 1: content[i] = (uint8_t)between(dice, 'A', 'Z'); break;
        case 2: content[i] = (uint8_t)few[below(dice, sizeof few - 1)]; break;
        default:
            content[i] = (uint8_t)(chance(dice, 3) ? high_byte(dice) : between(dice, 43, 126));
        }
}

static void check_contents(struct dice *dice)
{
    enum { LONGEST_CONTENT = 43, CLASSES = 4 };
    struct sheet sheet;
    uint8_t content[LONGEST_CONTENT];
    for (size_t i = 0; i < listed_count; i++)
        for (size_t length = 0; length < LONGEST_CONTENT; length++)
            for (size_t class = 0; class < CLASSES; class++) {
                size_t id = listed_ids[i];
                if (length > 16 && class > 0 && chance(dice, 2))
                    continue;
                if (chance(dice, 10))
                    id = chance(dice, 2) ? id + 1 : id - 1;
                make_sheet(dice, &sheet, (enum shape)below(dice, SHAPES), 1);
                fill_content(dice, class, content, length);
                add_with_group(dice, &sheet, id, content, length);
                check_sheet(&sheet);
            }
}

/* The bytes barred in a B101, in its reference and four of its fields; not elsewhere. */
static void check_barred(struct dice *dice)
{
    static const char barred[] = "*+:?'";
    static const size_t ids[] = {1001, 1003, 1051, 9010, 1017, 1101, 1009, 9001, 4711};
    struct sheet sheet;
    for (size_t shape = 0; shape < SHAPES; shape++)
        for (size_t i = 0; i < 5; i++) {
            uint8_t content[3] = {'a', 'b', 'c'};
            size_t reference = shape == ORDER_SHAPE ? 36 : shape == REPORT_SHAPE ? 38 : 50;
            make_sheet(dice, &sheet, (enum shape)shape, 1);
            sheet.fixed[reference] = 'R';
            sheet.fixed[reference + below(dice, 10)] = (uint8_t)barred[i];
            check_sheet(&sheet);
            for (size_t j = 0; j < sizeof ids / sizeof ids[0]; j++) {
                size_t length = ids[j] == 9001 ? 1 : 3;
                make_sheet(dice, &sheet, (enum shape)shape, 1);
                memcpy(content, "abc", 3);
                content[below(dice, length)] = (uint8_t)barred[i];
                add_with_group(dice, &sheet, ids[j], content, length);
                check_sheet(&sheet);
            }
        }
}

/* 1203: every number of one to three digits, and with a zero before them. */
static void check_days_to_pay(struct dice *dice)
{
    struct sheet sheet;
    for (size_t width = 1, bound = 10; width <= 4; width++, bound *= width < 4 ? 10 : 1)
        for (size_t days = 0; days < bound; days++) {
            uint8_t content[4];
            put_digits(content, width, days);
            make_sheet(dice, &sheet, REPORT_SHAPE, 0);
            add_with_group(dice, &sheet, 1203, content, width);
            check_sheet(&sheet);
        }
}

static void check_day(struct dice *dice, size_t year, size_t month, size_t day)
{
    struct sheet sheet;
    uint8_t date[8];
    put_digits(date, 4, year);
    put_digits(date + 4, 2, month);
    put_digits(date + 6, 2, day);
    size_t where = below(dice, 4);
    make_sheet(dice, &sheet, where == 0 ? ORDER_SHAPE : where == 1 ? GOODS_SHAPE
                           : REPORT_SHAPE, 0);
    if (where < 3)
        memcpy(sheet.fixed + (where == 2 ? 67 : 28), date, 8);
    else
        add_with_group(dice, &sheet, 1201, date, 8);
    check_sheet(&sheet);
}

/* The ends of every month in the years where rules meet. */
static void check_days(struct dice *dice)
{
    static const size_t years[] = {0, 1, 4, 100, 200, 400, 1582, 1600, 1700, 1900, 2000,
                                   2023, 2024, 2100, 2400, 9900, 9996, 9999};
    static const size_t days[] = {0, 1, 28, 29, 30, 31, 32, 99};
    for (size_t i = 0; i < 22; i++) {
        size_t year = i < 18 ? years[i] : below(dice, 10000);
        for (size_t month = 0; month <= 13; month++)
            for (size_t j = 0; j < 8; j++)
                check_day(dice, year, month, days[j]);
    }
}

/* Articles of all qualifiers, right and with a character or two changed, now and then before
   another qualifier, or before one that has a byte of a right one. */
static void check_articles(struct dice *dice)
{
    static const char few[] = "0123456789Xx A";
    static const char *const qualifiers[] = {"EN", "IB", "KN", "UM", "RK", "  ", "XX", "EX",
                                             "IX", "KX", "UX", "RX", "XN", "XB", "XM", "XK"};
    struct sheet sheet;
    for (size_t i = 0; i < 1500; i++) {
        enum shape shape = (enum shape)below(dice, SHAPES);
        make_sheet(dice, &sheet, shape, 0);
        if (shape == CLOSING_SHAPE)
            continue;
        uint8_t *article = sheet.fixed + (shape == ORDER_SHAPE ? 46
                                        : shape == REPORT_SHAPE ? 48 : 60);
        make_title(dice, article);
        for (size_t changes = below(dice, 3); changes > 0; changes--)
            article[below(dice, 13)] = (uint8_t)few[below(dice, sizeof few - 1)];
        if (chance(dice, 8))
            memcpy(article + 13, qualifiers[below(dice, sizeof qualifiers / sizeof qualifiers[0])],
                   2);
        check_sheet(&sheet);
    }
}

/* An X at every place of an ISBN, with every last character, so that some check would
   hold however the X is counted. */
static void check_isbn_x(struct dice *dice)
{
    static const char lasts[] = "0123456789Xx ";
    struct sheet sheet;
    for (size_t place = 0; place < 10; place++)
        for (size_t i = 0; i < sizeof lasts - 1; i++) {
            make_sheet(dice, &sheet, ORDER_SHAPE, 0);
            uint8_t *article = sheet.fixed + 46;
            memset(article, ' ', 13);
            put_digits(article, 9, below(dice, 1000000000));
            article[9] = (uint8_t)lasts[i];
            if (place < 9)
                article[place] = 'X';
            memcpy(article + 13, "IB", 2);
            check_sheet(&sheet);
        }
    for (size_t digits = 0; digits < 200; digits++) {
        make_sheet(dice, &sheet, ORDER_SHAPE, 0);
        uint8_t *article = sheet.fixed + 46;
        memcpy(article, "344275688X   IB", 15);
        put_digits(article + 7, 2, digits % 100);
        article[9] = digits < 100 ? 'X' : 'x';
        check_sheet(&sheet);
    }
}

/* Groups whole, broken and repeated, among contents right and wrong. */
static void check_groups(struct dice *dice)
{
    static const size_t ids[] = {1017, 1018, 1029, 1030, 1032, 1101, 1102, 1107, 1108, 1113,
                                 1114, 1115, 1116, 1201, 1202, 1203, 1204, 1031, 8888};
    struct sheet sheet;
    for (size_t i = 0; i < 1500; i++) {
        make_sheet(dice, &sheet, (enum shape)below(dice, SHAPES), 0);
        size_t id = ids[below(dice, 19)];
        for (size_t count = between(dice, 1, 6); count > 0; count--) {
            if (chance(dice, 12))
                add_field(&sheet, id, (const uint8_t *)"~~", below(dice, 3));
            else
                add_valid_field(dice, &sheet, id);
            id = chance(dice, 4) || group_next(id) == 0 ? ids[below(dice, 19)]
                                                        : group_next(id);
        }
        check_sheet(&sheet);
    }
}

/* Around the most fields, with every kind of end. */
static void check_field_limit(struct dice *dice)
{
    static const char *const ends[] = {"*9999", "", "*", "*99", "*999x", "*9999*9999",
                                       "*9999x", "*0000", "*0000*9999", "*1003*9999"};
    struct sheet sheet;
    uint8_t record[RECORD_ROOM];
    for (size_t count = IN_MOST_FIELDS - 2; count <= IN_MOST_FIELDS + 2; count++)
        for (size_t shape = 0; shape < SHAPES; shape++)
            for (size_t i = 0; i < sizeof ends / sizeof ends[0]; i++) {
                make_sheet(dice, &sheet, (enum shape)shape, 0);
                for (size_t j = 0; j < count; j++)
                    add_field(&sheet, below(dice, 1000), (const uint8_t *)"7", below(dice, 2));
                size_t length = assemble(&sheet, record) - 5;
                memcpy(record + length, ends[i], strlen(ends[i]));
                uint64_t answer = check(record, length + strlen(ends[i]));
                if (i > 0)
                    continue;
                insist(answer == (count > IN_MOST_FIELDS ? 8 : 0),
                       "a record has 96 fields at most");
                came_up(READ_OF_96, count == IN_MOST_FIELDS);
                came_up(READ_OF_97_IS_8, count == IN_MOST_FIELDS + 1);
            }
}

/* Records of 1,020 to 1,028 bytes and much longer, right and wrong. */
static void check_length_limit(struct dice *dice)
{
    struct sheet sheet;
    uint8_t record[RECORD_ROOM], content[RECORD_ROOM];
    memset(content, 'c', sizeof content);
    for (size_t shape = 0; shape < SHAPES; shape++)
        for (size_t wanted = 1018; wanted <= 1030; wanted++) {
            make_sheet(dice, &sheet, (enum shape)shape, 2);
            size_t length = assemble(&sheet, record);
            add_field(&sheet, 8888, content, wanted - length - 5);
            length = assemble(&sheet, record);
            insist(length == wanted, "a record has the wanted length");
            check(record, length);
            record[below(dice, 4)] = 'x';
            check(record, length);
        }
    for (size_t i = 0; i < 40; i++) {
        size_t length = between(dice, 1025, 8000);
        memset(record, (int)between(dice, 0, 255), length);
        if (chance(dice, 2))
            memcpy(record, "L101", 4);
        check(record, length);
    }
}

static void check_small_tables(struct dice *dice)
{
    static const size_t lengths[] = {0, 1, 2, 3, IN_MOST_FIELDS, 192, IN_FULL_TABLE - 3,
                                     IN_FULL_TABLE - 2, IN_FULL_TABLE - 1, IN_FULL_TABLE,
                                     IN_FULL_TABLE + 1, 400};
    struct sheet sheet;
    uint8_t record[RECORD_ROOM];
    for (size_t i = 0; i < sizeof lengths / sizeof lengths[0]; i++)
        for (size_t j = 0; j < 8; j++) {
            make_sheet(dice, &sheet, (enum shape)below(dice, SHAPES), 3);
            size_t length = assemble(&sheet, record);
            if (j % 2)
                record[below(dice, length)] = odd_byte(dice, 'x');
            memset(record + length, 'c', IN_LONGEST);
            both_check(record, j == 7 ? 0 : j == 6 ? length + IN_LONGEST : length, lengths[i]);
        }
}

void compare_checks(struct dice *dice)
{
    for (size_t shape = 0; shape < SHAPES; shape++) {
        damage_record(dice, (enum shape)shape);
        fill_fields(dice, (enum shape)shape);
    }
    for (size_t i = 0; i < 10; i++)
        damage_twice(dice);
    cut_kinds();
    check_nonsense(dice);
    check_contents(dice);
    check_barred(dice);
    check_days_to_pay(dice);
    check_days(dice);
    check_articles(dice);
    check_isbn_x(dice);
    check_groups(dice);
    check_field_limit(dice);
    check_length_limit(dice);
    check_small_tables(dice);
}
