/* Generated inputs: the dice, single fields, keys, and the fixed parts of records. */
#include "inputs.h"

#include <string.h>

uint64_t roll(struct dice *dice)
{
    uint64_t mixed = dice->state += 0x9e3779b97f4a7c15u;
    mixed = (mixed ^ mixed >> 30) * 0xbf58476d1ce4e5b9u;
    mixed = (mixed ^ mixed >> 27) * 0x94d049bb133111ebu;
    return mixed ^ mixed >> 31;
}

size_t below(struct dice *dice, size_t bound)
{
    return (size_t)(roll(dice) >> 11) % bound;
}

size_t between(struct dice *dice, size_t least, size_t most)
{
    return least + below(dice, most - least + 1);
}

int chance(struct dice *dice, size_t one_in)
{
    return below(dice, one_in) == 0;
}

void put_digits(uint8_t *to, size_t width, size_t number)
{
    for (size_t i = width; i > 0; i--) {
        to[i - 1] = (uint8_t)('0' + number % 10);
        number /= 10;
    }
}

size_t get_digits(const uint8_t *from, size_t width)
{
    size_t number = 0;
    for (size_t i = 0; i < width; i++)
        number = 10 * number + from[i] - '0';
    return number;
}

void put_little(uint8_t *to, size_t width, uint64_t number)
{
    for (size_t i = 0; i < width; i++)
        to[i] = (uint8_t)(number >> 8 * i & 0xff);
}

size_t get_little(const uint8_t *from, size_t width)
{
    size_t number = 0;
    for (size_t i = width; i > 0; i--)
        number = number << 8 | from[i - 1];
    return number;
}

void put_random_digits(struct dice *dice, uint8_t *to, size_t width)
{
    for (size_t i = 0; i < width; i++)
        to[i] = (uint8_t)('0' + below(dice, 10));
}

void put_capitals(struct dice *dice, uint8_t *to, size_t width)
{
    for (size_t i = 0; i < width; i++)
        to[i] = (uint8_t)('A' + below(dice, 26));
}

/* The allowed bytes, stated here a second time on purpose: the ends of each run of them. */
int is_allowed(uint8_t byte)
{
    static const uint8_t runs[][2] = {
        {32, 126}, {128, 128}, {130, 140}, {142, 142}, {145, 156}, {158, 255}
    };
    for (size_t i = 0; i < sizeof runs / sizeof runs[0]; i++)
        if (byte >= runs[i][0] && byte <= runs[i][1])
            return 1;
    return 0;
}

/* The typographic marks that document 02 allows. */
int is_typographic(uint8_t byte)
{
    return byte >= IN_FIRST_TYPOGRAPHIC && byte <= IN_LAST_TYPOGRAPHIC && is_allowed(byte);
}

/* The bytes barred in an order: no quote but 39 is among them. */
int is_barred(uint8_t byte)
{
    return byte != 0 && strchr("*+:?'", byte) != NULL;
}

/* An allowed byte from 128 on, nearly half of them typographic marks. */
uint8_t high_byte(struct dice *dice)
{
    uint8_t byte;
    do
        byte = (uint8_t)(chance(dice, 2) ? between(dice, IN_FIRST_TYPOGRAPHIC, IN_LAST_TYPOGRAPHIC)
                                         : between(dice, IN_LAST_TYPOGRAPHIC + 1, 255));
    while (!is_allowed(byte));
    return byte;
}

uint8_t allowed_byte(struct dice *dice, int order)
{
    uint8_t byte;
    do
        byte = (uint8_t)(chance(dice, 4) ? high_byte(dice) : between(dice, 32, 126));
    while (byte == '*' || (order && is_barred(byte)));
    return byte;
}

/* Another byte: a neighbour, any, or one at which a rule has an end. */
uint8_t odd_byte(struct dice *dice, uint8_t byte)
{
    static const uint8_t odd_bytes[] = {
        0, 10, 13, 31, 32, '*', '+', ':', '?', '\'', '0', '1', '2', '3', '6', '9', '/', ';', '@',
        'A', 'B', 'J', 'L', 'M', 'N', 'U', 'X', 'Z', '[', 'x', 126, 127, 128, 129, 130, 140, 141,
        142, 143, 144, 145, 156, 157, 158, 159, 160, 255
    };
    switch (below(dice, 8)) {
    case 0: return (uint8_t)(byte + 1);
    case 1: return (uint8_t)(byte - 1);
    case 2: return (uint8_t)roll(dice);
    case 3: return (uint8_t)(byte ^ 0x80);
    default: return odd_bytes[below(dice, sizeof odd_bytes)];
    }
}

/* A real day; ends of months and leap days come often. */
void make_day(struct dice *dice, uint8_t *date)
{
    static const size_t days[] = {31, 28, 31, 30, 31, 30, 31, 31, 30, 31, 30, 31};
    static const size_t years[] = {1, 4, 400, 1600, 1900, 2000, 2023, 2024, 9996, 9999};
    size_t year = chance(dice, 2) ? years[below(dice, 10)] : between(dice, 1, 9999);
    size_t month = chance(dice, 4) ? 2 : between(dice, 1, 12);
    size_t last = days[month - 1];
    if (month == 2 && year % 4 == 0 && (year % 100 != 0 || year % 400 == 0))
        last = 29;
    put_digits(date, 4, year);
    put_digits(date + 4, 2, month);
    put_digits(date + 6, 2, chance(dice, 3) ? last : between(dice, 1, last));
}

void make_party(struct dice *dice, uint8_t *party)
{
    static const char *const qualifiers[] = {"VD", "IB", "SA"};
    size_t length = between(dice, 1, 10);
    memset(party, ' ', 10);
    for (size_t i = 0; i < length; i++)
        if (chance(dice, 2))
            put_capitals(dice, party + i, 1);
        else
            put_random_digits(dice, party + i, 1);
    memcpy(party + 10, qualifiers[below(dice, 3)], 2);
}

static void make_text(struct dice *dice, uint8_t *text, size_t width)
{
    size_t length = between(dice, 1, width);
    memset(text, ' ', width);
    for (size_t i = 0; i < length; i++)
        text[i] = allowed_byte(dice, 1);
    if (text[0] == ' ')
        text[0] = '7';
}

void make_line_key(struct dice *dice, size_t variety, uint8_t *key)
{
    static const char *const schools[] = {
        "43210     VD", "43210     IB", "4321      VD", "SCHULE1234SA"};
    static const char *const suppliers[] = {
        "24000     VD", "24000     SA", "43210     VD", "GROSSO2400IB"};
    static const char *const references[] = {
        "A-17      ", "A-17     \x96", "\x84Q\x93 2\xff\xa0 \x9f ", "ABCDEFGHIJ"};
    static const char *const titles[] = {
        "9783442756841EN", "344275688X   IB", "1234567      UM", "1234567      KN"};
    if (variety == 0) {
        make_party(dice, key);
        make_party(dice, key + 12);
        make_text(dice, key + 24, 10);
        make_title(dice, key + IN_KEY);
        return;
    }
    memcpy(key, schools[below(dice, variety)], 12);
    memcpy(key + 12, suppliers[below(dice, variety)], 12);
    memcpy(key + 24, references[below(dice, variety)], 10);
    memcpy(key + IN_KEY, titles[below(dice, variety)], IN_TITLE);
}

/* Date, slip number and position of a goods record. */
void make_slip_part(struct dice *dice, size_t variety, uint8_t *to)
{
    static const char *const dates[] = {"20240226", "20240227", "00010101", "99991231"};
    static const char *const numbers[] = {
        "70012345  ", "7001234\x85  ", "*7\x80+ '\xa0\x91?:", "0         "};
    if (variety == 0) {
        make_day(dice, to);
        make_text(dice, to + 8, 10);
        put_random_digits(dice, to + 18, 4);
        return;
    }
    memcpy(to, dates[below(dice, variety)], 8);
    memcpy(to + 8, numbers[below(dice, variety)], 10);
    put_digits(to + 18, 4, below(dice, 2 * variety));
}

static void make_goods(struct dice *dice, uint8_t *fixed, const uint8_t *key, size_t copies)
{
    make_slip_part(dice, chance(dice, 8) ? 0 : 2 + 2 * below(dice, 2), fixed + 28);
    memcpy(fixed + 50, key + 24, 25);
    put_digits(fixed + 75, 4, copies);
    put_random_digits(dice, fixed + 79, 15);
    put_capitals(dice, fixed + 94, 5);
    put_random_digits(dice, fixed + 99, 8);
    fixed[107] = (uint8_t)"0126"[below(dice, 4)];
}

static void make_closing(uint8_t *fixed)
{
    memset(fixed + 28, '0', 8);
    memset(fixed + 36, ' ', 39);
    memset(fixed + 75, '0', 19);
    memset(fixed + 94, ' ', 5);
    memset(fixed + 99, '0', 8);
    fixed[107] = ' ';
}

static void make_report(struct dice *dice, uint8_t *fixed, const uint8_t *key)
{
    make_text(dice, fixed + 28, 10);
    if (chance(dice, 3))
        memset(fixed + 28, ' ', 10);
    memcpy(fixed + 38, key + 24, 25);
    put_digits(fixed + IN_REPORT_MESSAGE, IN_MESSAGE_DIGITS, make_message(dice));
    fixed[IN_REPORT_HOLD] = (uint8_t)"JN"[below(dice, 2)];
    make_expected(dice, (enum form)below(dice, FORMS), fixed + IN_REPORT_EXPECTED);
    memset(fixed + 75, '0', 4);
}

/* The fixed part of a valid record of this shape, with this line's key and title. */
void make_fixed(struct dice *dice, struct sheet *sheet, enum shape shape,
                const uint8_t *key, size_t copies)
{
    uint8_t *fixed = sheet->fixed;
    sheet->count = sheet->contents_length = 0;
    memcpy(fixed + 4, key + 12, 12);
    memcpy(fixed + 16, key, 12);
    if (shape == ORDER_SHAPE) {
        memcpy(fixed, "B101", 4);
        memcpy(fixed + 4, key, 24);
        make_day(dice, fixed + 28);
        memcpy(fixed + 36, key + 24, 25);
        put_digits(fixed + 61, 4, copies);
        memcpy(fixed + 65, chance(dice, 2) ? "ST" : "NP", 2);
        sheet->fixed_length = 67;
    } else if (shape == REPORT_SHAPE) {
        memcpy(fixed, "M101", 4);
        make_report(dice, fixed, key);
        sheet->fixed_length = 79;
    } else {
        memcpy(fixed, "L101", 4);
        make_goods(dice, fixed, key, copies);
        if (shape == ADVANCE_SHAPE)
            memset(fixed + 36, ' ', 10);
        if (shape == CLOSING_SHAPE)
            make_closing(fixed);
        sheet->fixed_length = 108;
    }
}
