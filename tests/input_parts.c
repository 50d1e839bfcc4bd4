/* Generated bundles: parts as they are lent, their loops, and records that hold them. */
#include "inputs.h"

#include <string.h>

/* How much longer than in the shortest loop an article and an amount can be. */
enum {
    MORE_ARTICLE = IN_LONGEST_ARTICLE - 1, MORE_DIGITS = IN_MOST_DIGITS - IN_LEAST_DIGITS,
    MORE_IN_ALL = MORE_ARTICLE + 2 * MORE_DIGITS, LEFT_OVER = 64
};

/* Document 02's loop, a second time. */
const size_t loop_ids[IN_LOOP] = {1019, 1029, 1030, 1032, 1029, 1030, 1032, 1101, 1102, 1151};

uint64_t power_of_ten(size_t digits)
{
    uint64_t power = 1;
    while (digits-- > 0)
        power *= 10;
    return power;
}

/* An amount of at most so many digits: any, a small one, which has zeros in front, or one of
   the ends. */
static uint64_t make_amount(struct dice *dice, size_t digits)
{
    uint64_t bound = power_of_ten(digits);
    switch (below(dice, 8)) {
    case 0: return bound - 1;
    case 1: return 0;
    case 2: return roll(dice) % power_of_ten(between(dice, 1, digits));
    default: return roll(dice) % bound;
    }
}

static void make_price(struct dice *dice, const char *qualifier, size_t digits, uint8_t *price)
{
    put_little(price, 8, make_amount(dice, digits));
    price[IN_PRICE_DIGITS] = (uint8_t)digits;
    memcpy(price + IN_PRICE_QUALIFIER, qualifier, IN_QUALIFIER);
    put_capitals(dice, price + IN_PRICE_CURRENCY, IN_CURRENCY);
}

/* Takes some of what is left, now and then as much as can be. */
static size_t take_some(struct dice *dice, size_t most, size_t *left)
{
    size_t can = most < *left ? most : *left;
    size_t taken = chance(dice, 4) ? can : below(dice, can + 1);
    *left -= taken;
    return taken;
}

void make_part(struct dice *dice, size_t more, uint8_t *part)
{
    size_t length = 1 + take_some(dice, MORE_ARTICLE, &more);
    memset(part, 0, IN_PART);
    part[0] = (uint8_t)between(dice, '0', '2');
    part[IN_PART_MEDIUM] = chance(dice, 2) ? IN_PHYSICAL : IN_DIGITAL;
    make_price(dice, "NO", IN_LEAST_DIGITS + take_some(dice, MORE_DIGITS, &more),
               part + IN_PART_NET);
    make_price(dice, chance(dice, 2) ? "LP" : "FP",
               IN_LEAST_DIGITS + take_some(dice, MORE_DIGITS, &more), part + IN_PART_LIST);
    part[IN_PART_LENGTH] = (uint8_t)length;
    for (size_t i = 0; i < length; i++)
        part[IN_PART_ARTICLE + i] = allowed_byte(dice, 0);
    put_capitals(dice, part + IN_PART_QUALIFIER, IN_QUALIFIER);
}

static void add_price(struct sheet *sheet, const uint8_t *price)
{
    uint8_t amount[IN_MOST_DIGITS];
    put_digits(amount, price[IN_PRICE_DIGITS], get_little(price, 8));
    add_field(sheet, 1029, amount, price[IN_PRICE_DIGITS]);
    add_field(sheet, 1030, price + IN_PRICE_QUALIFIER, IN_QUALIFIER);
    add_field(sheet, 1032, price + IN_PRICE_CURRENCY, IN_CURRENCY);
}

void add_loop(struct sheet *sheet, const uint8_t *part)
{
    const char *medium = part[IN_PART_MEDIUM] == IN_PHYSICAL ? "PHY" : "DIG";
    add_field(sheet, IN_TAX_ID, part, 1);
    add_price(sheet, part + IN_PART_NET);
    add_price(sheet, part + IN_PART_LIST);
    add_field(sheet, 1101, part + IN_PART_ARTICLE, part[IN_PART_LENGTH]);
    add_field(sheet, 1102, part + IN_PART_QUALIFIER, IN_QUALIFIER);
    add_field(sheet, 1151, (const uint8_t *)medium, 3);
}

void make_bundle_sheet(struct dice *dice, struct sheet *sheet, size_t most)
{
    make_sheet(dice, sheet, chance(dice, 6) ? ADVANCE_SHAPE : GOODS_SHAPE, most);
    sheet->fixed[IN_TAX_MARK] = '6';
    for (size_t i = 0; i < sheet->count; i++)
        if (sheet->table[3 * i] == IN_TAX_ID)
            sheet->table[3 * i] = 8888;
}

/* Few other fields where there are many parts, so that the record is not too long and a case can
   still add a little. */
void make_bundle(struct dice *dice, struct bundle *bundle, size_t count)
{
    uint8_t record[RECORD_ROOM];
    struct sheet *sheet = &bundle->sheet;
    size_t shortest = count * IN_SHORTEST_LOOP + LEFT_OVER;
    do
        make_bundle_sheet(dice, sheet, IN_MOST_PARTS + 1 - count);
    while (assemble(sheet, record) + shortest > IN_LONGEST
           || sheet->count + count * IN_LOOP > IN_MOST_FIELDS);
    size_t left = IN_LONGEST - assemble(sheet, record) - shortest;
    for (size_t i = 0; i < count; i++) {
        size_t more = take_some(dice, MORE_IN_ALL, &left);
        make_part(dice, more, bundle->parts + i * IN_PART);
    }
    bundle->table_length = 3 * sheet->count;
    bundle->parts_length = count * IN_PART;
    bundle->count = count;
}

size_t assemble_bundle(const struct bundle *bundle, uint8_t *record)
{
    struct sheet sheet = bundle->sheet;
    for (size_t i = 0; i < bundle->count; i++)
        add_loop(&sheet, bundle->parts + i * IN_PART);
    return assemble(&sheet, record);
}
