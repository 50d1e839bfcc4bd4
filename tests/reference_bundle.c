/* Bundles, books with digital parts: reading the parts of a record, and writing with them. */
#include "reference.h"
#include "reference_parts.h"

#include <string.h>

/* The ten fields of a loop, in their order. */
enum {
    TAX, NET, NET_QUALIFIER, NET_CURRENCY, LIST, LIST_QUALIFIER, LIST_CURRENCY,
    ARTICLE, ARTICLE_QUALIFIER, MEDIUM, LOOP_FIELDS
};

static const size_t loop_ids[LOOP_FIELDS] = {
    1019, 1029, 1030, 1032, 1029, 1030, 1032, 1101, 1102, 1151
};

/* A lent part, and a price in it: amount, number of digits, qualifier, currency. */
enum {
    TAX_MARK_PLACE = DELIVERY_LENGTH - TAX_MARK_WIDTH, MOST_PARTS = 8,
    LEAST_DIGITS = 5, MOST_DIGITS = 15,
    DIGITS_PLACE = 8, QUALIFIER_PLACE = DIGITS_PLACE + 1,
    CURRENCY_PLACE = QUALIFIER_PLACE + QUALIFIER_WIDTH,
    LENT_PRICE_WIDTH = CURRENCY_PLACE + CURRENCY_WIDTH,
    PART_TAX_PLACE = 0, PART_MEDIUM_PLACE = PART_TAX_PLACE + TAX_MARK_WIDTH,
    PART_NET_PLACE = PART_MEDIUM_PLACE + 1,
    PART_LIST_PLACE = PART_NET_PLACE + LENT_PRICE_WIDTH,
    PART_LENGTH_PLACE = PART_LIST_PLACE + LENT_PRICE_WIDTH,
    PART_ARTICLE_PLACE = PART_LENGTH_PLACE + 1, PART_ARTICLE_WIDTH = 35,
    PART_QUALIFIER_PLACE = PART_ARTICLE_PLACE + PART_ARTICLE_WIDTH,
    PART_WIDTH = PART_QUALIFIER_PLACE + QUALIFIER_WIDTH,
    PHYSICAL = 1, DIGITAL = 2, MEDIUM_TEXT = 3
};

/* "An L101 with tax mark 6 carries its parts." */
static int is_bundle(const uint8_t *fixed, size_t length)
{
    return ref_kind_of(fixed, length) == DELIVERY && length > TAX_MARK_PLACE
        && fixed[TAX_MARK_PLACE] == '6';
}

/* "The first price must be NO, the second LP or FP." */
static int are_qualifiers(const uint8_t *net, const uint8_t *list)
{
    return memcmp(net, "NO", QUALIFIER_WIDTH) == 0
        && (memcmp(list, "LP", QUALIFIER_WIDTH) == 0 || memcmp(list, "FP", QUALIFIER_WIDTH) == 0);
}

/* --- Reading --- */

/* Whether these ten fields are a whole loop. */
static int is_loop(const uint8_t *record, const struct optional_field *fields)
{
    for (size_t i = 0; i < LOOP_FIELDS; i++)
        if (fields[i].id != loop_ids[i])
            return 0;
    return are_qualifiers(record + fields[NET_QUALIFIER].place,
                          record + fields[LIST_QUALIFIER].place);
}

/* The index of the first 1019, or the count. */
static size_t first_loop(const struct optional_field *fields, size_t count)
{
    size_t index = 0;
    while (index < count && fields[index].id != loop_ids[TAX])
        index++;
    return index;
}

/* How many loops these fields are; none where they are not whole loops and nothing else. */
static size_t count_loops(const uint8_t *record, const struct optional_field *fields,
                          size_t count)
{
    if (count % LOOP_FIELDS != 0)
        return 0;
    for (size_t i = 0; i < count; i += LOOP_FIELDS)
        if (!is_loop(record, fields + i))
            return 0;
    return count / LOOP_FIELDS;
}

/* A price from its three fields. */
static void take_price(const uint8_t *record, const struct optional_field *fields,
                       uint8_t *price)
{
    put_le64(price, ref_number(record + fields[0].place, fields[0].length));
    price[DIGITS_PLACE] = (uint8_t)fields[0].length;
    memcpy(price + QUALIFIER_PLACE, record + fields[1].place, QUALIFIER_WIDTH);
    memcpy(price + CURRENCY_PLACE, record + fields[2].place, CURRENCY_WIDTH);
}

/* A part from its ten fields, zeros behind its article. */
static void take_part(const uint8_t *record, const struct optional_field *fields,
                      uint8_t *part)
{
    const struct optional_field *article = &fields[ARTICLE];
    part[PART_TAX_PLACE] = record[fields[TAX].place];
    part[PART_MEDIUM_PLACE] = record[fields[MEDIUM].place] == 'P' ? PHYSICAL : DIGITAL;
    take_price(record, fields + NET, part + PART_NET_PLACE);
    take_price(record, fields + LIST, part + PART_LIST_PLACE);
    part[PART_LENGTH_PLACE] = (uint8_t)article->length;
    memset(part + PART_ARTICLE_PLACE, 0, PART_ARTICLE_WIDTH);
    memcpy(part + PART_ARTICLE_PLACE, record + article->place, article->length);
    memcpy(part + PART_QUALIFIER_PLACE, record + fields[ARTICLE_QUALIFIER].place,
           QUALIFIER_WIDTH);
}

static wq_parts_read parts_read(uint64_t answer, uint64_t place, size_t parts)
{
    wq_parts_read read;
    read.answer = answer;
    read.place = place;
    read.parts = parts;
    return read;
}

/* Parts: 23, 1 to 10; then for an L101 with tax mark 6 26, 27. */
wq_parts_read ref_parts(const uint8_t *record, size_t record_length,
                        uint8_t *parts, size_t parts_length)
{
    struct optional_field fields[MOST_FIELDS];
    size_t count = 0;
    if (parts_length < MOST_PARTS * PART_WIDTH)
        return parts_read(ROOM_TOO_SMALL, 0, 0);
    struct verdict verdict = ref_judge_record(record, record_length, fields, &count);
    if (verdict.answer != DONE)
        return parts_read(verdict.answer, verdict.place, 0);
    if (!is_bundle(record, record_length))
        return parts_read(DONE, 0, 0);
    size_t first = first_loop(fields, count);
    size_t loops = count_loops(record, fields + first, count - first);
    if (loops == 0)
        return parts_read(PARTS_BROKEN, 0, 0);
    if (loops > MOST_PARTS)
        return parts_read(TOO_MANY_PARTS, 0, 0);
    for (size_t i = 0; i < loops; i++)
        take_part(record, fields + first + i * LOOP_FIELDS, parts + i * PART_WIDTH);
    return parts_read(DONE, 0, loops);
}

/* --- Writing --- */

/* Whether 1019 is an ID of the table: of its first entries, so many as are there. */
static int is_tax_mark_listed(const size_t *table, size_t table_length, size_t fields)
{
    size_t whole = table_length / TABLE_STRIDE;
    for (size_t i = 0; i < fields && i < whole; i++)
        if (table[TABLE_STRIDE * i] == loop_ids[TAX])
            return 1;
    return 0;
}

static int are_parts_qualified(const uint8_t *parts, size_t count)
{
    for (size_t i = 0; i < count; i++) {
        const uint8_t *part = parts + i * PART_WIDTH;
        if (!are_qualifiers(part + PART_NET_PLACE + QUALIFIER_PLACE,
                            part + PART_LIST_PLACE + QUALIFIER_PLACE))
            return 0;
    }
    return 1;
}

/* An amount of no more digits than it is to be written with. */
static int is_amount(const uint8_t *price)
{
    size_t digits = price[DIGITS_PLACE];
    uint64_t bound = 1;
    if (digits < LEAST_DIGITS || digits > MOST_DIGITS)
        return 0;
    for (size_t i = 0; i < digits; i++)
        bound *= 10;
    return get_le64(price) < bound;
}

static int is_currency(const uint8_t *price)
{
    return ref_content_keeps_table(loop_ids[NET_CURRENCY], price + CURRENCY_PLACE,
                                   CURRENCY_WIDTH);
}

static int is_part_article(const uint8_t *part)
{
    const uint8_t *article = part + PART_ARTICLE_PLACE;
    size_t length = part[PART_LENGTH_PLACE];
    return ref_content_keeps_table(loop_ids[ARTICLE], article, length)
        && ref_first_not_allowed(article, length) == length
        && memchr(article, '*', length) == NULL;
}

/* Whether a field of a part can be written and keeps the table. */
static int is_field_kept(const uint8_t *part, size_t field)
{
    switch (field) {
    case TAX: return ref_content_keeps_table(loop_ids[TAX], part + PART_TAX_PLACE, TAX_MARK_WIDTH);
    case NET: return is_amount(part + PART_NET_PLACE);
    case NET_CURRENCY: return is_currency(part + PART_NET_PLACE);
    case LIST: return is_amount(part + PART_LIST_PLACE);
    case LIST_CURRENCY: return is_currency(part + PART_LIST_PLACE);
    case ARTICLE: return is_part_article(part);
    case ARTICLE_QUALIFIER:
        return ref_content_keeps_table(loop_ids[ARTICLE_QUALIFIER], part + PART_QUALIFIER_PLACE,
                                       QUALIFIER_WIDTH);
    case MEDIUM:
        return part[PART_MEDIUM_PLACE] == PHYSICAL || part[PART_MEDIUM_PLACE] == DIGITAL;
    default: return 1;
    }
}

/* Answer 9: the index of the first field of the parts that is not kept, or their number. */
static size_t first_broken_field(const uint8_t *parts, size_t count)
{
    size_t index = 0;
    while (index < count * LOOP_FIELDS
           && is_field_kept(parts + index / LOOP_FIELDS * PART_WIDTH, index % LOOP_FIELDS))
        index++;
    return index;
}

/* The bytes that the loops take. */
static size_t loops_length(const uint8_t *parts, size_t count)
{
    size_t length = 0;
    for (size_t i = 0; i < count; i++) {
        const uint8_t *part = parts + i * PART_WIDTH;
        length += LOOP_FIELDS * FIELD_HEAD + TAX_MARK_WIDTH
                + part[PART_NET_PLACE + DIGITS_PLACE] + QUALIFIER_WIDTH + CURRENCY_WIDTH
                + part[PART_LIST_PLACE + DIGITS_PLACE] + QUALIFIER_WIDTH + CURRENCY_WIDTH
                + part[PART_LENGTH_PLACE] + QUALIFIER_WIDTH + MEDIUM_TEXT;
    }
    return length;
}

static uint8_t *put_field(uint8_t *to, size_t id, const void *content, size_t length)
{
    to = ref_put_head(to, id);
    memcpy(to, content, length);
    return to + length;
}

static uint8_t *put_price(uint8_t *to, const uint8_t *price)
{
    uint64_t amount = get_le64(price);
    size_t digits = price[DIGITS_PLACE];
    to = ref_put_head(to, loop_ids[NET]);
    for (size_t i = digits; i > 0; i--) {
        to[i - 1] = (uint8_t)('0' + amount % 10);
        amount /= 10;
    }
    to = put_field(to + digits, loop_ids[NET_QUALIFIER], price + QUALIFIER_PLACE,
                   QUALIFIER_WIDTH);
    return put_field(to, loop_ids[NET_CURRENCY], price + CURRENCY_PLACE, CURRENCY_WIDTH);
}

static uint8_t *put_part(uint8_t *to, const uint8_t *part)
{
    const char *medium = part[PART_MEDIUM_PLACE] == PHYSICAL ? "PHY" : "DIG";
    to = put_field(to, loop_ids[TAX], part + PART_TAX_PLACE, TAX_MARK_WIDTH);
    to = put_price(to, part + PART_NET_PLACE);
    to = put_price(to, part + PART_LIST_PLACE);
    to = put_field(to, loop_ids[ARTICLE], part + PART_ARTICLE_PLACE, part[PART_LENGTH_PLACE]);
    to = put_field(to, loop_ids[ARTICLE_QUALIFIER], part + PART_QUALIFIER_PLACE,
                   QUALIFIER_WIDTH);
    return put_field(to, loop_ids[MEDIUM], medium, MEDIUM_TEXT);
}

static wq_written written(uint64_t answer, uint64_t place, size_t length)
{
    wq_written record;
    record.answer = answer;
    record.place = place;
    record.length = length;
    return record;
}

/* Answers 27, 23 and 26, which writing with parts asks before all others. */
static enum answer judge_parts(int bundle, const size_t *table, size_t table_length,
                               size_t fields, const uint8_t *parts, size_t parts_length,
                               size_t count)
{
    if (count > MOST_PARTS)
        return TOO_MANY_PARTS;
    if (parts_length < count * PART_WIDTH)
        return ROOM_TOO_SMALL;
    if (bundle != (count > 0) || !are_parts_qualified(parts, count))
        return PARTS_BROKEN;
    if (bundle && is_tax_mark_listed(table, table_length, fields))
        return PARTS_BROKEN;
    return DONE;
}

/* Write with parts: 27, 23 for the parts, 26; then as writing has it, over the fields of the
   table and then those of the parts. No part breaks a group: 1019 and 1151 are in none. */
wq_written ref_write_parts(const uint8_t *fixed, size_t fixed_length,
                           const size_t *table, size_t table_length, size_t fields,
                           const uint8_t *contents, size_t contents_length,
                           const uint8_t *parts, size_t parts_length, size_t count,
                           uint8_t *out, size_t out_length)
{
    struct optional_field taken[MOST_FIELDS];
    int bundle = is_bundle(fixed, fixed_length);
    enum answer judged = judge_parts(bundle, table, table_length, fields, parts, parts_length,
                                     count);
    if (judged != DONE)
        return written(judged, 0, 0);
    size_t bad = ref_first_bad_fixed(fixed, fixed_length);
    if (bad != NONE_BROKEN)
        return written(FIXED_FIELD_BROKEN, bad, 0);
    if (fields > MOST_FIELDS - count * LOOP_FIELDS)
        return written(TOO_MANY_FIELDS, MOST_FIELDS, 0);
    if (table_length < TABLE_STRIDE * fields)
        return written(ROOM_TOO_SMALL, 0, 0);
    ref_take_fields(table, fields, taken);
    if (bundle)
        taken[fields].id = loop_ids[TAX];
    struct verdict verdict = ref_judge_contents(ref_kind_of(fixed, fixed_length), taken, fields,
                                                fields + (size_t)bundle,
                                                contents, contents_length);
    if (verdict.answer != DONE)
        return written(verdict.answer, verdict.place, 0);
    size_t broken = first_broken_field(parts, count);
    if (broken < count * LOOP_FIELDS)
        return written(CONTENT_BROKEN, fields + broken, 0);
    size_t length = ref_record_length(fixed_length, taken, fields) + loops_length(parts, count);
    if (length > LONGEST_RECORD)
        return written(TOO_LONG, 0, 0);
    if (length > out_length)
        return written(ROOM_TOO_SMALL, 0, 0);
    memcpy(out, fixed, fixed_length);
    out = ref_put_fields(out + fixed_length, taken, fields, contents);
    for (size_t i = 0; i < count; i++)
        out = put_part(out, parts + i * PART_WIDTH);
    ref_put_head(out, END_ID);
    return written(DONE, 0, length);
}
