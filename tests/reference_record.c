/* Whole records: their fixed parts, their optional fields, and the reading of them. */
#include "reference.h"
#include "reference_parts.h"

#include <string.h>

enum fixed_rule {
    AS_KIND, AS_ADDRESS, AS_ADDRESS_QUALIFIER, AS_DAY, AS_EXPECTED_DAY, AS_REFERENCE,
    AS_ORDER_REFERENCE, AS_ARTICLE, AS_ARTICLE_QUALIFIER, AS_DIGITS, AS_ORDER_QUALIFIER,
    AS_CAPITALS, AS_TAX_MARK, AS_HOLD_MARK, AS_ZEROS, AS_BLANK
};

struct fixed_field { enum fixed_rule rule; size_t width; };

struct layout { const struct fixed_field *fields; size_t count; };

#define PARTIES \
    {AS_KIND, KIND_WIDTH}, \
    {AS_ADDRESS, ADDRESS_WIDTH}, {AS_ADDRESS_QUALIFIER, QUALIFIER_WIDTH}, \
    {AS_ADDRESS, ADDRESS_WIDTH}, {AS_ADDRESS_QUALIFIER, QUALIFIER_WIDTH}

#define COUNT_OF(array) (sizeof (array) / sizeof (array)[0])

static const struct fixed_field order_fields[] = {
    PARTIES, {AS_DAY, DATE_WIDTH}, {AS_ORDER_REFERENCE, REFERENCE_WIDTH},
    {AS_ARTICLE, ARTICLE_WIDTH}, {AS_ARTICLE_QUALIFIER, QUALIFIER_WIDTH},
    {AS_DIGITS, QUANTITY_WIDTH}, {AS_ORDER_QUALIFIER, QUALIFIER_WIDTH}
};

static const struct fixed_field goods_fields[] = {
    PARTIES, {AS_DAY, DATE_WIDTH}, {AS_REFERENCE, SLIP_NUMBER_WIDTH},
    {AS_DIGITS, POSITION_WIDTH}, {AS_REFERENCE, REFERENCE_WIDTH},
    {AS_ARTICLE, ARTICLE_WIDTH}, {AS_ARTICLE_QUALIFIER, QUALIFIER_WIDTH},
    {AS_DIGITS, QUANTITY_WIDTH}, {AS_DIGITS, PRICE_WIDTH},
    {AS_CAPITALS, QUALIFIER_WIDTH}, {AS_CAPITALS, CURRENCY_WIDTH},
    {AS_DIGITS, DISCOUNT_WIDTH}, {AS_TAX_MARK, TAX_MARK_WIDTH}
};

static const struct fixed_field closing_fields[] = {
    PARTIES, {AS_ZEROS, DATE_WIDTH}, {AS_BLANK, SLIP_NUMBER_WIDTH},
    {AS_BLANK, POSITION_WIDTH}, {AS_BLANK, REFERENCE_WIDTH},
    {AS_BLANK, ARTICLE_WIDTH}, {AS_BLANK, QUALIFIER_WIDTH},
    {AS_ZEROS, QUANTITY_WIDTH}, {AS_ZEROS, PRICE_WIDTH},
    {AS_BLANK, QUALIFIER_WIDTH}, {AS_BLANK, CURRENCY_WIDTH},
    {AS_ZEROS, DISCOUNT_WIDTH}, {AS_BLANK, TAX_MARK_WIDTH}
};

static const struct fixed_field report_fields[] = {
    PARTIES, {AS_REFERENCE, SLIP_NUMBER_WIDTH}, {AS_REFERENCE, REFERENCE_WIDTH},
    {AS_ARTICLE, ARTICLE_WIDTH}, {AS_ARTICLE_QUALIFIER, QUALIFIER_WIDTH},
    {AS_DIGITS, MESSAGE_WIDTH}, {AS_HOLD_MARK, HOLD_MARK_WIDTH},
    {AS_EXPECTED_DAY, DATE_WIDTH}, {AS_ZEROS, QUANTITY_WIDTH}
};

static int all_capitals(const uint8_t *bytes, size_t length)
{
    for (size_t i = 0; i < length; i++)
        if (bytes[i] < 'A' || bytes[i] > 'Z')
            return 0;
    return 1;
}

enum record_kind ref_kind_of(const uint8_t *record, size_t length)
{
    if (length < KIND_WIDTH)
        return NO_KIND;
    if (memcmp(record, "B101", KIND_WIDTH) == 0)
        return ORDER;
    if (memcmp(record, "L101", KIND_WIDTH) == 0)
        return DELIVERY;
    if (memcmp(record, "M101", KIND_WIDTH) == 0)
        return REPORT;
    return NO_KIND;
}

size_t ref_fixed_length(enum record_kind kind)
{
    switch (kind) {
    case ORDER: return ORDER_LENGTH;
    case DELIVERY: return DELIVERY_LENGTH;
    case REPORT: return REPORT_LENGTH;
    default: return 0;
    }
}

/* "An L101 whose date is eight zeros is a closing record (001)." */
int ref_is_closing(enum record_kind kind, const uint8_t *fixed)
{
    return kind == DELIVERY && all_equal(fixed + DELIVERY_DATE_PLACE, DATE_WIDTH, '0');
}

static struct layout layout_of(enum record_kind kind, int closing)
{
    struct layout layout;
    if (kind == ORDER) {
        layout.fields = order_fields;
        layout.count = COUNT_OF(order_fields);
    } else if (kind == REPORT) {
        layout.fields = report_fields;
        layout.count = COUNT_OF(report_fields);
    } else {
        layout.fields = closing ? closing_fields : goods_fields;
        layout.count = COUNT_OF(goods_fields);
    }
    return layout;
}

/* In a B101 these bytes may not stand in the reference nor in four of the fields. */
static int holds_barred(const uint8_t *bytes, size_t length)
{
    for (size_t i = 0; i < length; i++)
        switch (bytes[i]) {
        case '*': case '+': case ':': case '?': case '\'': return 1;
        default: break;
        }
    return 0;
}

/* "Reference and slip number: all blank, or first byte not blank." */
static int is_reference(const uint8_t *reference)
{
    return reference[0] != ' ' || all_equal(reference, REFERENCE_WIDTH, ' ');
}

/* Document 01's field rules, for one fixed field. An article's qualifier follows it. */
static int keeps_rule(enum fixed_rule rule, const uint8_t *field, size_t width)
{
    switch (rule) {
    case AS_KIND: return 1;
    case AS_ADDRESS: return ref_is_address(field);
    case AS_ADDRESS_QUALIFIER: return ref_is_address_qualifier(field);
    case AS_DAY: return ref_is_real_day(field);
    case AS_EXPECTED_DAY: return ref_expected_form(field) != EXPECTED_NO_FORM;
    case AS_REFERENCE: return is_reference(field);
    case AS_ORDER_REFERENCE: return is_reference(field) && !holds_barred(field, width);
    case AS_ARTICLE: return ref_is_article(field, field + width);
    case AS_ARTICLE_QUALIFIER: return ref_is_article_qualifier(field);
    case AS_DIGITS: return ref_all_digits(field, width);
    case AS_ORDER_QUALIFIER:
        return memcmp(field, "ST", width) == 0 || memcmp(field, "NP", width) == 0;
    case AS_CAPITALS: return all_capitals(field, width);
    case AS_TAX_MARK:
        return *field == '0' || *field == '1' || *field == '2' || *field == '6';
    case AS_HOLD_MARK: return *field == 'J' || *field == 'N';
    case AS_ZEROS: return all_equal(field, width, '0');
    case AS_BLANK: return all_equal(field, width, ' ');
    }
    return 0;
}

/* Answer 5: the first fixed field that breaks its rule. */
struct broken_field ref_first_broken(enum record_kind kind, const uint8_t *fixed)
{
    struct layout layout = layout_of(kind, ref_is_closing(kind, fixed));
    struct broken_field broken = {0, 0};
    while (broken.index < layout.count) {
        const struct fixed_field *field = &layout.fields[broken.index];
        if (!keeps_rule(field->rule, fixed + broken.place, field->width))
            return broken;
        broken.place += field->width;
        broken.index++;
    }
    broken.index = NONE_BROKEN;
    return broken;
}

/* The index of the fixed field in which a place of the fixed part lies. */
size_t ref_field_at(enum record_kind kind, size_t place)
{
    struct layout layout = layout_of(kind, 0);
    size_t index = 0, end = layout.fields[0].width;
    while (place >= end)
        end += layout.fields[++index].width;
    return index;
}

/* Answer 9: the table of contents, and the bytes barred in a B101. */
int ref_content_broken(enum record_kind kind, const struct optional_field *field,
                       const uint8_t *contents)
{
    const uint8_t *content = contents + field->place;
    if (!ref_content_keeps_table(field->id, content, field->length))
        return 1;
    if (kind != ORDER)
        return 0;
    switch (field->id) {
    case 1001: case 1003: case 1051: case 9010:
        return holds_barred(content, field->length);
    default:
        return 0;
    }
}

/* Answer 10: a member whose next does not follow or whose previous does not precede.
   At either end of the record no member stands. */
int ref_group_broken(const struct optional_field *fields, size_t count, size_t index)
{
    static const struct { size_t member, next; } steps[] = {
        {1017, 1018}, {1029, 1030}, {1030, 1032}, {1101, 1102}, {1107, 1108},
        {1113, 1114}, {1115, 1116}, {1201, 1202}, {1203, 1204}
    };
    size_t id = fields[index].id;
    size_t before = index > 0 ? fields[index - 1].id : END_ID;
    size_t after = index + 1 < count ? fields[index + 1].id : END_ID;
    for (size_t i = 0; i < COUNT_OF(steps); i++) {
        if (id == steps[i].member && after != steps[i].next)
            return 1;
        if (id == steps[i].next && before != steps[i].member)
            return 1;
    }
    return 0;
}

static struct verdict found(enum answer answer, size_t place)
{
    struct verdict verdict;
    verdict.answer = answer;
    verdict.place = place;
    return verdict;
}

/* The walk that gives 6 to 8 and finds the optional fields before 9999. */
static struct verdict walk_fields(const uint8_t *record, size_t length, size_t place,
                                  struct optional_field *fields, size_t *count)
{
    *count = 0;
    while (place < length) {
        size_t star = place;
        if (record[star] != '*' || length - star < FIELD_HEAD
            || !ref_all_digits(record + star + 1, ID_DIGITS))
            return found(STAR_OR_ID_MISSING, star);
        size_t id = ref_number(record + star + 1, ID_DIGITS);
        place = star + FIELD_HEAD;
        if (id == END_ID)
            return place == length ? found(DONE, 0) : found(END_MISPLACED, star);
        if (*count == MOST_FIELDS)
            return found(TOO_MANY_FIELDS, star);
        const uint8_t *next_star = memchr(record + place, '*', length - place);
        size_t end = next_star ? (size_t)(next_star - record) : length;
        fields[*count].id = id;
        fields[*count].place = place;
        fields[*count].length = end - place;
        ++*count;
        place = end;
    }
    return found(END_MISPLACED, length);
}

/* The walk that gives 9, then 10, at each field. */
static struct verdict judge_fields(enum record_kind kind, const uint8_t *record,
                                   const struct optional_field *fields, size_t count)
{
    for (size_t i = 0; i < count; i++) {
        size_t star = fields[i].place - FIELD_HEAD;
        if (ref_content_broken(kind, &fields[i], record))
            return found(CONTENT_BROKEN, star);
        if (ref_group_broken(fields, count, i))
            return found(GROUP_BROKEN, star);
    }
    return found(DONE, 0);
}

/* Answers 1 to 10, in document 01's order. */
struct verdict ref_judge_record(const uint8_t *record, size_t length,
                                struct optional_field *fields, size_t *count)
{
    if (length > LONGEST_RECORD)
        return found(TOO_LONG, LONGEST_RECORD);
    enum record_kind kind = ref_kind_of(record, length);
    if (kind == NO_KIND)
        return found(UNKNOWN_KIND, 0);
    size_t fixed_length = ref_fixed_length(kind);
    if (length < fixed_length + FIELD_HEAD)
        return found(TOO_SHORT, length);
    size_t not_allowed = ref_first_not_allowed(record, length);
    if (not_allowed < length)
        return found(BYTE_NOT_ALLOWED, not_allowed);
    struct broken_field broken = ref_first_broken(kind, record);
    if (broken.index != NONE_BROKEN)
        return found(FIXED_FIELD_BROKEN, broken.place);
    struct verdict walked = walk_fields(record, length, fixed_length, fields, count);
    if (walked.answer != DONE)
        return walked;
    return judge_fields(kind, record, fields, *count);
}

/* Read: 23 first, then the record; the table is filled on success only. */
wq_checked ref_check(const uint8_t *record, size_t record_length,
                     size_t *table, size_t table_length)
{
    struct optional_field fields[MOST_FIELDS];
    wq_checked checked = {0, 0, 0};
    size_t count = 0;
    if (table_length < TABLE_STRIDE * MOST_FIELDS) {
        checked.answer = ROOM_TOO_SMALL;
        return checked;
    }
    struct verdict verdict = ref_judge_record(record, record_length, fields, &count);
    checked.answer = verdict.answer;
    checked.place = verdict.place;
    if (verdict.answer != DONE)
        return checked;
    for (size_t i = 0; i < count; i++) {
        table[TABLE_STRIDE * i] = fields[i].id;
        table[TABLE_STRIDE * i + 1] = fields[i].place;
        table[TABLE_STRIDE * i + 2] = fields[i].length;
    }
    checked.fields = count;
    return checked;
}
