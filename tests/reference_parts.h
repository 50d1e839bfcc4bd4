/* What the files of the reference share: widths, limits, answers, and the judges of
   fields, records, rosters and books. Documents 01 and 02 give every number that stands here,
   or the settled layout does: the bytes of lent entries, and the numbers for a line without a
   message and for the three forms of a date. */
#ifndef REFERENCE_PARTS_H
#define REFERENCE_PARTS_H

#include <stddef.h>
#include <stdint.h>
#include <string.h>

/* Widths of the fixed fields, in bytes. A party is an address with its qualifier, a title an
   article with its qualifier. */
enum {
    KIND_WIDTH = 4, ADDRESS_WIDTH = 10, QUALIFIER_WIDTH = 2, DATE_WIDTH = 8,
    REFERENCE_WIDTH = 10, SLIP_NUMBER_WIDTH = 10, POSITION_WIDTH = 4,
    ARTICLE_WIDTH = 13, QUANTITY_WIDTH = 4, PRICE_WIDTH = 15, CURRENCY_WIDTH = 3,
    DISCOUNT_WIDTH = 8, TAX_MARK_WIDTH = 1, MESSAGE_WIDTH = 3, HOLD_MARK_WIDTH = 1,
    YEAR_WIDTH = 4, MONTH_WIDTH = 2, DAY_WIDTH = 2,
    PARTY_WIDTH = ADDRESS_WIDTH + QUALIFIER_WIDTH,
    TITLE_WIDTH = ARTICLE_WIDTH + QUALIFIER_WIDTH
};

/* Places of the fields that are booked. */
enum {
    SENDER_PLACE = KIND_WIDTH,
    RECIPIENT_PLACE = SENDER_PLACE + PARTY_WIDTH,
    PARTIES_END = RECIPIENT_PLACE + PARTY_WIDTH,
    ORDER_REFERENCE_PLACE = PARTIES_END + DATE_WIDTH,
    ORDER_TITLE_PLACE = ORDER_REFERENCE_PLACE + REFERENCE_WIDTH,
    ORDER_QUANTITY_PLACE = ORDER_TITLE_PLACE + TITLE_WIDTH,
    ORDER_LENGTH = ORDER_QUANTITY_PLACE + QUANTITY_WIDTH + QUALIFIER_WIDTH,
    DELIVERY_DATE_PLACE = PARTIES_END,
    DELIVERY_SLIP_PLACE = DELIVERY_DATE_PLACE + DATE_WIDTH,
    DELIVERY_POSITION_PLACE = DELIVERY_SLIP_PLACE + SLIP_NUMBER_WIDTH,
    DELIVERY_REFERENCE_PLACE = DELIVERY_POSITION_PLACE + POSITION_WIDTH,
    DELIVERY_TITLE_PLACE = DELIVERY_REFERENCE_PLACE + REFERENCE_WIDTH,
    DELIVERY_QUANTITY_PLACE = DELIVERY_TITLE_PLACE + TITLE_WIDTH,
    DELIVERY_LENGTH = DELIVERY_QUANTITY_PLACE + QUANTITY_WIDTH + PRICE_WIDTH
                      + QUALIFIER_WIDTH + CURRENCY_WIDTH + DISCOUNT_WIDTH + TAX_MARK_WIDTH,
    REPORT_REFERENCE_PLACE = PARTIES_END + SLIP_NUMBER_WIDTH,
    REPORT_TITLE_PLACE = REPORT_REFERENCE_PLACE + REFERENCE_WIDTH,
    REPORT_MESSAGE_PLACE = REPORT_TITLE_PLACE + TITLE_WIDTH,
    REPORT_HOLD_PLACE = REPORT_MESSAGE_PLACE + MESSAGE_WIDTH,
    REPORT_EXPECTED_PLACE = REPORT_HOLD_PLACE + HOLD_MARK_WIDTH,
    REPORT_LENGTH = REPORT_EXPECTED_PLACE + DATE_WIDTH + QUANTITY_WIDTH
};

/* Limits of records and of their optional part. */
enum {
    LONGEST_RECORD = 1024, MOST_FIELDS = 96, TABLE_STRIDE = 3,
    ID_DIGITS = 4, FIELD_HEAD = 1 + ID_DIGITS, END_ID = 9999
};

/* The roster: each entry an account (address and qualifier) and its ceiling. */
enum {
    SCHOOL_CEILING_PLACE = PARTY_WIDTH, CEILING_WIDTH = 4,
    SCHOOL_WIDTH = SCHOOL_CEILING_PLACE + CEILING_WIDTH, MOST_SCHOOLS = 64
};

/* The lent book and the saved book. A body is what a save of the old or of the new form holds
   of a line. */
enum {
    LINE_KEY_WIDTH = 2 * PARTY_WIDTH + REFERENCE_WIDTH,
    LINE_TITLE_PLACE = LINE_KEY_WIDTH,
    LINE_ORDERED_PLACE = LINE_TITLE_PLACE + TITLE_WIDTH,
    LINE_MARK_PLACE = LINE_ORDERED_PLACE + 2,
    OLD_BODY_WIDTH = LINE_MARK_PLACE + 1,
    LINE_MESSAGE_PLACE = OLD_BODY_WIDTH,
    LINE_EXPECTED_PLACE = LINE_MESSAGE_PLACE + 2,
    NEW_BODY_WIDTH = LINE_EXPECTED_PLACE + DATE_WIDTH,
    LINE_ARRIVED_PLACE = NEW_BODY_WIDTH,
    LINE_WIDTH = LINE_ARRIVED_PLACE + 4,
    SLIP_KEY_WIDTH = 2 * PARTY_WIDTH + DATE_WIDTH + SLIP_NUMBER_WIDTH + POSITION_WIDTH,
    SLIP_LINE_PLACE = SLIP_KEY_WIDTH,
    SLIP_COPIES_PLACE = SLIP_LINE_PLACE + 2,
    SLIP_WIDTH = SLIP_COPIES_PLACE + 2,
    MOST_LINES = 512, MOST_SLIPS = 1024,
    MOST_COPIES = 9999, MOST_ARRIVED = 9999999,
    MARK_NONE = 0, MARK_HELD = 1, MARK_LET_GO = 2,
    MOST_MESSAGE = 999, MESSAGE_UNKNOWN = 65534, NO_REPORT = 65535,
    SAVED_END = 0, SAVED_OLD_LINE = 1, SAVED_SLIP = 2, SAVED_NEW_LINE = 3,
    SAVED_SLIP_WIDTH = 1 + SLIP_WIDTH,
    SAVED_END_WIDTH = 1 + 2 + 2
};

/* Document 01's answer numbers, then document 02's. */
enum answer {
    DONE = 0, TOO_LONG = 1, UNKNOWN_KIND = 2, TOO_SHORT = 3, BYTE_NOT_ALLOWED = 4,
    FIXED_FIELD_BROKEN = 5, STAR_OR_ID_MISSING = 6, END_MISPLACED = 7,
    TOO_MANY_FIELDS = 8, CONTENT_BROKEN = 9, GROUP_BROKEN = 10, QUANTITY_ZERO = 11,
    REFERENCE_BLANK = 12, NOTHING_TO_BOOK = 13, LINE_EXISTS = 14, LINES_FULL = 15,
    NO_SUCH_LINE = 16, SLIP_REPEATED = 17, SLIP_DIFFERS = 18, SLIPS_FULL = 19,
    BOOK_UNSOUND = 20, ARRIVED_OVER_LIMIT = 21, SAVE_INVALID = 22, ROOM_TOO_SMALL = 23,
    NOT_ON_ROSTER = 24, CEILING_PASSED = 25, PARTS_BROKEN = 26, TOO_MANY_PARTS = 27,
    MESSAGE_LOST = 28
};

enum record_kind { NO_KIND, ORDER, DELIVERY, REPORT };

/* The three forms of an expected date, by their numbers; other bytes have none. */
enum expected_form {
    EXPECTED_NO_FORM = 0, EXPECTED_DAY = 1, EXPECTED_ZEROS = 2, EXPECTED_BLANKS = 3
};

struct day { size_t year, month, day; };

struct verdict { uint64_t answer, place; };

/* An optional field: its ID, and where its content stands. */
struct optional_field { size_t id, place, length; };

/* A fixed field that breaks its rule; index equals NONE_BROKEN where none does. */
struct broken_field { size_t index, place; };
#define NONE_BROKEN ((size_t)-1)

/* A lent book as it is looked at; entries are counted, not bytes. */
struct book {
    const uint8_t *lines, *slips;
    size_t line_room, slip_room, used_lines, used_slips;
};

/* reference_fields.c: bytes and single fields. */
int ref_is_allowed(uint8_t byte);
size_t ref_first_not_allowed(const uint8_t *bytes, size_t length);
int ref_all_digits(const uint8_t *bytes, size_t length);
size_t ref_number(const uint8_t *digits, size_t length);
struct day ref_day_of(const uint8_t *digits);
int ref_is_real_day(const uint8_t *date);
enum expected_form ref_expected_form(const uint8_t *date);
int ref_is_address(const uint8_t *address);
int ref_is_address_qualifier(const uint8_t *qualifier);
int ref_is_article(const uint8_t *article, const uint8_t *qualifier);
int ref_is_article_qualifier(const uint8_t *qualifier);
int ref_content_keeps_table(size_t id, const uint8_t *content, size_t length);

/* reference_record.c: whole records. */
enum record_kind ref_kind_of(const uint8_t *record, size_t length);
size_t ref_fixed_length(enum record_kind kind);
int ref_is_closing(enum record_kind kind, const uint8_t *fixed);
struct broken_field ref_first_broken(enum record_kind kind, const uint8_t *fixed);
size_t ref_field_at(enum record_kind kind, size_t place);
int ref_content_broken(enum record_kind kind, const struct optional_field *field,
                       const uint8_t *contents);
int ref_group_broken(const struct optional_field *fields, size_t count, size_t index);
struct verdict ref_judge_record(const uint8_t *record, size_t length,
                                struct optional_field *fields, size_t *count);

/* reference_write.c: the steps of writing, which writing with parts takes too. Of so many
   fields as stand there the first `count` are judged. */
size_t ref_first_bad_fixed(const uint8_t *fixed, size_t length);
void ref_take_fields(const size_t *table, size_t count, struct optional_field *fields);
struct verdict ref_judge_contents(enum record_kind kind, const struct optional_field *fields,
                                  size_t count, size_t standing,
                                  const uint8_t *contents, size_t contents_length);
size_t ref_record_length(size_t fixed_length, const struct optional_field *fields, size_t count);
uint8_t *ref_put_head(uint8_t *to, size_t id);
uint8_t *ref_put_fields(uint8_t *to, const struct optional_field *fields, size_t count,
                        const uint8_t *contents);

/* reference_roster.c: the lent roster. The first entry with an account, or NULL. */
int ref_roster_fits(size_t length);
const uint8_t *ref_find_school(const uint8_t *roster, size_t length, const uint8_t *account);
size_t ref_ceiling_of(const uint8_t *school);

/* reference_book.c: the lent book. */
int ref_rooms_fit(size_t lines_length, size_t slips_length);
int ref_open_book(const uint8_t *lines, size_t lines_length,
                  const uint8_t *slips, size_t slips_length,
                  const size_t *used, struct book *book);
int ref_is_sound_report(const uint8_t *line);

static inline size_t get_le16(const uint8_t *bytes)
{
    return (size_t)bytes[0] | (size_t)bytes[1] << 8;
}

static inline size_t get_le32(const uint8_t *bytes)
{
    return get_le16(bytes) | get_le16(bytes + 2) << 16;
}

static inline uint64_t get_le64(const uint8_t *bytes)
{
    return (uint64_t)get_le32(bytes) | (uint64_t)get_le32(bytes + 4) << 32;
}

static inline void put_le16(uint8_t *bytes, size_t number)
{
    bytes[0] = (uint8_t)(number & 0xff);
    bytes[1] = (uint8_t)(number >> 8 & 0xff);
}

static inline void put_le32(uint8_t *bytes, size_t number)
{
    put_le16(bytes, number & 0xffff);
    put_le16(bytes + 2, number >> 16 & 0xffff);
}

static inline void put_le64(uint8_t *bytes, uint64_t number)
{
    put_le32(bytes, (size_t)(number & 0xffffffff));
    put_le32(bytes + 4, (size_t)(number >> 32));
}

static inline int all_equal(const uint8_t *bytes, size_t length, uint8_t value)
{
    for (size_t i = 0; i < length; i++)
        if (bytes[i] != value)
            return 0;
    return 1;
}

/* Every call asks this of every used line, so it is one comparison. */
static inline int is_blank_date(const uint8_t *date)
{
    return memcmp(date, "        ", DATE_WIDTH) == 0;
}

/* A line without a message: no report came, or what it said is unknown. */
static inline void put_no_message(uint8_t *line, size_t why)
{
    put_le16(line + LINE_MESSAGE_PLACE, why);
    memset(line + LINE_EXPECTED_PLACE, ' ', DATE_WIDTH);
}

#endif
