/* The lent book: its soundness, the booking of records, and what a line tells by key. */
#include "reference.h"
#include "reference_parts.h"

#include <string.h>

static const uint8_t *line_at(const struct book *book, size_t index)
{
    return book->lines + index * LINE_WIDTH;
}

static const uint8_t *slip_at(const struct book *book, size_t index)
{
    return book->slips + index * SLIP_WIDTH;
}

/* "The caller lends room for 1 to 512 lines and 1 to 1,024 slips." */
int ref_rooms_fit(size_t lines_length, size_t slips_length)
{
    return lines_length % LINE_WIDTH == 0 && slips_length % SLIP_WIDTH == 0
        && lines_length >= LINE_WIDTH && lines_length <= MOST_LINES * LINE_WIDTH
        && slips_length >= SLIP_WIDTH && slips_length <= MOST_SLIPS * SLIP_WIDTH;
}

/* "No report yet" goes with mark none and no other, an unknown message with J or N, and eight
   blanks with either; a message has an expected date in one of its three forms. */
int ref_is_sound_report(const uint8_t *line)
{
    const uint8_t mark = line[LINE_MARK_PLACE], *expected = line + LINE_EXPECTED_PLACE;
    size_t message = get_le16(line + LINE_MESSAGE_PLACE);
    if (mark == MARK_NONE)
        return message == NO_REPORT && is_blank_date(expected);
    if (mark > MARK_LET_GO)
        return 0;
    if (message == MESSAGE_UNKNOWN)
        return is_blank_date(expected);
    return message <= MOST_MESSAGE && ref_expected_form(expected) != EXPECTED_NO_FORM;
}

static int is_sound_line(const uint8_t *line)
{
    size_t ordered = get_le16(line + LINE_ORDERED_PLACE);
    return ordered >= 1 && ordered <= MOST_COPIES && ref_is_sound_report(line)
        && get_le32(line + LINE_ARRIVED_PLACE) <= MOST_ARRIVED;
}

/* Fills in the book and tells whether it is sound; where it is not, the answer is 20. */
int ref_open_book(const uint8_t *lines, size_t lines_length,
                  const uint8_t *slips, size_t slips_length,
                  const size_t *used, struct book *book)
{
    if (!ref_rooms_fit(lines_length, slips_length))
        return 0;
    book->lines = lines;
    book->slips = slips;
    book->line_room = lines_length / LINE_WIDTH;
    book->slip_room = slips_length / SLIP_WIDTH;
    book->used_lines = used[0];
    book->used_slips = used[1];
    if (book->used_lines > book->line_room || book->used_slips > book->slip_room)
        return 0;
    for (size_t i = 0; i < book->used_lines; i++)
        if (!is_sound_line(line_at(book, i)))
            return 0;
    for (size_t i = 0; i < book->used_slips; i++)
        if (get_le16(slip_at(book, i) + SLIP_LINE_PLACE) >= book->used_lines)
            return 0;
    return 1;
}

/* The first line with this key, or the count of used lines. */
static size_t find_line(const struct book *book, const uint8_t *key)
{
    size_t index = 0;
    while (index < book->used_lines
           && memcmp(line_at(book, index), key, LINE_KEY_WIDTH) != 0)
        index++;
    return index;
}

/* The first slip with this key, or the count of used slips. */
static size_t find_slip(const struct book *book, const uint8_t *key)
{
    size_t index = 0;
    while (index < book->used_slips
           && memcmp(slip_at(book, index), key, SLIP_KEY_WIDTH) != 0)
        index++;
    return index;
}

static wq_booked refused(enum answer answer, size_t place)
{
    wq_booked booked = {0};
    booked.answer = answer;
    booked.place = place;
    return booked;
}

static wq_told not_told(enum answer answer)
{
    wq_told told = {0};
    told.answer = answer;
    return told;
}

/* Filled is the smaller of Q and A; the rest of Q is let go after an N, otherwise open. */
static wq_told figures_of(const uint8_t *line)
{
    wq_told figures = not_told(DONE);
    size_t ordered = get_le16(line + LINE_ORDERED_PLACE);
    size_t arrived = get_le32(line + LINE_ARRIVED_PLACE);
    size_t filled = arrived < ordered ? arrived : ordered;
    figures.ordered = ordered;
    figures.filled = filled;
    figures.extra = arrived - filled;
    if (line[LINE_MARK_PLACE] == MARK_LET_GO)
        figures.let_go = ordered - filled;
    else
        figures.still_open = ordered - filled;
    return figures;
}

/* What a line tells: its figures, and its last report's message and expected date. */
static wq_told tell_line(const uint8_t *line)
{
    const uint8_t *expected = line + LINE_EXPECTED_PLACE;
    wq_told told = figures_of(line);
    told.message = get_le16(line + LINE_MESSAGE_PLACE);
    told.expected = ref_expected_form(expected);
    if (told.expected == EXPECTED_DAY) {
        struct day day = ref_day_of(expected);
        told.year = day.year;
        told.month = day.month;
        told.day = day.day;
    }
    return told;
}

/* What a booking tells: what its line does, and whether the record's title, article and
   qualifier, is the one that is kept in the line. */
static wq_booked booked_on(const uint8_t *line, const uint8_t *title)
{
    wq_told told = tell_line(line);
    wq_booked booked = refused(DONE, 0);
    booked.ordered = told.ordered;
    booked.filled = told.filled;
    booked.still_open = told.still_open;
    booked.let_go = told.let_go;
    booked.extra = told.extra;
    booked.agreed = memcmp(line + LINE_TITLE_PLACE, title, TITLE_WIDTH) == 0;
    booked.message = told.message;
    booked.expected = told.expected;
    booked.year = told.year;
    booked.month = told.month;
    booked.day = told.day;
    return booked;
}

/* "The line's key is school, supplier and reference." In B101 the school is the sender; in
   L101 and M101 the recipient. */
static void line_key_of(const uint8_t *record, enum record_kind kind, uint8_t *key)
{
    size_t school = kind == ORDER ? SENDER_PLACE : RECIPIENT_PLACE;
    size_t supplier = kind == ORDER ? RECIPIENT_PLACE : SENDER_PLACE;
    size_t reference = kind == ORDER ? ORDER_REFERENCE_PLACE
                     : kind == DELIVERY ? DELIVERY_REFERENCE_PLACE : REPORT_REFERENCE_PLACE;
    memcpy(key, record + school, PARTY_WIDTH);
    memcpy(key + PARTY_WIDTH, record + supplier, PARTY_WIDTH);
    memcpy(key + 2 * PARTY_WIDTH, record + reference, REFERENCE_WIDTH);
}

/* A closing record has no date, an advance notice no slip number: 13 for both. */
static int is_nothing_to_book(const uint8_t *record, enum record_kind kind)
{
    return kind == DELIVERY
        && (ref_is_closing(kind, record) || record[DELIVERY_SLIP_PLACE] == ' ');
}

static size_t copies_of(const uint8_t *record, enum record_kind kind)
{
    size_t place = kind == ORDER ? ORDER_QUANTITY_PLACE : DELIVERY_QUANTITY_PLACE;
    return ref_number(record + place, QUANTITY_WIDTH);
}

/* The copies open on all used lines of a school, also on lines whose key repeats. */
static size_t open_copies(const struct book *book, const uint8_t *school)
{
    size_t open = 0;
    for (size_t i = 0; i < book->used_lines; i++)
        if (memcmp(line_at(book, i), school, PARTY_WIDTH) == 0)
            open += figures_of(line_at(book, i)).still_open;
    return open;
}

/* An accepted order adds a line, which keeps its title; 14, 25, 15. The key begins with the
   school. */
static wq_booked book_order(const struct book *book, const uint8_t *record, const uint8_t *key,
                            size_t copies, size_t ceiling, uint8_t *lines, size_t *used)
{
    const uint8_t *title = record + ORDER_TITLE_PLACE;
    if (find_line(book, key) < book->used_lines)
        return refused(LINE_EXISTS, 0);
    if (open_copies(book, key) + copies > ceiling)
        return refused(CEILING_PASSED, 0);
    if (book->used_lines == book->line_room)
        return refused(LINES_FULL, 0);
    uint8_t *line = lines + book->used_lines * LINE_WIDTH;
    memcpy(line, key, LINE_KEY_WIDTH);
    memcpy(line + LINE_TITLE_PLACE, title, TITLE_WIDTH);
    put_le16(line + LINE_ORDERED_PLACE, copies);
    line[LINE_MARK_PLACE] = MARK_NONE;
    put_no_message(line, NO_REPORT);
    put_le32(line + LINE_ARRIVED_PLACE, 0);
    used[0]++;
    return booked_on(line, title);
}

/* 17 where the first slip with the key has the same line key and quantity, else 18. No title
   is looked at. */
static enum answer slip_again(const struct book *book, size_t index,
                              const uint8_t *line_key, size_t copies)
{
    const uint8_t *slip = slip_at(book, index);
    const uint8_t *line = line_at(book, get_le16(slip + SLIP_LINE_PLACE));
    int same = memcmp(line, line_key, LINE_KEY_WIDTH) == 0
            && get_le16(slip + SLIP_COPIES_PLACE) == copies;
    return same ? SLIP_REPEATED : SLIP_DIFFERS;
}

/* An accepted delivery adds a slip; 17 or 18, 16, 21, 19. The slip's key (supplier,
   school, date, slip number, position) stands in one piece in the record. */
static wq_booked book_delivery(const struct book *book, const uint8_t *record,
                               const uint8_t *line_key, size_t copies,
                               uint8_t *lines, uint8_t *slips, size_t *used)
{
    const uint8_t *slip_key = record + SENDER_PLACE;
    size_t again = find_slip(book, slip_key);
    if (again < book->used_slips)
        return refused(slip_again(book, again, line_key, copies), 0);
    size_t index = find_line(book, line_key);
    if (index == book->used_lines)
        return refused(NO_SUCH_LINE, 0);
    uint8_t *line = lines + index * LINE_WIDTH;
    size_t arrived = get_le32(line + LINE_ARRIVED_PLACE) + copies;
    if (arrived > MOST_ARRIVED)
        return refused(ARRIVED_OVER_LIMIT, 0);
    if (book->used_slips == book->slip_room)
        return refused(SLIPS_FULL, 0);
    uint8_t *slip = slips + book->used_slips * SLIP_WIDTH;
    memcpy(slip, slip_key, SLIP_KEY_WIDTH);
    put_le16(slip + SLIP_LINE_PLACE, index);
    put_le16(slip + SLIP_COPIES_PLACE, copies);
    put_le32(line + LINE_ARRIVED_PLACE, arrived);
    used[1]++;
    return booked_on(line, record + DELIVERY_TITLE_PLACE);
}

/* An accepted report sets the mark, the message and the expected date; 16. */
static wq_booked book_report(const struct book *book, const uint8_t *record,
                             const uint8_t *key, uint8_t *lines)
{
    size_t index = find_line(book, key);
    if (index == book->used_lines)
        return refused(NO_SUCH_LINE, 0);
    uint8_t *line = lines + index * LINE_WIDTH;
    size_t message = ref_number(record + REPORT_MESSAGE_PLACE, MESSAGE_WIDTH);
    line[LINE_MARK_PLACE] = record[REPORT_HOLD_PLACE] == 'N' ? MARK_LET_GO : MARK_HELD;
    put_le16(line + LINE_MESSAGE_PLACE, message);
    memcpy(line + LINE_EXPECTED_PLACE, record + REPORT_EXPECTED_PLACE, DATE_WIDTH);
    return booked_on(line, record + REPORT_TITLE_PLACE);
}

/* Book: 20, 1 to 10, 13, 11, 12, 24, then the answers of the kind. */
wq_booked ref_book(const uint8_t *record, size_t record_length,
                   const uint8_t *roster, size_t roster_length,
                   uint8_t *lines, size_t lines_length,
                   uint8_t *slips, size_t slips_length, size_t *used)
{
    struct book book;
    struct optional_field fields[MOST_FIELDS];
    size_t count;
    uint8_t key[LINE_KEY_WIDTH];
    if (!ref_roster_fits(roster_length)
        || !ref_open_book(lines, lines_length, slips, slips_length, used, &book))
        return refused(BOOK_UNSOUND, 0);
    struct verdict verdict = ref_judge_record(record, record_length, fields, &count);
    if (verdict.answer != DONE)
        return refused((enum answer)verdict.answer, verdict.place);
    enum record_kind kind = ref_kind_of(record, record_length);
    if (is_nothing_to_book(record, kind))
        return refused(NOTHING_TO_BOOK, 0);
    if (kind != REPORT && copies_of(record, kind) == 0)
        return refused(QUANTITY_ZERO, 0);
    line_key_of(record, kind, key);
    if (key[2 * PARTY_WIDTH] == ' ')
        return refused(REFERENCE_BLANK, 0);
    const uint8_t *school = ref_find_school(roster, roster_length, key);
    if (school == NULL)
        return refused(NOT_ON_ROSTER, 0);
    if (kind == ORDER)
        return book_order(&book, record, key, copies_of(record, kind), ref_ceiling_of(school),
                          lines, used);
    if (kind == REPORT)
        return book_report(&book, record, key, lines);
    return book_delivery(&book, record, key, copies_of(record, kind), lines, slips, used);
}

/* A key field as the caller hands it over, and the width it has to have. */
struct key_part { const uint8_t *bytes; size_t length, width; };

enum { KEY_PARTS = 5 };

/* Joins the key's fields; 0 where one has the wrong length. */
static int join_key(const struct key_part *parts, uint8_t *key)
{
    for (size_t i = 0; i < KEY_PARTS; i++) {
        if (parts[i].length != parts[i].width)
            return 0;
        memcpy(key, parts[i].bytes, parts[i].width);
        key += parts[i].width;
    }
    return 1;
}

/* A call by key gives what a line tells, or 20, then 16; a key field of wrong length
   matches no line. */
wq_told ref_line(const uint8_t *school, size_t school_length,
                 const uint8_t *school_qualifier, size_t school_qualifier_length,
                 const uint8_t *supplier, size_t supplier_length,
                 const uint8_t *supplier_qualifier, size_t supplier_qualifier_length,
                 const uint8_t *reference, size_t reference_length,
                 const uint8_t *lines, size_t lines_length,
                 const uint8_t *slips, size_t slips_length, const size_t *used)
{
    const struct key_part parts[KEY_PARTS] = {
        {school, school_length, ADDRESS_WIDTH},
        {school_qualifier, school_qualifier_length, QUALIFIER_WIDTH},
        {supplier, supplier_length, ADDRESS_WIDTH},
        {supplier_qualifier, supplier_qualifier_length, QUALIFIER_WIDTH},
        {reference, reference_length, REFERENCE_WIDTH}
    };
    struct book book;
    uint8_t key[LINE_KEY_WIDTH];
    if (!ref_open_book(lines, lines_length, slips, slips_length, used, &book))
        return not_told(BOOK_UNSOUND);
    if (!join_key(parts, key))
        return not_told(NO_SUCH_LINE);
    size_t index = find_line(&book, key);
    return index < book.used_lines ? tell_line(line_at(&book, index)) : not_told(NO_SUCH_LINE);
}
