/* What the program says about a record. */
#include "words.h"
#include "text.h"

#include <inttypes.h>
#include <string.h>

enum {
    LAST_ANSWER = WQ_MESSAGE_LOST,
    QUANTITY_WIDTH = 4,
    FULL_ARTICLE_WIDTH = WQ_ARTICLE_WIDTH + WQ_QUALIFIER_WIDTH
};

static const char *const answer_words[LAST_ANSWER + 1] = {
    "done",
    "the record is over 1024 bytes",
    "no known kind of record",
    "the record is cut short",
    "a byte that is not allowed",
    "a field breaks its rule",
    "an optional field has no star or no four digits",
    "*9999 is missing or not last",
    "more than 96 optional fields",
    "an optional field has a wrong content",
    "optional fields that belong together are apart",
    "the quantity is 0",
    "the reference is blank",
    "closing record or advance notice: nothing to book",
    "the book has an order with this school, supplier and reference already",
    "all 512 lines of the book are used",
    "the book has no order with this school, supplier and reference",
    "this slip is booked already: not booked twice",
    "this slip is booked already with another reference or quantity",
    "all 1024 slips of the book are used",
    "the book is unsound",
    "more than 9999999 copies on one line",
    "the saved book is damaged",
    "the room is too small",
    "the school is not on the roster",
    "the order would bring the school above its ceiling",
    "a bundle without parts, or with parts that are not as they must be",
    "a bundle of more than eight parts",
    "the old form has no place for messages"
};

/* How a field is told where a record is named. */
enum telling {
    UNTOLD,
    TOLD,           /* with its name */
    BEHIND          /* right behind the field before it, as a qualifier is */
};

/* The fixed fields of each kind, in order. */
struct field { const char *name; size_t width; enum telling telling; };

static const struct field order_fields[] = {
    {"kind", WQ_KIND_WIDTH, UNTOLD},
    {"school", WQ_ADDRESS_WIDTH, TOLD}, {"school qualifier", WQ_QUALIFIER_WIDTH, BEHIND},
    {"supplier", WQ_ADDRESS_WIDTH, TOLD}, {"supplier qualifier", WQ_QUALIFIER_WIDTH, BEHIND},
    {"date", WQ_DATE_WIDTH, UNTOLD}, {"reference", WQ_REFERENCE_WIDTH, TOLD},
    {"article", WQ_ARTICLE_WIDTH, TOLD}, {"article qualifier", WQ_QUALIFIER_WIDTH, BEHIND},
    {"quantity", QUANTITY_WIDTH, TOLD}, {"order qualifier", WQ_QUALIFIER_WIDTH, UNTOLD},
    {NULL, 0, UNTOLD}
};

static const struct field delivery_fields[] = {
    {"kind", WQ_KIND_WIDTH, UNTOLD},
    {"supplier", WQ_ADDRESS_WIDTH, TOLD}, {"supplier qualifier", WQ_QUALIFIER_WIDTH, BEHIND},
    {"school", WQ_ADDRESS_WIDTH, TOLD}, {"school qualifier", WQ_QUALIFIER_WIDTH, BEHIND},
    {"date", WQ_DATE_WIDTH, TOLD}, {"slip number", WQ_SLIP_NUMBER_WIDTH, TOLD},
    {"position", WQ_POSITION_WIDTH, TOLD}, {"reference", WQ_REFERENCE_WIDTH, TOLD},
    {"article", WQ_ARTICLE_WIDTH, TOLD}, {"article qualifier", WQ_QUALIFIER_WIDTH, BEHIND},
    {"quantity", QUANTITY_WIDTH, TOLD}, {"price", 15, UNTOLD}, {"price qualifier", 2, UNTOLD},
    {"currency", 3, UNTOLD}, {"discount", 8, UNTOLD}, {"tax mark", 1, UNTOLD},
    {NULL, 0, UNTOLD}
};

static const struct field report_fields[] = {
    {"kind", WQ_KIND_WIDTH, UNTOLD},
    {"supplier", WQ_ADDRESS_WIDTH, TOLD}, {"supplier qualifier", WQ_QUALIFIER_WIDTH, BEHIND},
    {"school", WQ_ADDRESS_WIDTH, TOLD}, {"school qualifier", WQ_QUALIFIER_WIDTH, BEHIND},
    {"slip number", WQ_SLIP_NUMBER_WIDTH, TOLD}, {"reference", WQ_REFERENCE_WIDTH, TOLD},
    {"article", WQ_ARTICLE_WIDTH, TOLD}, {"article qualifier", WQ_QUALIFIER_WIDTH, BEHIND},
    {"message", 3, TOLD}, {"hold mark", 1, TOLD}, {"expected date", WQ_DATE_WIDTH, TOLD},
    {"partial quantity", QUANTITY_WIDTH, UNTOLD},
    {NULL, 0, UNTOLD}
};

const char *words_for(uint64_t answer)
{
    return answer <= LAST_ANSWER ? answer_words[answer] : "unknown answer";
}

/* The fields of a record of known kind. */
static const struct field *fields_of(const struct record *record)
{
    switch (record->bytes[0]) {
    case 'B': return order_fields;
    case 'L': return delivery_fields;
    default: return report_fields;
    }
}

/* The name of the fixed field that starts at a place. */
static const char *field_at(const struct record *record, uint64_t place)
{
    const struct field *field = fields_of(record);
    size_t start = 0;
    while (field[1].name != NULL && start < place)
        start += (field++)->width;
    return field->name;
}

/* Where the fixed field of a name starts in the record. */
static const uint8_t *field_named(const struct record *record, const char *name)
{
    const struct field *field = fields_of(record);
    const uint8_t *start = record->bytes;
    while (field->name != NULL && strcmp(field->name, name) != 0)
        start += (field++)->width;
    return start;
}

/* Some bytes of the record as text, after a word. */
static void print_bytes(FILE *to, const char *word, const struct record *record, size_t place,
                        size_t width)
{
    char text[TEXT_ROOM];
    if (place > record->length)
        place = record->length;
    if (width > record->length - place)
        width = record->length - place;
    text_of(record->bytes + place, width, text);
    fprintf(to, "%s %s", word, text[0] == '\0' ? "blank" : text);
}

/* What is wrong in a record that cannot be read: what stands there, and where. */
static void print_fault(FILE *to, const struct record *record, const wq_booked *booked)
{
    size_t place = (size_t)booked->place;
    switch (booked->answer) {
    case WQ_TOO_LONG:
        fprintf(to, ": %zu bytes", record->length);
        break;
    case WQ_UNKNOWN_KIND:
        print_bytes(to, ":", record, place, WQ_KIND_WIDTH);
        break;
    case WQ_BYTE_NOT_ALLOWED:
        fprintf(to, ": byte %u", (unsigned)record->bytes[place]);
        break;
    case WQ_FIXED_FIELD:
        fprintf(to, ": %s", field_at(record, place));
        break;
    case WQ_CONTENT:
    case WQ_GROUP:
        print_bytes(to, ": field", record, place, WQ_FIELD_HEAD);
        break;
    }
    fprintf(to, " (place %" PRIu64 ")", booked->place);
}

/* The fields that name what a record is about. The record has its whole fixed part. */
static void print_fields(FILE *to, const struct record *record)
{
    const char *before = " |";
    size_t place = 0;
    for (const struct field *field = fields_of(record); field->name != NULL; field++) {
        if (field->telling == TOLD) {
            fprintf(to, "%s %s", before, field->name);
            before = ",";
        }
        if (field->telling == TOLD || (field->telling == BEHIND && record->bytes[place] != ' '))
            print_bytes(to, "", record, place, field->width);
        place += field->width;
    }
}

/* The entry of the line that has a record's school, supplier and reference, or NULL. */
static const uint8_t *line_of(const struct record *record, const struct book *book)
{
    uint8_t key[WQ_LINE_KEY_WIDTH];
    memcpy(key + WQ_LINE_SCHOOL, field_named(record, "school"), ACCOUNT_WIDTH);
    memcpy(key + WQ_LINE_SUPPLIER, field_named(record, "supplier"), ACCOUNT_WIDTH);
    memcpy(key + WQ_LINE_REFERENCE, field_named(record, "reference"), WQ_REFERENCE_WIDTH);
    return book_line(book, key);
}

/* What the line was ordered with that has an order's key already: the same order once more,
   or another article under a reference that is taken. */
static void print_line_booked(FILE *to, const struct record *record, const struct book *book)
{
    const uint8_t *line = line_of(record, book), *article = field_named(record, "article");
    char ordered[ACCOUNT_ROOM];
    if (line == NULL)
        return;
    text_with_qualifier(line + WQ_LINE_ARTICLE, WQ_ARTICLE_WIDTH, ordered);
    fprintf(to, " | in the book: %s %s, quantity %04" PRIu64,
            memcmp(line + WQ_LINE_ARTICLE, article, FULL_ARTICLE_WIDTH) == 0
            ? "article" : "another article,", ordered, book_figures(book, line).ordered);
}

/* What the slip was booked with that has a delivery's slip key already, and what was ordered
   there. A slip does not keep the article that it named. */
static void print_slip_booked(FILE *to, const struct record *record, const struct book *book)
{
    const uint8_t *slip = book_slip(book, record->bytes + WQ_KIND_WIDTH), *line;
    char reference[TEXT_ROOM], ordered[ACCOUNT_ROOM];
    if (slip == NULL)
        return;
    line = book_line_of_slip(book, slip);
    text_of(line + WQ_LINE_REFERENCE, WQ_REFERENCE_WIDTH, reference);
    text_with_qualifier(line + WQ_LINE_ARTICLE, WQ_ARTICLE_WIDTH, ordered);
    fprintf(to, " | in the book: reference %s, quantity %04u, ordered as %s", reference,
            book_copies_of_slip(slip), ordered);
}

/* The account that is not on the roster, and those on it that may have been meant. */
static void print_not_on_roster(FILE *to, const struct record *record, const struct book *book)
{
    char account[ACCOUNT_ROOM];
    text_with_qualifier(record_school(record), WQ_ADDRESS_WIDTH, account);
    fprintf(to, " | %s is not on the roster", account);
    roster_print_similar(to, book->roster, "; similar there:", record_school(record));
}

/* Why an order would pass its school's ceiling. */
static void print_ceiling_passed(FILE *to, const struct record *record, const struct book *book)
{
    uint64_t copies = book_open_copies(book, record_school(record)), quantity = 0;
    for (size_t i = 0; i < QUANTITY_WIDTH; i++)
        quantity = 10 * quantity + (uint64_t)(field_named(record, "quantity")[i] - '0');
    fprintf(to, " | open for the school %" PRIu64 ", with this order %" PRIu64 ", ceiling %" PRIu64,
            copies, copies + quantity, roster_account(book->roster, record_school(record)).ceiling);
}

/* Both articles of a record that was booked on a line with another one than its own: a
   supplier may answer with its own number for a title. */
static void print_articles(FILE *to, const struct record *record, const struct book *book)
{
    const uint8_t *line = line_of(record, book);
    char ordered[ACCOUNT_ROOM], answered[ACCOUNT_ROOM];
    if (line == NULL)
        return;
    text_with_qualifier(line + WQ_LINE_ARTICLE, WQ_ARTICLE_WIDTH, ordered);
    text_with_qualifier(field_named(record, "article"), WQ_ARTICLE_WIDTH, answered);
    fprintf(to, " | another article: ordered as %s, answered as %s", ordered, answered);
}

/* What came of a record that was booked. */
static void print_booked(FILE *to, const struct record *record, const wq_booked *booked,
                         const struct book *book)
{
    if (!booked->agreed)
        print_articles(to, record, book);
    fprintf(to, " | ordered %" PRIu64 ", filled %" PRIu64 ", open %" PRIu64
            ", let go %" PRIu64 ", extra %" PRIu64, booked->ordered, booked->filled,
            booked->still_open, booked->let_go, booked->extra);
}

void print_outcome(FILE *to, const struct record *record, const wq_booked *booked,
                   const struct book *book)
{
    int known = booked->answer != WQ_TOO_LONG && booked->answer != WQ_UNKNOWN_KIND;
    fprintf(to, "%.*s %" PRIu64 " %s", known ? WQ_KIND_WIDTH : 1,
            known ? (const char *)record->bytes : "?", booked->answer, words_for(booked->answer));
    if (booked->answer != WQ_DONE && booked->answer <= WQ_GROUP)
        print_fault(to, record, booked);
    if (known && booked->answer != WQ_TOO_SHORT)
        print_fields(to, record);
    if (booked->answer == WQ_LINE_EXISTS)
        print_line_booked(to, record, book);
    else if (booked->answer == WQ_SLIP_DIFFERS)
        print_slip_booked(to, record, book);
    else if (booked->answer == WQ_NOT_ON_ROSTER)
        print_not_on_roster(to, record, book);
    else if (booked->answer == WQ_CEILING_PASSED)
        print_ceiling_passed(to, record, book);
    else if (booked->answer == WQ_DONE)
        print_booked(to, record, booked, book);
}

void print_answer(FILE *to, const char *name, unsigned long number, const struct record *record,
                  const wq_booked *booked, const struct book *book)
{
    print_name(to, name);
    fprintf(to, ":%lu ", number);
    print_outcome(to, record, booked, book);
    fputc('\n', to);
}
