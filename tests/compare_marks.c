/* Cases for the allowed bytes: every byte in names and contents, read, written and saved; and
   typographic marks in what is booked. */
#include "cases.h"

#include <string.h>

enum {
    BYTES = 256, HARD_BLANK = 160, HEAD = 5, TITLE = 5, LONGEST_CONTENT = 64, ORDERED = 9,
    DELIVERED = 4
};

/* An answer and its place that the documents leave. */
struct wanted { uint64_t answer, place; };

static const struct wanted done = {0, 0};

/* Reads the sheet's record and writes it, with these answers; it is written as it is read. */
static void read_and_write(const struct sheet *sheet, struct wanted read, struct wanted written)
{
    uint8_t record[RECORD_ROOM], out[IN_LONGEST];
    size_t length = assemble(sheet, record);
    uint64_t answer = both_check(record, length, IN_FULL_TABLE);
    insist(answer == read.answer && tally.place == read.place,
           "every byte has its answer and place in reading");
    answer = both_write(sheet, sheet->fixed_length, 3 * sheet->count, sheet->contents_length,
                        out, sizeof out);
    insist(answer == written.answer && tally.place == written.place,
           "every byte has its answer and place in writing");
    insist(answer != 0 || (tally.value == length && memcmp(out, record, length) == 0),
           "a record is written with the bytes that are read");
}

/* Counts a typographic mark that is taken, and a byte between the marks that is refused; the
   classes of these begin with that of 127. */
static void count_byte(uint8_t byte, uint64_t answer, enum class taken, enum class refused_127)
{
    static const uint8_t between_marks[] = {127, 129, 141, 143, 144, 157};
    came_up(taken, answer == 0 && is_typographic(byte));
    for (size_t i = 0; i < sizeof between_marks; i++)
        came_up((enum class)(refused_127 + i), answer != 0 && byte == between_marks[i]);
}

/* A record with a byte that is not allowed, brought to be booked. */
static void refuse_to_book(struct dice *dice, const struct sheet *sheet, size_t place)
{
    static struct shelf shelf;
    uint8_t record[RECORD_ROOM];
    make_shelf(dice, &shelf, 1, 1);
    expect(NOT_ALLOWED_TO_BOOK, 1, book_listed(dice, record, assemble(sheet, record), &shelf), 4);
    insist(tally.place == place, "4 has its place in booking too");
}

/* A reference or a slip number in the fixed part of a record: index and place of the field,
   and the classes of a typographic mark there. */
struct name {
    enum shape shape;
    size_t index, place;
    enum class read, written;
};

static const struct name names[] = {
    {ORDER_SHAPE, 6, 36, MARK_READ_IN_REFERENCE, MARK_WRITTEN_IN_REFERENCE},
    {GOODS_SHAPE, 8, 50, MARK_READ_IN_REFERENCE, MARK_WRITTEN_IN_REFERENCE},
    {REPORT_SHAPE, 6, 38, MARK_READ_IN_REFERENCE, MARK_WRITTEN_IN_REFERENCE},
    {GOODS_SHAPE, 6, 36, MARK_READ_IN_SLIP_NUMBER, MARK_WRITTEN_IN_SLIP_NUMBER},
    {REPORT_SHAPE, 5, 28, MARK_READ_IN_SLIP_NUMBER, MARK_WRITTEN_IN_SLIP_NUMBER}
};

/* The byte somewhere in a name: read and written, or 4 in reading and 5 in writing. A blank in
   front is 5 in both, and so is a barred byte of an order. */
static void put_in_name(struct dice *dice, const struct name *name, uint8_t byte)
{
    struct sheet sheet;
    size_t at = below(dice, IN_NAME);
    const struct wanted not_allowed = {4, name->place + at}, broken = {5, name->place},
                        unwritten = {5, name->index};
    int bars = name->shape == ORDER_SHAPE;
    int breaks = (byte == ' ' && at == 0) || (bars && is_barred(byte));
    struct wanted read = !is_allowed(byte) ? not_allowed : breaks ? broken : done;
    struct wanted written = read.answer == 0 ? done : unwritten;
    make_sheet(dice, &sheet, name->shape, 2);
    memcpy(sheet.fixed + name->place, "Faust II/7", IN_NAME);
    sheet.fixed[name->place + at] = byte;
    read_and_write(&sheet, read, written);
    count_byte(byte, read.answer, name->read, BYTE_127_IS_4);
    count_byte(byte, written.answer, name->written, BYTE_127_IS_5);
    came_up(MARK_WHERE_OTHERS_ARE_BARRED, bars && is_typographic(byte));
    if (!is_allowed(byte))
        refuse_to_book(dice, &sheet, not_allowed.place);
}

/* A content that takes any bytes, but in some of an order's not the barred ones. */
struct content {
    enum shape shape;
    size_t id;
    int bars;
};

static const struct content contents[] = {
    {ORDER_SHAPE, 1017, 0}, {GOODS_SHAPE, 1017, 0}, {REPORT_SHAPE, 1017, 0},
    {ORDER_SHAPE, 8888, 0}, {GOODS_SHAPE, 1003, 0}, {ORDER_SHAPE, 1001, 1},
    {ORDER_SHAPE, 1003, 1}, {ORDER_SHAPE, 1051, 1}, {ORDER_SHAPE, 9010, 1}
};

/* The byte somewhere in a content: read and written, or 4 in reading and 9 in writing. A star
   ends the content, and no ID follows it: 6. A barred byte is 9 in both. */
static void put_in_content(struct dice *dice, const struct content *content, uint8_t byte)
{
    struct sheet sheet;
    uint8_t record[RECORD_ROOM], title[] = "Faust";
    size_t at = below(dice, TITLE);
    make_sheet(dice, &sheet, content->shape, 2);
    size_t index = sheet.count, place = assemble(&sheet, record);
    const struct wanted not_allowed = {4, place + at}, no_field = {6, place + at},
                        broken = {9, place - HEAD}, unwritten = {9, index};
    struct wanted read = !is_allowed(byte) ? not_allowed : byte == '*' ? no_field
                       : content->bars && is_barred(byte) ? broken : done;
    struct wanted written = read.answer == 0 ? done : unwritten;
    title[at] = byte;
    add_with_group(dice, &sheet, content->id, title, TITLE);
    read_and_write(&sheet, read, written);
    count_byte(byte, read.answer, MARK_READ_IN_CONTENT, BYTE_127_IS_4);
    count_byte(byte, written.answer, MARK_WRITTEN_IN_CONTENT, BYTE_127_IS_9);
    came_up(MARK_WHERE_OTHERS_ARE_BARRED, content->bars && is_typographic(byte));
}

/* Fixed fields whose rules take no typographic mark, by index and place. */
static const struct { enum shape shape; size_t index, place; } ruled_fields[] = {
    {ORDER_SHAPE, 1, 4}, {ORDER_SHAPE, 4, 26}, {ORDER_SHAPE, 5, 28}, {ORDER_SHAPE, 8, 59},
    {ORDER_SHAPE, 9, 61}, {ORDER_SHAPE, 10, 65}, {GOODS_SHAPE, 7, 46}, {GOODS_SHAPE, 9, 60},
    {GOODS_SHAPE, 12, 79}, {GOODS_SHAPE, 14, 96}, {GOODS_SHAPE, 16, 107},
    {CLOSING_SHAPE, 6, 36}, {REPORT_SHAPE, 9, 63}, {REPORT_SHAPE, 10, 66},
    {REPORT_SHAPE, 11, 67}, {REPORT_SHAPE, 12, 75}
};

/* A mark that breaks a field's rule: an allowed byte, so 5 in reading and not 4. */
static void break_fields(struct dice *dice, uint8_t mark)
{
    struct sheet sheet;
    for (size_t i = 0; i < sizeof ruled_fields / sizeof ruled_fields[0]; i++) {
        const struct wanted read = {5, ruled_fields[i].place},
                            written = {5, ruled_fields[i].index};
        make_sheet(dice, &sheet, ruled_fields[i].shape, 2);
        sheet.fixed[ruled_fields[i].place] = mark;
        read_and_write(&sheet, read, written);
        came_up(MARK_IN_RULED_FIELD, 1);
    }
}

/* The same in contents of digits, choices and days: 9. */
static void break_contents(struct dice *dice, uint8_t mark)
{
    static const size_t ids[] = {1029, 1045, 1107, 1151, 1201, 1203, 9012};
    struct sheet sheet;
    uint8_t record[RECORD_ROOM], content[LONGEST_CONTENT];
    for (size_t i = 0; i < sizeof ids / sizeof ids[0]; i++) {
        make_sheet(dice, &sheet, (enum shape)below(dice, SHAPES), 2);
        const struct wanted read = {9, assemble(&sheet, record) - HEAD},
                            written = {9, sheet.count};
        size_t length = make_content(dice, ids[i], 0, content);
        content[below(dice, length)] = mark;
        add_with_group(dice, &sheet, ids[i], content, length);
        read_and_write(&sheet, read, written);
        came_up(MARK_IN_RULED_CONTENT, 1);
    }
}

/* Fields with blanks: place, text, and which of its blanks is changed. */
static const struct { enum shape shape; size_t place; const char *text; size_t blank; }
blank_fields[] = {
    {ORDER_SHAPE, 4, "43210     VD", 9}, {ORDER_SHAPE, 46, "344275688X   IB", 12},
    {ORDER_SHAPE, 46, "1234567      KN", 7}, {ORDER_SHAPE, 46, "123     45678RK", 3},
    {ORDER_SHAPE, 36, "          ", 9}, {CLOSING_SHAPE, 36, "          ", 5},
    {REPORT_SHAPE, IN_REPORT_EXPECTED, BLANK_DATE, 0}
};

/* Only 32 is a blank: with the byte for one of its blanks each field is 5. */
static void break_blanks(struct dice *dice, uint8_t byte)
{
    struct sheet sheet;
    uint8_t record[RECORD_ROOM];
    for (size_t i = 0; i < sizeof blank_fields / sizeof blank_fields[0]; i++) {
        const char *text = blank_fields[i].text;
        size_t place = blank_fields[i].place;
        make_sheet(dice, &sheet, blank_fields[i].shape, 0);
        memcpy(sheet.fixed + place, text, strlen(text));
        size_t length = assemble(&sheet, record);
        insist(both_check(record, length, IN_FULL_TABLE) == 0, "a field may hold its blanks");
        record[place + blank_fields[i].blank] = byte;
        expect(OTHER_BYTE_FOR_BLANK, 1, both_check(record, length, IN_FULL_TABLE), 5);
        insist(tally.place == place, "5 stands at the field with the blanks");
    }
}

/* The byte somewhere in the name of a stored line or slip. The line is found whatever it is;
   the save is loaded, or 22. A blank in front is 22 too. */
static void put_in_book(struct dice *dice, int in_line, uint8_t byte)
{
    enum { ENTRIES = 2 };
    static struct shelf shelf, loaded;
    size_t at = below(dice, IN_NAME), entry = below(dice, ENTRIES);
    uint64_t wanted = !is_allowed(byte) || (byte == ' ' && at == 0) ? 22 : 0;
    make_shelf(dice, &shelf, ENTRIES, ENTRIES);
    stock_unique(dice, &shelf, ENTRIES, ENTRIES);
    uint8_t *line = shelf.lines + entry * IN_LINE, *slip = shelf.slips + entry * IN_SLIP;
    *(in_line ? line + IN_REFERENCE + at : slip + IN_SLIP_NUMBER + at) = byte;
    insist(ask_line(line, &shelf) == 0, "a line is found whatever its key holds");
    insist(load_again(dice, &shelf, &loaded) == wanted,
           "a save is loaded just where its names hold allowed bytes");
    count_byte(byte, wanted, in_line ? MARK_IN_SAVED_LINE : MARK_IN_SAVED_SLIP, BYTE_127_IS_22);
}

/* The keys of a line and of its slip, and where the mark stands in the name of each. */
struct marked { uint8_t key[IN_TITLED], slip[IN_SLIP_KEY], *in_reference, *in_number; };

static uint64_t book_marked(struct dice *dice, struct shelf *shelf, enum shape shape,
                            const struct marked *marked, size_t copies)
{
    return book_one(dice, shelf, shape, marked->key, copies,
                    shape == GOODS_SHAPE ? marked->slip : NULL);
}

/* A line and a slip that the book has are found by their names. */
static void find_again(struct dice *dice, struct shelf *shelf, const struct marked *marked)
{
    expect(LINE_ASKED_BY_MARK, 1, ask_line(marked->key, shelf), 0);
    insist(tally.value == ORDERED, "the line that was ordered is found");
    expect(ORDER_AGAIN_BY_MARK, 1, book_marked(dice, shelf, ORDER_SHAPE, marked, ORDERED), 14);
    expect(SLIP_AGAIN_BY_MARK, 1, book_marked(dice, shelf, GOODS_SHAPE, marked, DELIVERED), 17);
    expect(SLIP_DIFFERS_BY_MARK, 1,
           book_marked(dice, shelf, GOODS_SHAPE, marked, DELIVERED + 1), 18);
    expect(REPORT_BY_MARK, 1, book_marked(dice, shelf, REPORT_SHAPE, marked, 0), 0);
}

/* Another byte for the mark, also the plain sign that it is like, makes another name. */
static void miss_by_others(struct dice *dice, struct shelf *shelf, struct marked *marked)
{
    uint8_t mark = *marked->in_reference;
    const uint8_t others[] = {'-', '\'', '"', '.', '?', ' ', 26, 127, 129, 157, 160,
                              (uint8_t)(mark ^ 1), (uint8_t)(mark ^ 0x80)};
    for (size_t i = 0; i < sizeof others; i++) {
        *marked->in_reference = others[i];
        expect(OTHER_BYTE_FOR_MARK, 1, ask_line(marked->key, shelf), 16);
    }
    *marked->in_reference = mark;
    *marked->in_number = '-';
    expect(OTHER_SLIP_THAN_MARK, 1,
           book_marked(dice, shelf, GOODS_SHAPE, marked, DELIVERED), 0);
    *marked->in_reference = '-';
    expect(OTHER_BYTE_FOR_MARK, 1, book_marked(dice, shelf, REPORT_SHAPE, marked, 0), 16);
    expect(OTHER_BYTE_FOR_MARK, 1, book_marked(dice, shelf, ORDER_SHAPE, marked, ORDERED), 0);
}

/* An order with the mark in its reference, and a delivery for it with the mark in its slip
   number: booked, found again, saved, loaded and found again. */
static void book_mark(struct dice *dice, uint8_t mark)
{
    static struct shelf shelf, loaded;
    struct marked marked;
    unique_line_key(marked.key, 0);
    unique_slip_key(marked.slip, 0);
    marked.in_reference = marked.key + IN_REFERENCE + below(dice, IN_NAME);
    marked.in_number = marked.slip + IN_SLIP_NUMBER + below(dice, IN_NAME);
    *marked.in_reference = *marked.in_number = mark;
    make_shelf(dice, &shelf, 2, 2);
    expect(ORDER_WITH_MARK, 1, book_marked(dice, &shelf, ORDER_SHAPE, &marked, ORDERED), 0);
    expect(DELIVERY_WITH_MARK, 1,
           book_marked(dice, &shelf, GOODS_SHAPE, &marked, DELIVERED), 0);
    find_again(dice, &shelf, &marked);
    insist(load_again(dice, &shelf, &loaded) == 0, "a book with typographic marks is loaded");
    find_again(dice, &loaded, &marked);
    miss_by_others(dice, &loaded, &marked);
}

void compare_marks(struct dice *dice)
{
    for (size_t i = 0; i < BYTES; i++) {
        uint8_t byte = (uint8_t)i;
        for (size_t j = 0; j < sizeof names / sizeof names[0]; j++)
            put_in_name(dice, &names[j], byte);
        for (size_t j = 0; j < sizeof contents / sizeof contents[0]; j++)
            put_in_content(dice, &contents[j], byte);
        put_in_book(dice, 1, byte);
        put_in_book(dice, 0, byte);
        if (is_typographic(byte) || byte == HARD_BLANK)
            break_blanks(dice, byte);
        if (!is_typographic(byte))
            continue;
        break_fields(dice, byte);
        break_contents(dice, byte);
        book_mark(dice, byte);
    }
}
