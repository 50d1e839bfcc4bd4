/* Reading the wish list: its encoding, its header, its rows. */
#include "wishes.h"
#include "wish_fields.h"

#include <string.h>

enum {
    PART = ';', QUOTE = '"', NOTE_MARK = '#', NO_BREAK_SPACE = 0xA0,
    FIRST_NOT_ASCII = 0x80,
    PLACEHOLDER = '?',          /* stands for a letter that Windows-1252 has not */
    ID_WIDTH = WQ_FIELD_HEAD - 1,
    SHOWN = 30,                 /* bytes of a column's name that are shown */
    NOTE_ROOM = 4 * SHOWN + 160
};

#define WHAT_IS_KNOWN "known are school, school qualifier, supplier, supplier qualifier, date, " \
    "reference, article, article qualifier, quantity, measure, and optional fields by four " \
    "digits, 0000 to 9998; a name that begins with # is passed over"

int is_blank_in_cell(uint8_t byte)
{
    return byte == ' ' || byte == '\t' || byte == NO_BREAK_SPACE;
}

struct cell cell_trimmed(const struct cell *cell)
{
    struct cell trimmed = *cell;
    while (trimmed.length > 0 && is_blank_in_cell(trimmed.start[trimmed.length - 1]))
        trimmed.length--;
    while (trimmed.length > 0 && is_blank_in_cell(trimmed.start[0])) {
        trimmed.start++;
        trimmed.length--;
    }
    return trimmed;
}

/* How many lines end between two places. */
static unsigned long lines_between(const struct bytes *text, size_t from, size_t to)
{
    unsigned long lines = 0;
    while (from < to) {
        size_t width = line_end(text->start + from);
        lines += width > 0;
        from += width > 0 ? width : 1;
    }
    return lines;
}

/* Says something of the line on which a place stands. */
static void say_at(const struct wish_list *list, size_t at, const char *words)
{
    char note[NOTE_ROOM];
    snprintf(note, sizeof note, "line %lu: %s", 1 + lines_between(&list->input.bytes, 0, at),
             words);
    complain(list->name, note);
}

/* Where a cell stands in the text. */
struct extent {
    size_t start, end;          /* of what it holds, without its quotes */
    size_t next;                /* the semicolon or line end behind it, or the end of the text */
    int quoted;
};

/* The place of the next semicolon or line end, or the end of the text. */
static size_t cell_end(const struct bytes *text, size_t at)
{
    while (at < text->length && text->start[at] != PART &&
           line_end(text->start + at) == 0)
        at++;
    return at;
}

/* The place of the quote that closes a cell, from behind its first quote on; the end of the text
   where none does. */
static size_t closing_quote(const struct bytes *text, size_t at)
{
    for (; at < text->length; at++) {
        if (text->start[at] != QUOTE)
            continue;
        if (text->start[at + 1] != QUOTE)
            break;
        at++;
    }
    return at < text->length ? at : text->length;
}

static struct extent extent_at(const struct bytes *text, size_t at)
{
    struct extent extent = {at, 0, 0, 0};
    if (at < text->length && text->start[at] == QUOTE) {
        extent.quoted = 1;
        extent.start = at + 1;
        extent.end = closing_quote(text, extent.start);
        extent.next = extent.end < text->length ? cell_end(text, extent.end + 1) : extent.end;
    } else {
        extent.end = extent.next = cell_end(text, at);
    }
    return extent;
}

/* A quote that is never closed would make one wish of many. */
static int quotes_are_closed(const struct wish_list *list, size_t at)
{
    const struct bytes *text = &list->input.bytes;
    while (at < text->length) {
        struct extent extent = extent_at(text, at);
        size_t width = line_end(text->start + extent.next);
        if (extent.quoted && extent.end == text->length) {
            say_at(list, at, "a quote is opened here and never closed");
            return 0;
        }
        at = extent.next + (width > 0 ? width : 1);
    }
    return 1;
}

/* Takes the letter at a place of the text over into a cell, and gives how many bytes it has
   there. */
static size_t take_letter(const struct wish_list *list, struct cell *cell, size_t at, uint8_t *to)
{
    const uint8_t *from = list->input.bytes.start + at;
    unsigned long letter;
    size_t length = list->utf_8 ? letter_length((const char *)from, &letter) : 0;
    int byte = length > 0 ? windows_byte(letter) : *from;
    if (byte < 0 && cell->foreign[0] == '\0')
        memcpy(cell->foreign, from, length);
    *to = (uint8_t)(byte < 0 ? PLACEHOLDER : byte);
    return length > 0 ? length : 1;
}

/* Makes a cell of what stands between two places of the text, where it stands: the bytes only
   become fewer. */
static void take_between(struct wish_list *list, size_t at, size_t end, int quoted,
                         struct cell *cell)
{
    uint8_t *text = list->input.bytes.start, *to = text + at;
    memset(cell, 0, sizeof *cell);
    cell->start = to;
    while (at < end) {
        at += quoted && text[at] == QUOTE;
        at += take_letter(list, cell, at, to++);
    }
    cell->length = (size_t)(to - cell->start);
}

/* Makes a cell of its extent. */
static void take_cell(struct wish_list *list, const struct extent *extent, struct cell *cell)
{
    struct cell behind;
    take_between(list, extent->start, extent->end, extent->quoted, cell);
    if (!extent->quoted)
        return;
    take_between(list, extent->end + 1, extent->next, 0, &behind);
    cell->followed = cell_trimmed(&behind).length > 0;
}

/* Takes the cell that comes next and passes over it; gives whether the row goes on behind it. */
static int next_cell(struct wish_list *list, struct cell *cell)
{
    struct bytes *text = &list->input.bytes;
    struct extent extent = extent_at(text, list->input.at);
    size_t width = line_end(text->start + extent.next);
    int goes_on = extent.next < text->length && width == 0;
    list->line += lines_between(text, extent.start, extent.next) + (width > 0);
    list->input.at = extent.next + (goes_on ? 1 : width);
    take_cell(list, &extent, cell);
    return goes_on;
}

/* Reads a row; cells past the most are counted and not kept. */
static void read_row(struct wish_list *list, struct wish *wish)
{
    struct cell cell;
    int goes_on = 1;
    wish->line = list->line;
    for (wish->count = wish->last = 0; goes_on; wish->count++) {
        goes_on = next_cell(list, &cell);
        if (wish->count < MOST_COLUMNS)
            wish->cells[wish->count] = cell;
        if (cell_trimmed(&cell).length > 0 || cell.followed)
            wish->last = wish->count + 1;
    }
    memset(&cell, 0, sizeof cell);
    cell.start = list->input.bytes.start;
    for (size_t i = wish->count; i < MOST_COLUMNS; i++)
        wish->cells[i] = cell;
}

int wish_list_next(struct wish_list *list, struct wish *wish)
{
    while (list->input.at < list->input.bytes.length) {
        read_row(list, wish);
        if (wish->last > 0)
            return 1;
    }
    return 0;
}

/* Finds out whether the text is UTF-8. One that says so by its mark has to be. */
static int find_encoding(struct wish_list *list, size_t start)
{
    const struct bytes *text = &list->input.bytes;
    size_t wrong = text->length, right = text->length, length;
    unsigned long letter;
    for (size_t at = start; at < text->length; at += length > 0 ? length : 1) {
        length = letter_length((const char *)text->start + at, &letter);
        if (length > 0 && right == text->length)
            right = at;
        else if (length == 0 && text->start[at] >= FIRST_NOT_ASCII && wrong == text->length)
            wrong = at;
    }
    list->utf_8 = wrong == text->length;
    if (!list->utf_8 && start > 0) {
        say_at(list, wrong, "this is not UTF-8, though the file has its mark at the front");
        return 0;
    }
    list->doubtful = !list->utf_8 && right < text->length;
    if (list->doubtful)
        say_at(list, right, "a letter of UTF-8 stands here, but the file is not UTF-8 as a whole; "
               "it is taken as Windows-1252");
    return 1;
}

static uint8_t small(uint8_t byte)
{
    return (uint8_t)(byte >= 'A' && byte <= 'Z' ? byte - 'A' + 'a' : byte);
}

/* Whether a cell holds a name, in any case, with one blank or more between its words. */
static int has_name(const struct cell *cell, const char *name)
{
    size_t at = 0;
    for (; *name != '\0' && at < cell->length; name++, at++) {
        if (*name != ' ' ? small(cell->start[at]) != *name : !is_blank_in_cell(cell->start[at]))
            return 0;
        while (*name == ' ' && at + 1 < cell->length && is_blank_in_cell(cell->start[at + 1]))
            at++;
    }
    return *name == '\0' && at == cell->length;
}

/* The ID that a cell names; WQ_END_ID where it names none. */
static unsigned id_of(const struct cell *cell)
{
    unsigned id = 0;
    if (cell->length != ID_WIDTH)
        return WQ_END_ID;
    for (size_t i = 0; i < ID_WIDTH; i++) {
        if (!is_digit(cell->start[i]))
            return WQ_END_ID;
        id = 10 * id + (unsigned)(cell->start[i] - '0');
    }
    return id;
}

/* Says what is wrong with a column of the header. */
static void say_column(const struct wish_list *list, unsigned long line, size_t column,
                       const struct cell *name, const char *trouble)
{
    char note[NOTE_ROOM], text[TEXT_ROOM];
    text_of(name->start, name->length < SHOWN ? name->length : SHOWN, text);
    snprintf(note, sizeof note, "line %lu: column %zu, %s%s, %s", line, column + 1, text,
             name->length > SHOWN ? ".." : "", trouble);
    complain(list->name, note);
}

/* The field that a name stands for; WISH_FIXED_FIELDS where it is that of none. */
static enum wish_field field_named(const struct cell *name)
{
    int field = 0;
    while (field < WISH_FIXED_FIELDS && !has_name(name, fixed_fields[field].name))
        field++;
    return field;
}

/* Takes a name of the header; gives what is wrong with it, or NULL. */
static const char *take_name(struct wish_list *list, size_t column, const struct cell *name)
{
    struct column *taken = &list->columns[column];
    taken->field = field_named(name);
    taken->id = id_of(name);
    if (name->followed)
        return "has something behind its closing quote";
    if (taken->field < WISH_FIXED_FIELDS) {
        if (list->places[taken->field] < MOST_COLUMNS)
            return "stands twice";
        list->places[taken->field] = column;
        return NULL;
    }
    if (name->length == 0)
        taken->field = WISH_NAMELESS;
    else if (name->start[0] == NOTE_MARK)
        taken->field = WISH_PASSED_OVER;
    else if (taken->id == WQ_END_ID)
        return "is not known";
    return NULL;
}

/* Takes all names; says what is wrong with each. */
static int take_names(struct wish_list *list, const struct wish *header)
{
    int fine = 1;
    for (size_t i = 0; i < list->count; i++) {
        struct cell name = cell_trimmed(&header->cells[i]);
        const char *trouble = take_name(list, i, &name);
        if (trouble == NULL)
            continue;
        say_column(list, header->line, i, &name, trouble);
        fine = 0;
    }
    return fine;
}

/* Says which columns are missing that must be there. */
static int none_is_missing(const struct wish_list *list, unsigned long line)
{
    char note[NOTE_ROOM];
    int fine = 1;
    for (int i = 0; i < WISH_FIXED_FIELDS; i++) {
        if (!fixed_fields[i].needed || list->places[i] < MOST_COLUMNS)
            continue;
        snprintf(note, sizeof note, "line %lu: the column %s is missing", line,
                 fixed_fields[i].name);
        complain(list->name, note);
        fine = 0;
    }
    return fine;
}

/* Whether a header of one column was meant as several. */
static int is_parted_otherwise(const struct wish *header)
{
    const struct cell *cell = &header->cells[0];
    return header->count == 1 && (memchr(cell->start, ',', cell->length) != NULL ||
                                  memchr(cell->start, '\t', cell->length) != NULL);
}

static int take_header(struct wish_list *list, const struct wish *header)
{
    char note[NOTE_ROOM];
    const char *trouble = NULL;
    list->count = header->count;
    if (is_parted_otherwise(header))
        trouble = "there is no semicolon; columns are parted by semicolons, not by commas or tabs";
    else if (header->count > MOST_COLUMNS)
        trouble = "there are more than 128 columns";
    if (trouble != NULL) {
        snprintf(note, sizeof note, "line %lu: %s", header->line, trouble);
        complain(list->name, note);
        return 0;
    }
    /* Both are asked, so that all that is wrong is said at once. */
    if (take_names(list, header) & none_is_missing(list, header->line))
        return 1;
    complain(list->name, WHAT_IS_KNOWN);
    return 0;
}

/* The text, once it is read: its encoding, its quotes, its header. */
static int judge(struct wish_list *list)
{
    static struct wish header;
    size_t start;
    if (!text_start(list->name, list->input.bytes.start, &start) || !find_encoding(list, start) ||
        !quotes_are_closed(list, start))
        return 0;
    list->input.at = start;
    list->line = 1;
    if (wish_list_next(list, &header))
        return take_header(list, &header);
    complain(list->name, "there is nothing in this file; its first line has to name the columns");
    complain(list->name, WHAT_IS_KNOWN);
    return 0;
}

int wish_list_read(struct wish_list *list, const char *name, const struct own_files *own)
{
    size_t left = MOST_INPUT;
    memset(list, 0, sizeof *list);
    list->name = name;
    for (int i = 0; i < WISH_FIXED_FIELDS; i++)
        list->places[i] = MOST_COLUMNS;
    if (!input_read(&list->input, name, own, &left))
        return 0;
    strcpy(list->digest, list->input.digest);
    return judge(list);
}

void wish_list_leave(struct wish_list *list)
{
    input_leave(&list->input);
}
