/* Making the record of an order from a wish, and saying what is wrong with one. What a record may
   hold is judged by wq_write alone; here stand the words for it. */
#include "wish_record.h"
#include "wish_fields.h"

#include <string.h>

enum {
    MOST_GROUP = 3,     /* IDs */
    SHOWN = 40          /* bytes of a cell that are shown */
};

#define TWO_CAPITALS "two capital letters"

/* An order while it is made of a wish. */
struct draft {
    const struct wish_list *list;
    const struct wish *wish;
    const char *today;
    FILE *why;
    uint8_t fixed[WQ_ORDER_LENGTH];
    size_t table[MOST_COLUMNS * WQ_TABLE_NUMBERS];
    size_t columns[MOST_COLUMNS];       /* the column of each optional field */
    size_t fields;
};

/* What optional fields may hold; those that are not named may hold any signs but a star. */
static const struct { unsigned id; const char *may_hold; } contents[] = {
    {1001, "1 to 35 signs, none of them * + : ? '"},
    {1003, "1 to 35 signs, none of them * + : ? '"},
    {1005, TWO_CAPITALS}, {1007, TWO_CAPITALS},
    {1009, "three signs, none of them *"},
    {1013, TWO_CAPITALS},
    {1017, "1 to 39 signs, none of them *"},
    {1018, TWO_CAPITALS},
    {1019, "0, 1 or 2"},
    {1021, "J or N"},
    {1025, "5 to 8 digits"},
    {1029, "5 to 15 digits"},
    {1030, TWO_CAPITALS},
    {1032, "three capital letters"},
    {1045, "J or N"},
    {1047, "J"},
    {1051, "1 to 5 signs, none of them * + : ? '"},
    {1101, "1 to 35 signs, none of them *"},
    {1102, TWO_CAPITALS},
    {1107, "1 to 4 digits"},
    {1108, TWO_CAPITALS},
    {1113, "1 to 5 signs, none of them *"},
    {1114, TWO_CAPITALS},
    {1115, "1 to 10 signs, none of them *"},
    {1116, TWO_CAPITALS},
    {1129, "1 to 6 digits"},
    {1131, "1 to 3 signs, none of them *"},
    {1151, "PHY or DIG"},
    {1201, "a day that there is, as 20240219"},
    {1202, TWO_CAPITALS},
    {1203, "1 to 3 digits, a number of 1 to 360"},
    {1204, TWO_CAPITALS},
    {9001, "one sign, but no *"},
    {9003, "J or U"},
    {9007, "1 to 4 digits"},
    {9010, "1 to 40 signs, none of them * + : ? '"},
    {9011, "1 to 14 digits"},
    {9012, "13 digits"},
    {9016, "1 to 4 digits"}
};

/* The IDs that stand side by side, in this order. */
static const struct group { size_t count; unsigned ids[MOST_GROUP]; } groups[] = {
    {2, {1017, 1018, 0}}, {3, {1029, 1030, 1032}}, {2, {1101, 1102, 0}}, {2, {1107, 1108, 0}},
    {2, {1113, 1114, 0}}, {2, {1115, 1116, 0}}, {2, {1201, 1202, 0}}, {2, {1203, 1204, 0}}
};

/* The answers of the book that one column decides; NULL where it is not what it may hold. */
static const struct { uint64_t answer; enum wish_field field; const char *words; } deciding[] = {
    {WQ_QUANTITY_ZERO, WISH_QUANTITY, NULL},
    {WQ_REFERENCE_BLANK, WISH_REFERENCE, NULL},
    {WQ_LINE_EXISTS, WISH_REFERENCE,
     "another one, since this school has it with this supplier already"},
    {WQ_NOT_ON_ROSTER, WISH_SCHOOL, "one of the roster"},
    {WQ_CEILING_PASSED, WISH_QUANTITY, "fewer copies"}
};

void print_column_of(FILE *to, uint64_t answer)
{
    for (size_t i = 0; i < sizeof deciding / sizeof deciding[0]; i++) {
        const struct fixed_field *field = &fixed_fields[deciding[i].field];
        if (deciding[i].answer == answer)
            fprintf(to, " | column %s: %s", field->name,
                    deciding[i].words == NULL ? field->may_hold : deciding[i].words);
    }
}

/* The cell of a fixed field, without the blanks around it; an empty one where the list has no
   such column. */
static struct cell cell_of(const struct draft *draft, enum wish_field field)
{
    struct cell none = {draft->list->input.bytes.start, 0, 0, ""};
    size_t place = draft->list->places[field];
    return place < MOST_COLUMNS ? cell_trimmed(&draft->wish->cells[place]) : none;
}

/* What stands in a cell; in quotes where there are blanks at its ends, which could not be seen. */
static void print_cell(FILE *to, const struct cell *cell)
{
    const char *quote = cell_trimmed(cell).length < cell->length ? "\"" : "";
    if (cell->length == 0) {
        fputs("empty", to);
        return;
    }
    fputs(quote, to);
    print_text(to, cell->start, cell->length < SHOWN ? cell->length : SHOWN);
    fputs(cell->length > SHOWN ? ".." : quote, to);
}

/* Whether several columns have the ID of a column. */
static int is_repeated(const struct wish_list *list, size_t column)
{
    size_t count = 0;
    for (size_t i = 0; i < list->count; i++)
        count += list->columns[i].field == WISH_OPTIONAL &&
                 list->columns[i].id == list->columns[column].id;
    return count > 1;
}

/* Begins a reason: names a column, by its number where its name does not tell it. */
static void print_column(const struct draft *draft, size_t column)
{
    const struct column *named = &draft->list->columns[column];
    if (named->field < WISH_FIXED_FIELDS)
        fprintf(draft->why, "column %s: ", fixed_fields[named->field].name);
    else if (named->field != WISH_OPTIONAL)
        fprintf(draft->why, "column %zu: ", column + 1);
    else if (is_repeated(draft->list, column))
        fprintf(draft->why, "column %04u (column %zu): ", named->id, column + 1);
    else
        fprintf(draft->why, "column %04u: ", named->id);
}

/* The place of a byte that is no sign, or the cell's length. */
static size_t place_of_no_sign(const struct cell *cell)
{
    size_t at = 0;
    while (at < cell->length && is_sign(cell->start[at]))
        at++;
    return at;
}

/* A byte that is no sign, in words that say where it comes from. */
static void print_no_sign(FILE *to, uint8_t byte)
{
    if (byte == '\n' || byte == '\r')
        fputs("a line end", to);
    else if (byte == '\t')
        fputs("a tab", to);
    else
        fprintf(to, "the byte \\x%02X", (unsigned)byte);
}

/* Ends a reason: what stands in a cell, and what it may hold. A byte that is no sign may stand in
   none, and is told by itself. */
static void print_not_allowed(const struct draft *draft, const struct cell *cell,
                              const char *may_hold)
{
    size_t place = place_of_no_sign(cell);
    print_cell(draft->why, cell);
    if (place == cell->length) {
        fprintf(draft->why, " is not what it may hold: %s", may_hold);
        return;
    }
    fputs(" holds ", draft->why);
    print_no_sign(draft->why, cell->start[place]);
    fputs(", which is no letter or sign", draft->why);
}

/* Refuses a fixed field. Before a wrong qualifier no article is right, so that is to blame. */
static int refuse_fixed(const struct draft *draft, enum wish_field field)
{
    struct cell cell = cell_of(draft, field), qualifier = cell_of(draft, WISH_ARTICLE_QUALIFIER);
    const char *may_hold = fixed_fields[field].may_hold;
    if (field == WISH_ARTICLE)
        may_hold = article_may_hold(&qualifier);
    if (may_hold == NULL)
        return refuse_fixed(draft, WISH_ARTICLE_QUALIFIER);
    fprintf(draft->why, "column %s: ", fixed_fields[field].name);
    print_not_allowed(draft, &cell, may_hold);
    return 0;
}

/* Refuses a letter that has no byte. */
static int letters_are_fine(const struct draft *draft, size_t column, const struct cell *cell)
{
    unsigned long letter;
    if (cell->foreign[0] == '\0')
        return 1;
    letter_length(cell->foreign, &letter);
    print_column(draft, column);
    fputs("the letter ", draft->why);
    print_name(draft->why, cell->foreign);
    fprintf(draft->why, " (U+%04lX) is not one of Windows-1252", letter);
    return 0;
}

/* What no cell of a column may be, whatever the column holds. */
static int cell_is_fine(const struct draft *draft, size_t column)
{
    const struct cell *cell = &draft->wish->cells[column];
    struct cell trimmed = cell_trimmed(cell);
    enum wish_field field = draft->list->columns[column].field;
    if (cell->followed) {
        print_column(draft, column);
        fputs("something stands behind the closing quote", draft->why);
        return 0;
    }
    if (field == WISH_NAMELESS && trimmed.length > 0) {
        print_column(draft, column);
        print_cell(draft->why, &trimmed);
        fputs(" stands under no name; the header has to name the column", draft->why);
        return 0;
    }
    return field > WISH_OPTIONAL || letters_are_fine(draft, column, cell);
}

static int cells_are_fine(const struct draft *draft)
{
    size_t columns = draft->list->count;
    for (size_t i = 0; i < columns; i++)
        if (!cell_is_fine(draft, i))
            return 0;
    if (draft->wish->last <= columns)
        return 1;
    fprintf(draft->why, "cell %zu is filled, but the header names no more than %zu columns",
            draft->wish->last, columns);
    return 0;
}

/* Where a fixed field stands in the record. */
static uint8_t *place_of(struct draft *draft, enum wish_field field)
{
    uint8_t *place = draft->fixed + WQ_KIND_WIDTH;
    for (int i = 0; i < (int)field; i++)
        place += fixed_fields[i].width;
    return place;
}

/* Fills the qualifier of the article, which its cell does not name. */
static int tell_qualifier(struct draft *draft)
{
    struct cell article = cell_of(draft, WISH_ARTICLE);
    const char *untold;
    const char *qualifier = article_qualifier(place_of(draft, WISH_ARTICLE), &untold);
    if (qualifier != NULL) {
        memcpy(place_of(draft, WISH_ARTICLE_QUALIFIER), qualifier, WQ_QUALIFIER_WIDTH);
        return 1;
    }
    if (untold == NULL)
        return refuse_fixed(draft, WISH_ARTICLE);
    fprintf(draft->why, "column %s: ", fixed_fields[WISH_ARTICLE].name);
    print_cell(draft->why, &article);
    fprintf(draft->why, " %s", untold);
    return 0;
}

/* Takes a fixed field over, or what stands there where its cell is empty. */
static int take_fixed(struct draft *draft, enum wish_field field)
{
    const struct fixed_field *taken = &fixed_fields[field];
    const char *otherwise = field == WISH_DATE ? draft->today : taken->otherwise;
    struct cell cell = cell_of(draft, field);
    uint8_t *to = place_of(draft, field);
    if (cell.length == 0 && otherwise != NULL) {
        memcpy(to, otherwise, taken->width);
        return 1;
    }
    if (cell.length == 0 && field == WISH_ARTICLE_QUALIFIER)
        return tell_qualifier(draft);
    return taken->take(&cell, to, taken->width) || refuse_fixed(draft, field);
}

/* Fills the fixed part. */
static int take_all_fixed(struct draft *draft)
{
    memset(draft->fixed, ' ', sizeof draft->fixed);
    memcpy(draft->fixed, WQ_KIND_ORDER, WQ_KIND_WIDTH);
    for (int i = 0; i < WISH_FIXED_FIELDS; i++)
        if (!take_fixed(draft, i))
            return 0;
    return 1;
}

/* Puts the optional fields into the table, in the order of their columns; their contents are
   taken from where they stand. */
static void take_optional(struct draft *draft)
{
    const struct wish_list *list = draft->list;
    draft->fields = 0;
    for (size_t i = 0; i < list->count; i++) {
        const struct cell *cell = &draft->wish->cells[i];
        size_t *entry = draft->table + draft->fields * WQ_TABLE_NUMBERS;
        if (list->columns[i].field != WISH_OPTIONAL || cell_trimmed(cell).length == 0)
            continue;
        entry[WQ_TABLE_ID] = list->columns[i].id;
        entry[WQ_TABLE_PLACE] = (size_t)(cell->start - list->input.bytes.start);
        entry[WQ_TABLE_LENGTH] = cell->length;
        draft->columns[draft->fields++] = i;
    }
}

static const char *content_words(unsigned id)
{
    for (size_t i = 0; i < sizeof contents / sizeof contents[0]; i++)
        if (contents[i].id == id)
            return contents[i].may_hold;
    return "any signs, but no *";
}

/* The group of an ID that is in one. */
static const struct group *group_of(unsigned id)
{
    const struct group *group = groups, *last = groups + sizeof groups / sizeof groups[0] - 1;
    while (group < last && (id < group->ids[0] || id > group->ids[group->count - 1]))
        group++;
    return group;
}

/* Why fields that belong together are not. */
static void print_group(const struct draft *draft, unsigned id)
{
    const struct group *group = group_of(id);
    fprintf(draft->why, "%04u", group->ids[0]);
    for (size_t i = 1; i < group->count; i++)
        fprintf(draft->why, "%s%04u", i + 1 == group->count ? " and " : ", ", group->ids[i]);
    fputs(" belong side by side in this order, each of them filled", draft->why);
}

/* Refuses an optional field for what it holds, or for what does not stand beside it. */
static void refuse_optional(const struct draft *draft, size_t field, uint64_t answer)
{
    size_t column = draft->columns[field];
    unsigned id = draft->list->columns[column].id;
    print_column(draft, column);
    if (answer == WQ_GROUP)
        print_group(draft, id);
    else
        print_not_allowed(draft, &draft->wish->cells[column], content_words(id));
}

/* The reason for the answer of wq_write. */
static enum wish_result explain(const struct draft *draft, const wq_written *written)
{
    size_t place = (size_t)written->place;
    int optional = written->answer == WQ_CONTENT || written->answer == WQ_GROUP;
    if (written->answer == WQ_FIXED_FIELD && place > 0 && place <= WISH_FIXED_FIELDS)
        refuse_fixed(draft, (enum wish_field)(place - 1));
    else if (optional && place < draft->fields)
        refuse_optional(draft, place, written->answer);
    else if (written->answer == WQ_TOO_MANY_FIELDS)
        fprintf(draft->why, "%zu optional fields are filled, and an order has at most %d",
                draft->fields, WQ_MOST_FIELDS);
    else if (written->answer == WQ_TOO_LONG)
        fprintf(draft->why, "the order would be over %d bytes; its optional fields have to be "
                "shorter", WQ_MOST_RECORD);
    else
        return WISH_BROKEN;
    return WISH_REFUSED;
}

/* Whether a field was read back as it was written. */
static int is_same_field(const struct draft *draft, const struct order *order,
                         const size_t *written, const size_t *read)
{
    size_t length = written[WQ_TABLE_LENGTH];
    return read[WQ_TABLE_ID] == written[WQ_TABLE_ID] && read[WQ_TABLE_LENGTH] == length &&
           length <= order->length && read[WQ_TABLE_PLACE] <= order->length - length &&
           memcmp(order->bytes + read[WQ_TABLE_PLACE],
                  draft->list->input.bytes.start + written[WQ_TABLE_PLACE], length) == 0;
}

/* Reads the record back. */
static int is_read_back(const struct draft *draft, const struct order *order)
{
    size_t table[WQ_FULL_TABLE];
    wq_checked checked = wq_check(order->bytes, order->length, table, WQ_FULL_TABLE);
    if (checked.answer != WQ_DONE || checked.fields != draft->fields ||
        memcmp(order->bytes, draft->fixed, WQ_ORDER_LENGTH) != 0)
        return 0;
    for (size_t i = 0; i < draft->fields * WQ_TABLE_NUMBERS; i += WQ_TABLE_NUMBERS)
        if (!is_same_field(draft, order, draft->table + i, table + i))
            return 0;
    return 1;
}

enum wish_result wish_record(const struct wish_list *list, const struct wish *wish,
                             const char *today, struct order *order, FILE *why)
{
    static struct draft draft;
    const struct bytes *text = &list->input.bytes;
    wq_written written;
    draft.list = list;
    draft.wish = wish;
    draft.today = today;
    draft.why = why;
    if (!cells_are_fine(&draft) || !take_all_fixed(&draft))
        return WISH_REFUSED;
    take_optional(&draft);
    written = wq_write(draft.fixed, sizeof draft.fixed, draft.table,
                       draft.fields * WQ_TABLE_NUMBERS, draft.fields, text->start, text->length,
                       order->bytes, sizeof order->bytes);
    if (written.answer != WQ_DONE)
        return explain(&draft, &written);
    if (written.length > sizeof order->bytes)
        return WISH_BROKEN;
    order->length = (size_t)written.length;
    return is_read_back(&draft, order) ? WISH_WRITTEN : WISH_BROKEN;
}
