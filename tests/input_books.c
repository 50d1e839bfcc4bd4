/* Generated books of all rooms. */
#include "inputs.h"

#include <string.h>

/* An empty book of these rooms, with any bytes in them. */
void make_shelf(struct dice *dice, struct shelf *shelf, size_t line_room, size_t slip_room)
{
    shelf->lines_length = line_room * IN_LINE;
    shelf->slips_length = slip_room * IN_SLIP;
    shelf->used[0] = shelf->used[1] = 0;
    for (size_t i = 0; i < shelf->lines_length; i++)
        shelf->lines[i] = (uint8_t)roll(dice);
    for (size_t i = 0; i < shelf->slips_length; i++)
        shelf->slips[i] = (uint8_t)roll(dice);
}

/* A sound book whose keys repeat and whose sums are any; slips of any school. */
void stock_shelf(struct dice *dice, struct shelf *shelf, size_t lines, size_t slips,
                 size_t variety)
{
    uint8_t key[IN_TITLED];
    for (size_t i = 0; i < lines; i++) {
        uint8_t *line = shelf->lines + i * IN_LINE;
        make_line_key(dice, variety, line);
        put_little(line + IN_ORDERED, 2, chance(dice, 4) ? 9999 : between(dice, 1, 30));
        make_any_state(dice, line);
        put_little(line + IN_ARRIVED, 4, chance(dice, 4) ? 9999999 - below(dice, 12000)
                                                         : below(dice, 40));
    }
    for (size_t i = 0; i < slips && lines > 0; i++) {
        uint8_t *slip = shelf->slips + i * IN_SLIP;
        make_line_key(dice, variety, key);
        memcpy(slip, key + 12, 12);
        memcpy(slip + 12, key, 12);
        make_slip_part(dice, variety == 0 ? 0 : 2, slip + 24);
        put_little(slip + IN_LINE_OF_SLIP, 2, below(dice, lines));
        put_little(slip + IN_COPIES, 2,
                   chance(dice, 5) ? roll(dice) & 0xffff : between(dice, 1, 5));
    }
    shelf->used[0] = lines;
    shelf->used[1] = lines > 0 ? slips : 0;
}

/* A name of a letter and a number, and behind it the typographic marks in turn, or a blank
   where there is none. */
static void unique_name(uint8_t *name, char letter, size_t number)
{
    enum { DIGITS = 6, TURN = IN_LAST_TYPOGRAPHIC - IN_FIRST_TYPOGRAPHIC + 1 };
    uint8_t mark = (uint8_t)(IN_FIRST_TYPOGRAPHIC + number % TURN);
    memset(name, ' ', IN_NAME);
    name[0] = (uint8_t)letter;
    put_digits(name + 1, DIGITS, number);
    if (is_typographic(mark))
        name[1 + DIGITS] = mark;
}

void unique_line_key(uint8_t *key, size_t number)
{
    memcpy(key, "43210     VD24000     VD          9783442756841EN", IN_TITLED);
    unique_name(key + IN_REFERENCE, 'R', number);
}

void unique_slip_key(uint8_t *key, size_t number)
{
    memcpy(key, "24000     VD43210     VD20240226          0001", IN_SLIP_KEY);
    unique_name(key + IN_SLIP_NUMBER, 'S', number);
}

/* A line of any title and state, on which nothing has arrived. */
void unique_line(struct dice *dice, uint8_t *line, size_t number)
{
    unique_line_key(line, number);
    make_title(dice, line + IN_KEY);
    put_little(line + IN_ORDERED, 2, between(dice, 1, IN_MOST_COPIES));
    make_any_state(dice, line);
    put_little(line + IN_ARRIVED, IN_ARRIVED_WIDTH, 0);
}

void unique_slip(struct dice *dice, uint8_t *slip, size_t number, size_t line)
{
    unique_slip_key(slip, number);
    put_little(slip + IN_LINE_OF_SLIP, 2, line);
    put_little(slip + IN_COPIES, 2, between(dice, 1, 9999));
}

/* A book without repeated keys, each A the sum of its slips, as bookings and a load make it.
   Each line has a title of its own. */
void stock_unique(struct dice *dice, struct shelf *shelf, size_t lines, size_t slips)
{
    uint32_t sums[SHELF_LINES] = {0};
    for (size_t i = 0; i < slips; i++) {
        size_t line = below(dice, lines);
        uint8_t *slip = shelf->slips + i * IN_SLIP;
        unique_slip(dice, slip, i, line);
        sums[line] += (uint32_t)get_little(slip + IN_COPIES, 2);
    }
    for (size_t i = 0; i < lines; i++) {
        uint8_t *line = shelf->lines + i * IN_LINE;
        unique_line(dice, line, i);
        put_little(line + IN_ARRIVED, IN_ARRIVED_WIDTH, sums[i]);
    }
    shelf->used[0] = lines;
    shelf->used[1] = slips;
}

/* One more line of this school, whose key no line of the book has. */
void add_line(struct dice *dice, struct shelf *shelf, const uint8_t *account, size_t ordered,
              size_t arrived, uint8_t mark)
{
    uint8_t *line = shelf->lines + shelf->used[0] * IN_LINE;
    unique_line_key(line, shelf->used[0]++);
    memcpy(line, account, IN_PARTY);
    put_little(line + IN_ORDERED, 2, ordered);
    make_state(dice, line, mark);
    put_little(line + IN_ARRIVED, 4, arrived);
}

/* As few more lines as can have so many copies open; some of them filled in part. */
void add_open(struct dice *dice, struct shelf *shelf, const uint8_t *account, size_t open)
{
    while (open > 0) {
        size_t on_line = open < IN_MOST_COPIES ? open : IN_MOST_COPIES;
        size_t filled = below(dice, IN_MOST_COPIES - on_line + 1);
        add_line(dice, shelf, account, on_line + filled, filled,
                 (uint8_t)below(dice, IN_LET_GO));
        open -= on_line;
    }
}

static size_t arrived_on(const uint8_t *line)
{
    return get_little(line + IN_ARRIVED, IN_ARRIVED_WIDTH);
}

/* What a line's copies come to, reckoned here a second time on purpose. */
struct figures figures_on(const uint8_t *line)
{
    size_t ordered = get_little(line + IN_ORDERED, 2), arrived = arrived_on(line);
    size_t missing = arrived < ordered ? ordered - arrived : 0;
    int let_go = line[IN_MARK] == IN_LET_GO;
    const struct figures figures = {ordered, ordered - missing, let_go ? 0 : missing,
                                    let_go ? missing : 0, arrived + missing - ordered};
    return figures;
}

/* The copies open for a school. */
size_t open_on(const struct shelf *shelf, const uint8_t *account)
{
    size_t open = 0;
    for (size_t i = 0; i < shelf->used[0]; i++) {
        const uint8_t *line = shelf->lines + i * IN_LINE;
        if (memcmp(line, account, IN_PARTY) == 0)
            open += (size_t)figures_on(line).still_open;
    }
    return open;
}

/* The first line with a key, or NULL; found here a second time on purpose. */
const uint8_t *line_with(const struct shelf *shelf, const uint8_t *key)
{
    for (size_t i = 0; i < shelf->used[0]; i++)
        if (memcmp(shelf->lines + i * IN_LINE, key, IN_KEY) == 0)
            return shelf->lines + i * IN_LINE;
    return NULL;
}

static size_t reference_in(const uint8_t *record)
{
    return record[0] == 'B' ? IN_ORDER_REFERENCE
         : record[0] == 'L' ? IN_DELIVERY_REFERENCE : IN_REPORT_REFERENCE;
}

static void take_key(const uint8_t *record, uint8_t *key)
{
    int order = record[0] == 'B';
    memcpy(key, record + (order ? IN_SENDER : IN_RECIPIENT), IN_PARTY);
    memcpy(key + IN_PARTY, record + (order ? IN_RECIPIENT : IN_SENDER), IN_PARTY);
    memcpy(key + IN_REFERENCE, record + reference_in(record), IN_NAME);
}

/* The first line with the key of a record that was read, or NULL. */
const uint8_t *line_named(const uint8_t *record, const struct shelf *shelf)
{
    uint8_t key[IN_KEY];
    take_key(record, key);
    return line_with(shelf, key);
}

/* Whether the record names the title of this line. */
int names_title(const uint8_t *record, const uint8_t *line)
{
    return memcmp(line + IN_KEY, record + reference_in(record) + IN_NAME, IN_TITLE) == 0;
}

/* The line of an order: no report has come for it, and nothing has arrived. */
static void begin_line(const uint8_t *order, uint8_t *line)
{
    take_key(order, line);
    memcpy(line + IN_KEY, order + IN_ORDER_REFERENCE + IN_NAME, IN_TITLE);
    put_little(line + IN_ORDERED, 2, get_digits(order + IN_ORDER_COPIES, IN_QUANTITY));
    put_state(line, IN_NO_MARK, IN_NO_REPORT, BLANK_DATE);
    put_little(line + IN_ARRIVED, IN_ARRIVED_WIDTH, 0);
}

static void add_copies(const uint8_t *delivery, uint8_t *line)
{
    size_t copies = get_digits(delivery + IN_DELIVERY_COPIES, IN_QUANTITY);
    put_little(line + IN_ARRIVED, IN_ARRIVED_WIDTH, arrived_on(line) + copies);
}

static void take_report(const uint8_t *report, uint8_t *line)
{
    put_state(line, report[IN_REPORT_HOLD] == 'J' ? IN_HELD : IN_LET_GO,
              get_digits(report + IN_REPORT_MESSAGE, IN_MESSAGE_DIGITS),
              report + IN_REPORT_EXPECTED);
}

/* A line as the booking of a record has to leave it, stated here a second time on purpose: an
   order begins it, a delivery adds its copies, a report sets what it says, and no more. */
void line_after(const uint8_t *record, const uint8_t *before, uint8_t *line)
{
    memcpy(line, before, IN_LINE);
    switch (record[0]) {
    case 'B': begin_line(record, line); break;
    case 'L': add_copies(record, line); break;
    default: take_report(record, line); break;
    }
}
