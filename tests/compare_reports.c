/* Cases for the last report on a line: what reports say and what is told of it afterwards; mark,
   message and date that go together, and such as do not; and books that were loaded, from the
   new form with their reports and from the old form without. */
#include "cases.h"

#include <string.h>

enum {
    NEW_LINE = 700, NEW_SLIP = 800, USED_LINES = 3, USED_SLIPS = 2, MARKS = IN_LET_GO + 2,
    SMALL_SAVE = WQ_SAVE_LENGTH(STATES + 2, STATES + 4), YEARS = 9,
    /* J and N, and each of them with each form of the date */
    LETTERS = 2, SAYINGS = LETTERS * FORMS
};

/* A report as it stands in a record. */
struct report { uint8_t mark; size_t message; uint8_t date[IN_DAY]; };

static uint8_t mark_in_turn(size_t turn)
{
    return turn % LETTERS == 0 ? IN_HELD : IN_LET_GO;
}

static uint8_t any_mark(struct dice *dice)
{
    return mark_in_turn(below(dice, LETTERS));
}

static struct report make_report_of(struct dice *dice, uint8_t mark, size_t message,
                                    enum form form)
{
    struct report report;
    report.mark = mark;
    report.message = message;
    make_expected(dice, form, report.date);
    return report;
}

/* One of the sayings: by J with each form of the date, then by N. */
static struct report make_saying(struct dice *dice, size_t saying, size_t message)
{
    return make_report_of(dice, mark_in_turn(saying / FORMS), message,
                          (enum form)(saying % FORMS));
}

/* Books it for the line with this key, by the line's article or another. */
static uint64_t book_report(struct dice *dice, struct shelf *shelf, const uint8_t *key,
                            const struct report *report)
{
    struct sheet sheet;
    uint8_t record[RECORD_ROOM], named[IN_TITLED];
    memcpy(named, key, IN_TITLED);
    if (chance(dice, 3))
        make_title(dice, named + IN_KEY);
    make_fixed(dice, &sheet, REPORT_SHAPE, named, 0);
    put_digits(sheet.fixed + IN_REPORT_MESSAGE, IN_MESSAGE_DIGITS, report->message);
    sheet.fixed[IN_REPORT_HOLD] = report->mark == IN_HELD ? 'J' : 'N';
    memcpy(sheet.fixed + IN_REPORT_EXPECTED, report->date, IN_DAY);
    return book_listed(dice, record, assemble(&sheet, record), shelf);
}

/* A delivery of one copy under a slip key that the book does not have. */
static uint64_t deliver_new(struct dice *dice, struct shelf *shelf, const uint8_t *key)
{
    uint8_t slip[IN_SLIP_KEY];
    unique_slip_key(slip, NEW_SLIP + shelf->used[1]);
    return book_one(dice, shelf, GOODS_SHAPE, key, 1, slip);
}

/* The call that was made answers 0 and tells this; the call by key tells the same. */
static void expect_said(enum class class, uint64_t answer, struct shelf *shelf,
                        const uint8_t *key, const struct said *said)
{
    const struct figures figures = tally.figures;
    expect(class, 1, answer, 0);
    insist(is_same_said(&tally.said, said), "a booking tells the message and date that it has to");
    expect(class, 1, ask_line(key, shelf), 0);
    insist(is_same_said(&tally.said, said), "a line tells the message and date that it has to");
    insist(memcmp(&tally.figures, &figures, sizeof figures) == 0,
           "a line tells the figures that its booking told");
    came_up(LINE_TELLS_AS_BOOKED, 1);
}

/* What stands on the line stays whatever else is booked or refused: a delivery, which tells it,
   an order again, and the delivery again. */
static void keep_report(struct dice *dice, struct shelf *shelf, const uint8_t *key,
                        enum class class, const struct said *said)
{
    uint8_t slip[IN_SLIP_KEY];
    expect_said(class, deliver_new(dice, shelf, key), shelf, key, said);
    unique_slip_key(slip, NEW_SLIP + shelf->used[1] - 1);
    expect(REFUSED_BESIDE_REPORT, 1, book_one(dice, shelf, ORDER_SHAPE, key, 9, NULL), 14);
    expect(REFUSED_BESIDE_REPORT, 1, book_one(dice, shelf, GOODS_SHAPE, key, 1, slip), 17);
    expect(REFUSED_BESIDE_REPORT, 1, book_one(dice, shelf, GOODS_SHAPE, key, 2, slip), 18);
    expect(class, 1, ask_line(key, shelf), 0);
    insist(is_same_said(&tally.said, said), "a refusal leaves what the last report said");
}

/* An order in a book of other lines, whose line has no report; its key. */
static void order_new(struct dice *dice, struct shelf *shelf, uint8_t *key)
{
    const struct said none = {IN_NO_REPORT, IN_AS_BLANKS, 0, 0, 0};
    make_shelf(dice, shelf, USED_LINES + 2, 20);
    stock_unique(dice, shelf, USED_LINES, USED_SLIPS);
    unique_line_key(key, NEW_LINE);
    expect_said(NEW_LINE_WITHOUT_REPORT, book_one(dice, shelf, ORDER_SHAPE, key, 7, NULL), shelf,
                key, &none);
    keep_report(dice, shelf, key, NO_REPORT_KEPT, &none);
}

/* The first report on a line: both ends of the messages and any message, in each saying. The
   classes of a message stand in the order of sayings. */
static void report_first(struct dice *dice)
{
    static const size_t messages[] = {0, IN_MOST_MESSAGE, 1, 255, 256, 257, 512, 998};
    static struct shelf shelf;
    uint8_t key[IN_TITLED];
    for (size_t i = 0; i < 9 * SAYINGS; i++) {
        size_t saying = i % SAYINGS, which = i / SAYINGS;
        enum form form = (enum form)(saying % FORMS);
        size_t message = which < 8 ? messages[which] : make_message(dice);
        struct report report = make_saying(dice, saying, message);
        struct said said = said_of(message, form, report.date);
        enum class class = (enum class)(saying + (message == 0 ? MESSAGE_000_HELD_WITH_DAY
            : message == IN_MOST_MESSAGE ? MESSAGE_999_HELD_WITH_DAY : MESSAGE_HELD_WITH_DAY));
        order_new(dice, &shelf, key);
        expect_said(class, book_report(dice, &shelf, key, &report), &shelf, key, &said);
        keep_report(dice, &shelf, key, (enum class)(DAY_KEPT + form), &said);
    }
}

/* A report after a report, with a delivery between them now and then, and once more. */
static void report_after(struct dice *dice, const struct report *before,
                         const struct report *after, const struct said *said, enum class class)
{
    static struct shelf shelf;
    uint8_t key[IN_TITLED];
    order_new(dice, &shelf, key);
    expect(class, 1, book_report(dice, &shelf, key, before), 0);
    if (chance(dice, 2))
        expect(class, 1, deliver_new(dice, &shelf, key), 0);
    expect_said(class, book_report(dice, &shelf, key, after), &shelf, key, said);
    expect_said(REPORT_REPEATED, book_report(dice, &shelf, key, after), &shelf, key, said);
}

/* Each form after each form, by the same mark and by the other, with another message and with
   the same. */
static void report_again(struct dice *dice)
{
    for (size_t i = 0; i < 2 * SAYINGS * SAYINGS; i++) {
        size_t first = i % SAYINGS, then = i / SAYINGS % SAYINGS;
        size_t forms = first % FORMS * FORMS + then % FORMS;
        size_t marks = first / FORMS * LETTERS + then / FORMS;
        const struct report before = make_saying(dice, first, make_message(dice));
        const struct report after = make_saying(dice, then, i < SAYINGS * SAYINGS
                                                ? before.message : make_message(dice));
        const struct said said = said_of(after.message, (enum form)(then % FORMS), after.date);
        report_after(dice, &before, &after, &said, (enum class)(DAY_AFTER_DAY + forms));
        came_up((enum class)(HELD_AFTER_HELD + marks), 1);
    }
}

/* --- Which states are sound --- */

static void copy_shelf(struct shelf *to, const struct shelf *from)
{
    memcpy(to->lines, from->lines, from->lines_length);
    memcpy(to->slips, from->slips, from->slips_length);
    to->lines_length = from->lines_length;
    to->slips_length = from->slips_length;
    memcpy(to->used, from->used, sizeof to->used);
}

/* Every call that judges the book, with a record of each kind and one that is not read: 20
   before all else, or 0. */
static void judge_book(struct dice *dice, const struct shelf *shelf, int sound, enum class class)
{
    static struct shelf copy;
    static uint8_t out[SMALL_SAVE];
    const struct report report = make_report_of(dice, any_mark(dice), make_message(dice), A_DAY);
    const uint8_t *line = shelf->lines + below(dice, shelf->used[0]) * IN_LINE;
    const uint64_t wanted = sound ? 0 : 20;
    uint8_t key[IN_TITLED];
    unique_line_key(key, NEW_LINE);
    copy_shelf(&copy, shelf);
    expect(class, 1, ask_line(line, &copy), wanted);
    expect(class, 1, both_save(&copy, out, sizeof out), wanted);
    expect(class, 1, book_listed(dice, (const uint8_t *)BLANK_DATE, IN_DAY, &copy), sound ? 2 : 20);
    expect(class, 1, deliver_new(dice, &copy, line), wanted);
    copy_shelf(&copy, shelf);
    expect(class, 1, book_one(dice, &copy, ORDER_SHAPE, key, 7, NULL), wanted);
    copy_shelf(&copy, shelf);
    expect(class, 1, book_report(dice, &copy, line, &report), wanted);
}

/* This state on the first line, on a later one, and behind the used ones, where it is nothing to
   the book. */
static void judge_state(struct dice *dice, const struct report *state, int sound,
                        enum class class)
{
    static struct shelf shelf;
    for (size_t index = 0; index <= USED_LINES; index++) {
        int used = index < USED_LINES;
        make_shelf(dice, &shelf, USED_LINES + 2, USED_SLIPS + 2);
        stock_unique(dice, &shelf, USED_LINES, USED_SLIPS);
        if (!used)
            add_line(dice, &shelf, shelf.lines, 10, 3, IN_HELD);
        put_state(shelf.lines + index * IN_LINE, state->mark, state->message, state->date);
        shelf.used[0] = USED_LINES;
        judge_book(dice, &shelf, sound || !used, used || sound ? class : STATE_BROKEN_PAST_USED);
        came_up(index == 0 ? STATE_BROKEN_FIRST : STATE_BROKEN_LATER, used && !sound);
    }
}

/* Every mark, also one that is none, with every kind of number, the date being blank. The
   classes stand in the order of the kinds, each with its marks. */
static void judge_pairs(struct dice *dice)
{
    for (size_t i = 0; i < number_count; i++)
        for (size_t mark = 0; mark < MARKS; mark++) {
            enum number_kind kind = number_samples[i].kind;
            struct report state = {(uint8_t)mark, number_samples[i].message, {0}};
            int sound = mark == IN_NO_MARK ? kind == NO_REPORT_KIND
                      : mark <= IN_LET_GO && (kind == MESSAGE_KIND || kind == UNKNOWN_KIND);
            memcpy(state.date, BLANK_DATE, IN_DAY);
            judge_state(dice, &state, sound,
                        (enum class)(MESSAGE_IN_STATE + kind * MARKS + mark));
        }
}

/* A message takes the three forms, an unknown one and none take blanks alone. The classes of
   each of them stand in the order of the kinds of dates. */
static void judge_dates(struct dice *dice)
{
    for (size_t i = 0; i < date_count; i++) {
        uint8_t mark = any_mark(dice);
        enum date_kind kind = date_samples[i].kind;
        struct report message = {mark, make_message(dice), {0}}, unknown = {mark, IN_UNKNOWN, {0}};
        struct report none = {IN_NO_MARK, IN_NO_REPORT, {0}};
        memcpy(message.date, date_samples[i].bytes, IN_DAY);
        memcpy(unknown.date, date_samples[i].bytes, IN_DAY);
        memcpy(none.date, date_samples[i].bytes, IN_DAY);
        judge_state(dice, &message, kind <= BLANKS_KIND, (enum class)(DATE_OF_DAY + kind));
        judge_state(dice, &unknown, kind == BLANKS_KIND, (enum class)(UNKNOWN_WITH_DAY + kind));
        judge_state(dice, &none, kind == BLANKS_KIND, (enum class)(NO_REPORT_WITH_DAY + kind));
    }
}

/* A sound state of any kind on any line, with one of its bytes damaged. */
static void damage_states(struct dice *dice)
{
    static struct shelf shelf;
    for (size_t i = 0; i < 6 * IN_STATE; i++) {
        make_shelf(dice, &shelf, USED_LINES + 2, USED_SLIPS + 2);
        stock_unique(dice, &shelf, USED_LINES, USED_SLIPS);
        uint8_t *line = shelf.lines + below(dice, USED_LINES) * IN_LINE;
        uint8_t *byte = line + IN_MARK + i % IN_STATE, was = *byte;
        while (*byte == was)
            *byte = odd_byte(dice, was);
        int sound = is_sound_state(line);
        judge_book(dice, &shelf, sound, sound ? STATE_CHANGED : STATE_DAMAGED);
        came_up((enum class)(BYTE_DAMAGED_MARK + i % IN_STATE), !sound);
    }
}

/* --- Saves --- */

/* A book with a line in each kind of state. */
static void stock_states(struct dice *dice, struct shelf *shelf)
{
    make_shelf(dice, shelf, STATES + 2, STATES + 4);
    stock_unique(dice, shelf, STATES, USED_SLIPS);
    for (size_t i = 0; i < STATES; i++)
        make_state_of(dice, i, shelf->lines + i * IN_LINE);
}

/* What a line has to tell after a load: all that it told before or, from the old form, that its
   message is unknown or that no report came. */
static struct said said_after(const uint8_t *line, enum saved_form form)
{
    const struct said none = {IN_NO_REPORT, IN_AS_BLANKS, 0, 0, 0};
    const struct said unknown = {IN_UNKNOWN, IN_AS_BLANKS, 0, 0, 0};
    return form == NEW_FORM ? said_on(line) : line[IN_MARK] == IN_NO_MARK ? none : unknown;
}

/* A line that was loaded: what it tells, kept by a delivery, and a report on it. The classes of
   each stand in the order no report, unknown, and messages by the form of their date. */
static void report_on_loaded(struct dice *dice, struct shelf *loaded, size_t index,
                             const struct said *said)
{
    enum { WITHOUT, UNKNOWN, KNOWN };
    enum form form = (enum form)below(dice, FORMS);
    const struct report report = make_report_of(dice, any_mark(dice), make_message(dice), form);
    const struct said new_said = said_of(report.message, form, report.date);
    size_t kind = said->message == IN_NO_REPORT ? WITHOUT : said->message == IN_UNKNOWN ? UNKNOWN
                : KNOWN + (size_t)said->expected - IN_AS_DAY;
    uint8_t key[IN_TITLED];
    memcpy(key, loaded->lines + index * IN_LINE, IN_TITLED);
    expect_said((enum class)(LOADED_WITHOUT_REPORT + kind), ask_line(key, loaded), loaded, key,
                said);
    keep_report(dice, loaded, key, (enum class)(NO_REPORT_KEPT + kind), said);
    expect_said((enum class)(REPORT_AFTER_LOAD + (kind < KNOWN ? kind : KNOWN)),
                book_report(dice, loaded, key, &report), loaded, key, &new_said);
}

/* All states saved and loaded in each form, into a room of any bytes and over a book whose lines
   have reports of their own; saved again; and then booked on. */
static void save_states(struct dice *dice)
{
    static struct shelf shelf, loaded;
    static uint8_t saved[SMALL_SAVE], again[SMALL_SAVE];
    for (size_t i = 0; i < 2 * SAVED_FORMS; i++) {
        enum saved_form form = (enum saved_form)(i % SAVED_FORMS);
        stock_states(dice, &shelf);
        size_t new_length = save_length(NEW_FORM, STATES, USED_SLIPS);
        insist(both_save(&shelf, again, new_length) == 0, "a book is saved in all states");
        size_t length = write_save(&shelf, form, saved);
        make_shelf(dice, &loaded, STATES + 2, STATES + 4);
        if (i < SAVED_FORMS)
            stock_unique(dice, &loaded, STATES + 2, USED_SLIPS);
        expect(i < SAVED_FORMS ? LOADED_OVER_REPORTS : LOADED_OVER_ANY_BYTES, 1,
               both_load(saved, length, &loaded), 0);
        insist(is_same_book(&shelf, &loaded) == (form == NEW_FORM),
               "a save of the new form keeps the reports, one of the old form does not");
        expect((enum class)(SAVED_AGAIN_FROM_OLD + form), 1,
               both_save(&loaded, again, new_length), 0);
        insist((memcmp(again, saved, length) == 0) == (form == NEW_FORM),
               "what was loaded from the new form has the save that it came from");
        for (size_t j = 0; j < STATES; j++) {
            const struct said said = said_after(shelf.lines + j * IN_LINE, form);
            report_on_loaded(dice, &loaded, j, &said);
        }
    }
}

void compare_reports(struct dice *dice)
{
    report_first(dice);
    report_again(dice);
    judge_pairs(dice);
    judge_dates(dice);
    damage_states(dice);
    save_states(dice);
}

/* --- Every byte and every day --- */

/* A book of one line is walked through many states. In each the line is asked for, or a delivery
   or a report is booked on it, in turn: 20 where the state is not sound. The classes of a walk
   stand in the order of these calls. */
static void walk_state(struct dice *dice, struct shelf *shelf, size_t turn, enum class class)
{
    enum { ASKED, DELIVERED, REPORTED, CALLS };
    const struct report report = make_report_of(dice, any_mark(dice), make_message(dice), A_DAY);
    const uint64_t wanted = is_sound_state(shelf->lines) ? 0 : 20;
    uint8_t line[IN_LINE];
    size_t call = turn % CALLS;
    memcpy(line, shelf->lines, IN_LINE);
    uint64_t answer = call == ASKED ? ask_line(line, shelf)
                    : call == DELIVERED ? deliver_new(dice, shelf, line)
                                        : book_report(dice, shelf, line, &report);
    expect((enum class)(class + call), 1, answer, wanted);
    memcpy(shelf->lines, line, IN_LINE);
    shelf->used[1] = 0;
}

static struct shelf *shelf_to_walk(struct dice *dice)
{
    static struct shelf shelf;
    make_shelf(dice, &shelf, 1, 1);
    stock_unique(dice, &shelf, 1, 0);
    return &shelf;
}

/* Every value of every byte that a line has of its last report, beside each kind of state; on
   the states by J, and on those by N, each value meets each of the calls. */
static void walk_bytes(struct dice *dice)
{
    static struct shelf states;
    struct shelf *shelf = shelf_to_walk(dice);
    stock_states(dice, &states);
    for (size_t i = 0; i < STATES; i++)
        for (size_t place = IN_MARK; place < IN_ARRIVED; place++)
            for (size_t value = 0; value < 256; value++) {
                memcpy(shelf->lines, states.lines + i * IN_LINE, IN_LINE);
                shelf->lines[place] = (uint8_t)value;
                walk_state(dice, shelf, i + place + value, BYTES_ASKED);
            }
}

/* Every day of a few years, and the days and months on both sides of each end; over the years
   each meets both marks and each of the calls. */
static void walk_days(struct dice *dice)
{
    const size_t years[YEARS] = {0, 1, 4, 1900, 2000, 2023, 2024, 9999, between(dice, 5, 9998)};
    struct shelf *shelf = shelf_to_walk(dice);
    uint8_t date[IN_DAY];
    for (size_t i = 0; i < YEARS; i++)
        for (size_t month = 0; month <= 13; month++)
            for (size_t day = 0; day <= 32; day++) {
                size_t turn = i + month + day;
                put_digits(date, 4, years[i]);
                put_digits(date + IN_MONTH, 2, month);
                put_digits(date + IN_DAY_OF_MONTH, 2, day);
                put_state(shelf->lines, mark_in_turn(turn), make_message(dice), date);
                walk_state(dice, shelf, turn, DAYS_ASKED);
            }
}

/* Every message there is, and as many numbers behind it, with both marks in turn. */
static void walk_messages(struct dice *dice)
{
    struct shelf *shelf = shelf_to_walk(dice);
    size_t start = below(dice, IN_MOST_MESSAGE);
    for (size_t message = 0; message <= 2 * IN_MOST_MESSAGE; message++) {
        put_state(shelf->lines, mark_in_turn(message), message, BLANK_DATE);
        walk_state(dice, shelf, start + message, MESSAGES_ASKED);
    }
}

/* Every message, said by reports, one after the other on one line, each by the mark that it was
   not walked with. */
static void report_every_message(struct dice *dice)
{
    struct shelf *shelf = shelf_to_walk(dice);
    for (size_t message = 0; message <= IN_MOST_MESSAGE; message++) {
        enum form form = (enum form)below(dice, FORMS);
        uint8_t mark = mark_in_turn(message + 1);
        const struct report report = make_report_of(dice, mark, message, form);
        const struct said said = said_of(message, form, report.date);
        expect(EVERY_MESSAGE_SAID, 1, book_report(dice, shelf, shelf->lines, &report), 0);
        insist(is_same_said(&tally.said, &said), "a report is told as it was made");
    }
}

void compare_report_bytes(struct dice *dice)
{
    walk_bytes(dice);
    walk_days(dice);
    walk_messages(dice);
    report_every_message(dice);
}
