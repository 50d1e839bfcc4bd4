/* Cases for the last reports in saves of the new form: mark, message and date that go together,
   and such as do not, given to loading and to both moves. */
#include "cases.h"

#include <string.h>

enum {
    LINES = 3, SLIPS = 2, MARKS = IN_LET_GO + 2, YEARS = 9,
    SMALL_SAVE = WQ_SAVE_LENGTH(LINES, SLIPS)
};

/* A save of few lines in the new form, now and then with no messages. */
static size_t make_small(struct dice *dice, uint8_t *saved)
{
    size_t length = make_save(dice, saved, NEW_FORM, LINES, SLIPS, 0);
    if (chance(dice, 2))
        forget_numbers(saved, LINES);
    return length;
}

static const struct shelf *small_room(struct dice *dice)
{
    static struct shelf room;
    make_shelf(dice, &room, LINES, SLIPS);
    return &room;
}

static uint8_t *line_in(uint8_t *saved, size_t index)
{
    return saved_line(saved, NEW_FORM, index) + IN_KIND_BYTE;
}

/* This state on every line in turn: the save is valid, or 22. */
static void judge_state(struct dice *dice, uint8_t mark, size_t message, const void *date,
                        int sound, enum class class)
{
    uint8_t saved[SMALL_SAVE];
    for (size_t index = 0; index < LINES; index++) {
        size_t length = make_small(dice, saved);
        put_state(line_in(saved, index), mark, message, date);
        expect(class, 1, try_save(dice, saved, length, small_room(dice), STATE_LOADED),
               sound ? 0 : 22);
    }
}

/* Every mark, also one that is none, with every kind of number, the date being blank. The
   classes stand in the order of the kinds, each with its marks. */
static void judge_pairs(struct dice *dice)
{
    for (size_t i = 0; i < number_count; i++)
        for (size_t mark = 0; mark < MARKS; mark++) {
            enum number_kind kind = number_samples[i].kind;
            int sound = mark == IN_NO_MARK ? kind == NO_REPORT_KIND
                      : mark <= IN_LET_GO && (kind == MESSAGE_KIND || kind == UNKNOWN_KIND);
            judge_state(dice, (uint8_t)mark, number_samples[i].message, BLANK_DATE, sound,
                        (enum class)(SAVED_MESSAGE_STATE + kind * MARKS + mark));
        }
}

/* A message takes the three forms, an unknown one and none take blanks alone. The classes of
   each of them stand in the order of the kinds of dates. */
static void judge_dates(struct dice *dice)
{
    for (size_t i = 0; i < date_count; i++) {
        const char *date = date_samples[i].bytes;
        enum date_kind kind = date_samples[i].kind;
        uint8_t mark = chance(dice, 2) ? IN_HELD : IN_LET_GO;
        int blank = kind == BLANKS_KIND;
        judge_state(dice, mark, make_message(dice), date, kind <= BLANKS_KIND,
                    (enum class)(SAVED_DATE_OF_DAY + kind));
        judge_state(dice, mark, IN_UNKNOWN, date, blank,
                    (enum class)(SAVED_UNKNOWN_WITH_DAY + kind));
        judge_state(dice, IN_NO_MARK, IN_NO_REPORT, date, blank,
                    (enum class)(SAVED_NO_REPORT_WITH_DAY + kind));
    }
}

/* A line of any state, with one of the state's bytes damaged. */
static void damage_states(struct dice *dice)
{
    uint8_t saved[SMALL_SAVE];
    for (size_t i = 0; i < 6 * IN_STATE; i++) {
        size_t length = make_small(dice, saved);
        uint8_t *line = line_in(saved, below(dice, LINES));
        make_state_of(dice, below(dice, STATES), line);
        uint8_t *byte = line + IN_MARK + i % IN_STATE, was = *byte;
        while (*byte == was)
            *byte = odd_byte(dice, was);
        int sound = is_sound_state(line);
        expect(sound ? SAVED_STATE_CHANGED : SAVED_STATE_DAMAGED, 1,
               try_save(dice, saved, length, small_room(dice), STATE_LOADED), sound ? 0 : 22);
        came_up((enum class)(SAVED_DAMAGED_MARK + i % IN_STATE), !sound);
    }
}

void compare_saved_reports(struct dice *dice)
{
    judge_pairs(dice);
    judge_dates(dice);
    damage_states(dice);
}

/* --- Every byte and every day --- */

/* A save of one line in the new form is walked through many states, each loaded or moved back,
   in turn. The classes of a walk stand in this order. */
static void walk_state(uint8_t *saved, size_t length, struct shelf *room, size_t turn,
                       enum class class)
{
    enum { LOADED, MOVED, CALLS };
    uint8_t out[SMALL_SAVE], *line = line_in(saved, 0);
    int sound = is_sound_state(line), number = get_little(line + IN_MESSAGE, 2) <= IN_MOST_MESSAGE;
    if (turn % CALLS == LOADED)
        expect(class, 1, both_load(saved, length, room), sound ? 0 : 22);
    else
        expect((enum class)(class + MOVED), 1, both_move(OLD_FORM, saved, length, out, sizeof out),
               !sound ? 22 : number ? 28 : 0);
}

/* A save of one line, and a room for it. */
struct walk { uint8_t saved[SMALL_SAVE]; size_t length; struct shelf room; };

static struct walk *start_walk(struct dice *dice)
{
    static struct walk walk;
    walk.length = make_save(dice, walk.saved, NEW_FORM, 1, 0, 0);
    make_shelf(dice, &walk.room, 1, 1);
    return &walk;
}

/* Every value of every byte of a state, beside messages with each form of the date, an unknown
   one and none; each value meets both calls. */
static void walk_bytes(struct dice *dice)
{
    static const size_t kinds[] = {0, 3, 4, 7, STATES - 1};
    struct walk *walk = start_walk(dice);
    uint8_t *line = line_in(walk->saved, 0), state[IN_LINE];
    for (size_t i = 0; i < sizeof kinds / sizeof kinds[0]; i++) {
        make_state_of(dice, kinds[i], state);
        for (size_t place = IN_MARK; place < IN_ARRIVED; place++)
            for (size_t value = 0; value < 256; value++) {
                memcpy(line + IN_MARK, state + IN_MARK, IN_STATE);
                line[place] = (uint8_t)value;
                walk_state(walk->saved, walk->length, &walk->room, i + place + value,
                           SAVED_BYTES_LOADED);
            }
    }
}

/* Every day of a few years, and the days and months on both sides of each end; over the years
   each meets both calls. */
static void walk_days(struct dice *dice)
{
    const size_t years[YEARS] = {0, 1, 4, 1900, 2000, 2023, 2024, 9999, between(dice, 5, 9998)};
    struct walk *walk = start_walk(dice);
    uint8_t date[IN_DAY];
    for (size_t i = 0; i < YEARS; i++)
        for (size_t month = 0; month <= 13; month++)
            for (size_t day = 0; day <= 32; day++) {
                put_digits(date, 4, years[i]);
                put_digits(date + IN_MONTH, 2, month);
                put_digits(date + IN_DAY_OF_MONTH, 2, day);
                put_state(line_in(walk->saved, 0), chance(dice, 2) ? IN_HELD : IN_LET_GO,
                          make_message(dice), date);
                walk_state(walk->saved, walk->length, &walk->room, i + month + day,
                           SAVED_DAYS_LOADED);
            }
}

/* Every message there is, loaded and moved back, and as many numbers behind it and before those
   that are no message. */
static void walk_messages(struct dice *dice)
{
    struct walk *walk = start_walk(dice);
    uint8_t date[IN_DAY];
    for (size_t turn = 0; turn < 2; turn++)
        for (size_t message = 0; message <= 2 * IN_MOST_MESSAGE; message++) {
            size_t number = message <= IN_MOST_MESSAGE || turn == 0 ? message
                          : IN_NO_REPORT + IN_MOST_MESSAGE + 1 - message;
            int named = number <= IN_MOST_MESSAGE;
            make_expected(dice, named ? (enum form)below(dice, FORMS) : BLANKS, date);
            put_state(line_in(walk->saved, 0), chance(dice, 2) ? IN_HELD : IN_LET_GO, number, date);
            walk_state(walk->saved, walk->length, &walk->room, turn + message,
                       SAVED_MESSAGES_LOADED);
        }
}

void compare_saved_report_bytes(struct dice *dice)
{
    walk_bytes(dice);
    walk_days(dice);
    walk_messages(dice);
}
