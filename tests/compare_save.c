/* Cases for save and load: outputs of all sizes, numbers at their ends, saves of both forms. */
#include "cases.h"

#include <string.h>

enum { MANY_SLIPS = 100 };

int is_same_book(const struct shelf *shelf, const struct shelf *other)
{
    return memcmp(other->used, shelf->used, sizeof other->used) == 0
        && memcmp(other->slips, shelf->slips, shelf->used[1] * IN_SLIP) == 0
        && memcmp(other->lines, shelf->lines, shelf->used[0] * IN_LINE) == 0;
}

void save_and_load(struct dice *dice, struct shelf *shelf, int by_bookings)
{
    static uint8_t saved[SAVE_ROOM];
    static struct shelf other;
    size_t length = save_length(NEW_FORM, shelf->used[0], shelf->used[1]);
    both_save(shelf, saved, length - 1 - below(dice, length));
    insist(both_save(shelf, saved, length) == 0, "a sound book is saved where it fits");
    make_shelf(dice, &other, between(dice, 1, shelf->lines_length / IN_LINE + 2) % 513 + 1,
               between(dice, 1, shelf->slips_length / IN_SLIP + 2) % 1025 + 1);
    if (other.lines_length > 512 * IN_LINE)
        other.lines_length = 512 * IN_LINE;
    if (other.slips_length > 1024 * IN_SLIP)
        other.slips_length = 1024 * IN_SLIP;
    other.used[0] = (size_t)roll(dice);
    if (both_load(saved, length, &other) == 0 && by_bookings)
        insist(is_same_book(shelf, &other), "load of a save gives the same book");
    if (by_bookings && (shelf->used[1] < MANY_SLIPS || chance(dice, 8)))
        move_book(dice, shelf);
}

/* What loading the old form leaves of a book: no line has a message. */
static void forget_reports(struct shelf *shelf)
{
    for (size_t i = 0; i < shelf->used[0]; i++) {
        uint8_t *line = shelf->lines + i * IN_LINE;
        if (line[IN_MARK] != IN_NO_MARK)
            put_state(line, line[IN_MARK], IN_UNKNOWN, BLANK_DATE);
    }
}

uint64_t load_again(struct dice *dice, struct shelf *shelf, struct shelf *loaded)
{
    static uint8_t saved[SAVE_ROOM];
    static struct shelf wanted;
    size_t length = save_length(NEW_FORM, shelf->used[0], shelf->used[1]);
    insist(both_save(shelf, saved, length) == 0, "a book is saved whatever its lines hold");
    wanted = *shelf;
    if (chance(dice, 3)) {
        length = write_save(shelf, OLD_FORM, saved);
        forget_reports(&wanted);
    }
    make_shelf(dice, loaded, shelf->lines_length / IN_LINE, shelf->slips_length / IN_SLIP);
    uint64_t answer = both_load(saved, length, loaded);
    insist(answer != 0 || is_same_book(&wanted, loaded), "load of a save gives the same book");
    return answer;
}

/* Every output size up to a little over the save. */
static void save_into_all(struct dice *dice)
{
    static struct shelf shelf;
    uint8_t out[1000];
    size_t lines = below(dice, 3), slips = below(dice, 3);
    make_shelf(dice, &shelf, 2, 2);
    stock_shelf(dice, &shelf, lines, slips, 0);
    size_t length = save_length(NEW_FORM, shelf.used[0], shelf.used[1]);
    for (size_t room = 0; room <= length + 3; room++)
        both_save(&shelf, out, room);
}

/* A shelf of some small rooms and any used counts: loading looks at room sizes alone. */
static void any_shelf(struct dice *dice, struct shelf *shelf, size_t most)
{
    make_shelf(dice, shelf, between(dice, 1, most), between(dice, 1, most));
    shelf->used[0] = chance(dice, 2) ? (size_t)roll(dice) : below(dice, 4);
    shelf->used[1] = chance(dice, 2) ? (size_t)roll(dice) : below(dice, 4);
}

/* Each number of a save at its ends and past them. */
static void load_numbers(struct dice *dice, enum saved_form form)
{
    static const size_t numbers[] = {0, 1, 2, 3, 255, 256, 9998, 9999, 10000, 65535};
    static struct shelf shelf;
    uint8_t saved[2000];
    for (size_t i = 0; i < sizeof numbers / sizeof numbers[0]; i++)
        for (size_t which = 0; which < 6; which++) {
            size_t length = make_save(dice, saved, form, 3, 3, 0);
            uint8_t *line = saved_line(saved, form, below(dice, 3));
            uint8_t *slip = saved_slip(saved, form, 3, below(dice, 3));
            switch (which) {
            case 0: put_little(line + 1 + IN_ORDERED, 2, numbers[i]); break;
            case 1: line[1 + IN_MARK] = (uint8_t)numbers[i]; break;
            case 2: put_little(slip + 1 + IN_LINE_OF_SLIP, 2, numbers[i]); break;
            case 3: put_little(slip + 1 + IN_COPIES, 2, numbers[i]); break;
            case 4: put_little(saved + length - 4, 2, numbers[i]); break;
            default: put_little(saved + length - 2, 2, numbers[i]); break;
            }
            make_shelf(dice, &shelf, 3, 3);
            both_load(saved, length, &shelf);
        }
}

/* Saves of few entries into all small rooms. */
static void load_into_rooms(struct dice *dice, enum saved_form form)
{
    static struct shelf shelf;
    uint8_t saved[2000];
    for (size_t lines = 0; lines <= 4; lines++)
        for (size_t slips = 0; slips <= (lines ? 4 : 0); slips++)
            for (size_t room = 0; room < 25; room++) {
                size_t length = make_save(dice, saved, form, lines, slips, 0);
                make_shelf(dice, &shelf, room / 5 + 1, room % 5 + 1);
                uint64_t answer = both_load(saved, length, &shelf);
                int fits = lines <= room / 5 + 1 && slips <= room % 5 + 1;
                insist(answer == (fits ? 0u : 23u), "a valid save is loaded where it fits");
                came_up(fits ? (enum class)(LOADED_OF_OLD + form)
                             : (enum class)(OLD_INTO_SMALL_ROOM_IS_23 + form), lines > 0);
                came_up(EMPTY_LOADED, lines == 0);
            }
}

/* Saves of random keys with mixed parties, where slips follow their line's parties. */
static void load_mixed(struct dice *dice, enum saved_form form)
{
    static struct shelf shelf;
    uint8_t saved[4000];
    for (size_t i = 0; i < 60; i++) {
        size_t lines = between(dice, 1, 5), slips = below(dice, 6);
        size_t length = make_save(dice, saved, form, lines, slips, 0);
        for (size_t j = 0; j < lines; j++)
            make_line_key(dice, below(dice, 4), saved_line(saved, form, j) + 1);
        for (size_t j = 0; j < slips; j++) {
            uint8_t *slip = saved_slip(saved, form, lines, j) + 1;
            size_t other = chance(dice, 20) && lines > 1 && slip[IN_LINE_OF_SLIP] == 0;
            const uint8_t *line = saved_line(saved, form, slip[IN_LINE_OF_SLIP] + other) + 1;
            memcpy(slip, line + 12, 12);
            memcpy(slip + 12, line, 12);
            if (chance(dice, 2))
                make_slip_part(dice, below(dice, 3), slip + 24);
        }
        any_shelf(dice, &shelf, 9);
        both_load(saved, length, &shelf);
    }
}

void compare_saves(struct dice *dice)
{
    for (size_t i = 0; i < 4; i++) {
        save_into_all(dice);
        load_mixed(dice, (enum saved_form)(i % SAVED_FORMS));
    }
    for (size_t form = 0; form < SAVED_FORMS; form++) {
        load_into_rooms(dice, (enum saved_form)form);
        load_numbers(dice, (enum saved_form)form);
    }
}
