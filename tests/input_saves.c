/* Generated saves of both forms; and what saving, loading and moving have to give, stated here
   a second time on purpose. */
#include "inputs.h"

#include <string.h>

static const struct { uint8_t kind; size_t body; } forms[SAVED_FORMS] = {
    [OLD_FORM] = {IN_KIND_OLD_LINE, IN_OLD_BODY}, [NEW_FORM] = {IN_KIND_LINE, IN_BODY}
};

size_t saved_width(enum saved_form form)
{
    return IN_KIND_BYTE + forms[form].body;
}

size_t save_length(enum saved_form form, size_t lines, size_t slips)
{
    return lines * saved_width(form) + slips * IN_SAVED_SLIP + IN_SAVED_END;
}

uint8_t *saved_line(uint8_t *saved, enum saved_form form, size_t index)
{
    return saved + index * saved_width(form);
}

uint8_t *saved_slip(uint8_t *saved, enum saved_form form, size_t lines, size_t index)
{
    return saved_line(saved, form, lines) + index * IN_SAVED_SLIP;
}

size_t lines_stated(const uint8_t *saved, size_t length)
{
    return get_little(saved + length - IN_SAVED_LINES_COUNT, 2);
}

static size_t slips_stated(const uint8_t *saved, size_t length)
{
    return get_little(saved + length - IN_SAVED_SLIPS_COUNT, 2);
}

int is_in_form(const uint8_t *saved, enum saved_form form)
{
    return saved[0] == forms[form].kind || saved[0] == IN_KIND_END;
}

static uint8_t *put_line(uint8_t *to, enum saved_form form, const uint8_t *line)
{
    to[0] = forms[form].kind;
    memcpy(to + IN_KIND_BYTE, line, forms[form].body);
    return to + saved_width(form);
}

static uint8_t *put_slip(uint8_t *to, const uint8_t *slip)
{
    to[0] = IN_KIND_SLIP;
    memcpy(to + IN_KIND_BYTE, slip, IN_SLIP);
    return to + IN_SAVED_SLIP;
}

static uint8_t *put_end(uint8_t *to, size_t lines, size_t slips)
{
    to[0] = IN_KIND_END;
    put_little(to + IN_KIND_BYTE, 2, lines);
    put_little(to + IN_KIND_BYTE + 2, 2, slips);
    return to + IN_SAVED_END;
}

/* A valid save; copies 0 means any number on each slip. Slips go to the first lines. */
size_t make_save(struct dice *dice, uint8_t *saved, enum saved_form form, size_t lines,
                 size_t slips, size_t copies)
{
    uint8_t *to = saved, line[IN_LINE], slip[IN_SLIP];
    for (size_t i = 0; i < lines; i++) {
        unique_line(dice, line, i);
        to = put_line(to, form, line);
    }
    for (size_t i = 0; i < slips; i++) {
        unique_slip(dice, slip, i, copies ? 0 : below(dice, lines));
        make_day(dice, slip + IN_DATE);
        if (copies)
            put_little(slip + IN_COPIES, 2, copies);
        to = put_slip(to, slip);
    }
    return (size_t)(put_end(to, lines, slips) - saved);
}

/* The save of a book: each used line up to its message or its arrived, then each used slip. */
size_t write_save(const struct shelf *shelf, enum saved_form form, uint8_t *saved)
{
    uint8_t *to = saved;
    for (size_t i = 0; i < shelf->used[0]; i++)
        to = put_line(to, form, shelf->lines + i * IN_LINE);
    for (size_t i = 0; i < shelf->used[1]; i++)
        to = put_slip(to, shelf->slips + i * IN_SLIP);
    return (size_t)(put_end(to, shelf->used[0], shelf->used[1]) - saved);
}

/* A saved line of this form as a load leaves it, up to its arrived: from the old form its
   message is unknown where there is a mark, and else no report came. */
static void restore_line(const uint8_t *entry, enum saved_form form, uint8_t *line)
{
    memcpy(line, entry + IN_KIND_BYTE, forms[form].body);
    if (form == OLD_FORM)
        put_state(line, line[IN_MARK],
                  line[IN_MARK] == IN_NO_MARK ? IN_NO_REPORT : IN_UNKNOWN, BLANK_DATE);
}

/* What a valid save is in the other form, whether or not that loses messages. Slips and end
   are the same in both. */
size_t write_moved(const uint8_t *saved, size_t length, enum saved_form to, uint8_t *moved)
{
    enum saved_form from = to == NEW_FORM ? OLD_FORM : NEW_FORM;
    size_t lines = lines_stated(saved, length), front = lines * saved_width(from);
    uint8_t *at = moved, line[IN_LINE];
    for (size_t i = 0; i < lines; i++) {
        restore_line(saved + i * saved_width(from), from, line);
        at = put_line(at, to, line);
    }
    memcpy(at, saved + front, length - front);
    return (size_t)(at - moved) + length - front;
}

static uint8_t *state_in(uint8_t *saved, size_t index)
{
    return saved_line(saved, NEW_FORM, index) + IN_KIND_BYTE;
}

/* Whether a line of a save in the new form has a message of 0 to 999. */
int has_number(const uint8_t *saved, size_t lines)
{
    for (size_t i = 0; i < lines; i++) {
        const uint8_t *body = saved + i * IN_SAVED_LINE + IN_KIND_BYTE;
        if (get_little(body + IN_MESSAGE, 2) <= IN_MOST_MESSAGE)
            return 1;
    }
    return 0;
}

/* All messages of a save in the new form become unknown. */
void forget_numbers(uint8_t *saved, size_t lines)
{
    for (size_t i = 0; i < lines; i++) {
        uint8_t *body = state_in(saved, i);
        if (body[IN_MARK] != IN_NO_MARK)
            put_state(body, body[IN_MARK], IN_UNKNOWN, BLANK_DATE);
    }
}

/* This line gets a message of 0 to 999, with a date in any of its forms. */
void put_number(struct dice *dice, uint8_t *saved, size_t index, size_t message)
{
    uint8_t date[IN_DAY];
    make_expected(dice, (enum form)below(dice, FORMS), date);
    put_state(state_in(saved, index), chance(dice, 2) ? IN_HELD : IN_LET_GO, message, date);
}

/* Whether a load has left the entries that the save states, with each A the sum of its slips,
   and all behind the lines and slips in use as it was. */
int is_loaded(const uint8_t *saved, size_t length, const struct shelf *before,
              const struct shelf *after)
{
    enum saved_form form = saved[0] == IN_KIND_OLD_LINE ? OLD_FORM : NEW_FORM;
    size_t lines = lines_stated(saved, length), slips = slips_stated(saved, length);
    const uint8_t *slip = saved + lines * saved_width(form) + IN_KIND_BYTE;
    uint32_t sums[SHELF_LINES] = {0};
    uint8_t wanted[IN_LINE];
    if (after->used[0] != lines || after->used[1] != slips)
        return 0;
    for (size_t i = 0; i < slips; i++, slip += IN_SAVED_SLIP) {
        sums[get_little(slip + IN_LINE_OF_SLIP, 2)] += (uint32_t)get_little(slip + IN_COPIES, 2);
        if (memcmp(after->slips + i * IN_SLIP, slip, IN_SLIP) != 0)
            return 0;
    }
    for (size_t i = 0; i < lines; i++) {
        restore_line(saved + i * saved_width(form), form, wanted);
        put_little(wanted + IN_ARRIVED, IN_ARRIVED_WIDTH, sums[i]);
        if (memcmp(after->lines + i * IN_LINE, wanted, IN_LINE) != 0)
            return 0;
    }
    lines *= IN_LINE;
    slips *= IN_SLIP;
    return memcmp(after->lines + lines, before->lines + lines, before->lines_length - lines) == 0
        && memcmp(after->slips + slips, before->slips + slips, before->slips_length - slips) == 0;
}
