/* Cases for both forms of a save: moved there and back, into outputs of all sizes; messages that
   would be lost; kinds of lines mixed; and damaged saves, given to loading and to both moves. */
#include "cases.h"

#include <string.h>

enum {
    LINES = 4, SLIPS = 4, SMALL_SAVE = WQ_SAVE_LENGTH(LINES, SLIPS), LARGER = 40,
    SMALL_ROOM = SMALL_SAVE + LARGER,
    /* load, old to new, new to old: the order of their classes */
    TRIED_LOAD = 0, TRIED_TO_NEW, TRIED_TO_OLD, TRIED
};

static uint8_t moved[SAVE_ROOM];

static enum saved_form other_form(enum saved_form form)
{
    return form == OLD_FORM ? NEW_FORM : OLD_FORM;
}

/* What a move has to answer to a valid save, where the output is large enough. */
static uint64_t wanted_of(enum saved_form to, const uint8_t *saved, size_t length)
{
    if (!is_in_form(saved, other_form(to)))
        return 22;
    return to == OLD_FORM && has_number(saved, lines_stated(saved, length)) ? 28 : 0;
}

uint64_t try_save(struct dice *dice, const uint8_t *saved, size_t length,
                  const struct shelf *room, enum class class)
{
    static struct shelf shelf;
    size_t out = length + length / IN_SAVED_OLD_LINE * (IN_SAVED_LINE - IN_SAVED_OLD_LINE)
               + below(dice, LARGER);
    shelf = *room;
    uint64_t loaded = both_load(saved, length, &shelf);
    int valid = loaded == 0 || loaded == 23;
    insist(both_move(NEW_FORM, saved, length, moved, out)
           == (valid ? wanted_of(NEW_FORM, saved, length) : 22),
           "old to new takes what is loaded from the old form");
    insist(both_move(OLD_FORM, saved, length, moved, out)
           == (valid ? wanted_of(OLD_FORM, saved, length) : 22),
           "new to old takes what is loaded from the new form and has no message");
    for (size_t i = 0; i < TRIED; i++)
        came_up((enum class)(class + i), 1);
    return loaded;
}

/* The first of three classes that stand behind each other for each form. */
static enum class in_form(enum class class, enum saved_form form)
{
    return (enum class)(class + TRIED * form);
}

/* A room that takes all small saves, with any bytes and used counts. */
static const struct shelf *small_room(struct dice *dice)
{
    static struct shelf room;
    make_shelf(dice, &room, LINES, SLIPS);
    room.used[0] = chance(dice, 2) ? (size_t)roll(dice) : below(dice, LINES);
    room.used[1] = chance(dice, 2) ? (size_t)roll(dice) : below(dice, SLIPS);
    return &room;
}

/* --- There and back --- */

/* A save of the old form and its new one: each is moved to the other, both load alike, and what
   was loaded is saved in the new form. */
static void go_both_ways(struct dice *dice, const uint8_t *old, size_t old_length,
                         const uint8_t *new, size_t new_length, size_t lines, size_t slips)
{
    static struct shelf room, from_old, from_new;
    size_t larger = below(dice, 3);
    expect(OLD_THERE_AND_BACK, 1, both_move(NEW_FORM, old, old_length, moved, new_length + larger),
           0);
    insist(memcmp(moved, new, new_length) == 0, "old to new gives the new form");
    expect(NEW_THERE_AND_BACK, 1, both_move(OLD_FORM, new, new_length, moved, old_length + larger),
           0);
    insist(memcmp(moved, old, old_length) == 0, "new to old gives the old bytes");
    make_shelf(dice, &room, lines, slips);
    from_old = from_new = room;
    expect(OLD_LOADED_AS_ITS_NEW, 1, both_load(old, old_length, &from_old), 0);
    expect(OLD_LOADED_AS_ITS_NEW, 1, both_load(new, new_length, &from_new), 0);
    insist(memcmp(&from_old, &from_new, sizeof from_old) == 0,
           "an old save is loaded as its new form");
    expect(SAVED_AGAIN_FROM_OLD, 1, both_save(&from_old, moved, new_length), 0);
    insist(memcmp(moved, new, new_length) == 0, "what an old save gave is saved as its new form");
}

void move_book(struct dice *dice, const struct shelf *shelf)
{
    static uint8_t old[SAVE_ROOM], new[SAVE_ROOM];
    static struct shelf loaded;
    size_t lines = shelf->used[0];
    size_t line_room = shelf->lines_length / IN_LINE, slip_room = shelf->slips_length / IN_SLIP;
    size_t new_length = write_save(shelf, NEW_FORM, new), old_length;
    uint64_t lost = has_number(new, lines) ? 28 : 0;
    expect(lost ? BOOKED_AND_LOST : BOOKED_AND_MOVED, 1,
           both_move(OLD_FORM, new, new_length, old, new_length), lost);
    make_shelf(dice, &loaded, line_room, slip_room);
    expect(SAVED_AGAIN_FROM_NEW, lines > 0, both_load(new, new_length, &loaded), 0);
    expect(SAVED_AGAIN_FROM_NEW, lines > 0, both_save(&loaded, moved, new_length), 0);
    insist(memcmp(moved, new, new_length) == 0, "what a new save gave is saved as it");
    forget_numbers(new, lines);
    old_length = write_moved(new, new_length, OLD_FORM, old);
    go_both_ways(dice, old, old_length, new, new_length, line_room, slip_room);
}

/* Any small save of either form and what it is in the other. */
static void move_any(struct dice *dice)
{
    uint8_t saves[SAVED_FORMS][SMALL_SAVE];
    for (size_t i = 0; i < 12; i++) {
        enum saved_form form = (enum saved_form)(i % SAVED_FORMS), to = other_form(form);
        size_t lines = between(dice, 1, LINES), slips = below(dice, SLIPS + 1);
        size_t lengths[SAVED_FORMS];
        lengths[form] = make_save(dice, saves[form], form, lines, slips, 0);
        if (form == NEW_FORM)
            forget_numbers(saves[form], lines);
        lengths[to] = write_moved(saves[form], lengths[form], to, saves[to]);
        go_both_ways(dice, saves[OLD_FORM], lengths[OLD_FORM], saves[NEW_FORM], lengths[NEW_FORM],
                     lines, slips + 1);
    }
}

/* --- Outputs --- */

/* An output of this size for a save that can be moved; the classes of a move stand in the order
   of its outputs: none, short by one, exact and larger. */
static void move_into(enum saved_form to, const uint8_t *saved, size_t length, size_t needed,
                      size_t out)
{
    enum { OF_NONE, SHORT_BY_ONE, EXACT, MORE, OUTPUTS };
    size_t which = out == 0 ? OF_NONE : out == needed ? EXACT : out > needed ? MORE : SHORT_BY_ONE;
    enum class first = (enum class)(OUT_OF_NONE_TO_OLD + OUTPUTS * to);
    expect((enum class)(first + which), which != SHORT_BY_ONE || out + 1 == needed,
           both_move(to, saved, length, moved, out), out < needed ? 23 : 0);
}

/* Outputs at the ends of what a move needs, for saves of all small numbers of entries; the empty
   one is of both forms. */
static void move_into_some(struct dice *dice, enum saved_form to)
{
    enum saved_form from = other_form(to);
    uint8_t saved[SMALL_SAVE];
    for (size_t lines = 0; lines <= LINES; lines++)
        for (size_t slips = 0; slips <= (lines ? SLIPS : 0); slips += 2) {
            size_t length = make_save(dice, saved, from, lines, slips, 0);
            size_t needed = save_length(to, lines, slips);
            if (from == NEW_FORM)
                forget_numbers(saved, lines);
            const size_t rooms[] = {0, needed - 1, needed, needed + between(dice, 1, LARGER),
                                    length - 1, length, below(dice, needed)};
            for (size_t i = 0; i < sizeof rooms / sizeof rooms[0]; i++)
                move_into(to, saved, length, needed, rooms[i]);
            came_up((enum class)(EMPTY_TO_OLD + to), lines == 0);
        }
}

/* Every output size up to a little over the save. */
static void move_into_all(struct dice *dice, enum saved_form to)
{
    uint8_t saved[SMALL_SAVE];
    size_t lines = between(dice, 1, 2), slips = below(dice, 2);
    size_t needed = save_length(to, lines, slips);
    size_t length = make_save(dice, saved, other_form(to), lines, slips, 0);
    if (to == OLD_FORM)
        forget_numbers(saved, lines);
    for (size_t out = 0; out <= needed + 3; out++)
        move_into(to, saved, length, needed, out);
}

/* --- Which answer comes first --- */

/* A save of the other form is 22 to a move, whatever the output and the messages. */
static void move_other_form(struct dice *dice)
{
    uint8_t saved[SMALL_SAVE];
    for (size_t i = 0; i < 6 * SAVED_FORMS; i++) {
        enum saved_form to = (enum saved_form)(i % SAVED_FORMS);
        size_t lines = between(dice, 1, LINES);
        size_t length = make_save(dice, saved, to, lines, below(dice, SLIPS + 1), 0);
        expect((enum class)(OLD_TO_OLD_IS_22 + to), 1,
               both_move(to, saved, length, moved, i % 3 ? SMALL_ROOM : below(dice, length)), 22);
    }
}

/* One line of several has a message: 28, also where the output is too small; and 22 where
   something else is wrong as well. */
static void lose_message(struct dice *dice, size_t lines, size_t at, size_t message)
{
    uint8_t saved[SMALL_ROOM];
    size_t slips = below(dice, SLIPS + 1), needed = save_length(OLD_FORM, lines, slips);
    size_t length = make_save(dice, saved, NEW_FORM, lines, slips, 0);
    forget_numbers(saved, lines);
    expect(NOTHING_LOST, 1, both_move(OLD_FORM, saved, length, moved, needed), 0);
    put_number(dice, saved, at, message);
    enum class class = message == 0 ? LOST_000 : message == IN_MOST_MESSAGE ? LOST_999
                     : at == 0 ? LOST_ON_FIRST : at == lines - 1 ? LOST_ON_LAST : LOST_BETWEEN;
    expect(class, lines > 1, both_move(OLD_FORM, saved, length, moved, SMALL_ROOM), 28);
    expect(LOST_BEFORE_23, 1, both_move(OLD_FORM, saved, length, moved, below(dice, needed)), 28);
    expect(LOST_BEFORE_23, 1, both_move(OLD_FORM, saved, length, moved, needed - 1), 28);
    saved[length] = IN_KIND_END;
    switch (below(dice, 4)) {
    case 0: length--; break;
    case 1: length++; break;
    case 2: saved_line(saved, NEW_FORM, below(dice, lines))[0] = IN_KIND_SLIP; break;
    default: put_little(saved + length - IN_SAVED_SLIPS_COUNT, 2, slips + 1); break;
    }
    expect(INVALID_BEFORE_28, 1, both_move(OLD_FORM, saved, length, moved, SMALL_ROOM), 22);
    expect(INVALID_BEFORE_28, 1, both_move(OLD_FORM, saved, length, moved, 0), 22);
}

static void lose_messages(struct dice *dice)
{
    static const size_t messages[] = {0, 1, 15, 255, 256, 511, 512, 998, IN_MOST_MESSAGE};
    for (size_t lines = 1; lines < LINES; lines++)
        for (size_t at = 0; at < lines; at++)
            for (size_t i = 0; i < sizeof messages / sizeof messages[0]; i++)
                lose_message(dice, lines, at, messages[i]);
}

/* --- Kinds that are mixed --- */

/* The book as a save in which the lines of this mask are of the new form, the others of the
   old. */
static size_t save_mixed(const struct shelf *shelf, size_t mask, uint8_t *saved)
{
    uint8_t whole[SMALL_SAVE], *to = saved;
    size_t length = write_save(shelf, NEW_FORM, whole);
    size_t front = shelf->used[0] * IN_SAVED_LINE;
    for (size_t i = 0; i < shelf->used[0]; i++) {
        int new = mask >> i & 1;
        memcpy(to, whole + i * IN_SAVED_LINE, saved_width(new ? NEW_FORM : OLD_FORM));
        to[0] = new ? IN_KIND_LINE : IN_KIND_OLD_LINE;
        to += saved_width(new ? NEW_FORM : OLD_FORM);
    }
    memcpy(to, whole + front, length - front);
    return (size_t)(to - saved) + length - front;
}

/* Every mixture of both kinds in a save of few lines; where all are of one kind it is valid. */
static void mix_kinds(struct dice *dice)
{
    static struct shelf shelf;
    uint8_t saved[SMALL_SAVE];
    for (size_t lines = 1; lines <= LINES; lines++)
        for (size_t mask = 0; mask >> lines == 0; mask++) {
            size_t slips = chance(dice, 2) ? SLIPS : 0;
            int mixed = mask != 0 && mask + 1 != (size_t)1 << lines;
            enum saved_form first = mask & 1 ? NEW_FORM : OLD_FORM;
            make_shelf(dice, &shelf, LINES, SLIPS);
            stock_unique(dice, &shelf, lines, slips);
            size_t length = save_mixed(&shelf, mask, saved);
            insist(try_save(dice, saved, length, small_room(dice),
                            in_form(mixed ? MIXED_OLD_FIRST_LOADED : WHOLE_OLD_LOADED, first))
                   == (mixed ? 22 : 0), "all lines of a save are of one kind");
        }
}

/* The kind of one line, or of all, is exchanged for that of the other form, the widths being
   what they were. */
static void exchange_kinds(struct dice *dice, enum saved_form form)
{
    uint8_t saved[SMALL_SAVE];
    for (size_t lines = 1; lines <= LINES; lines++)
        for (size_t at = 0; at <= lines; at++) {
            size_t length = make_save(dice, saved, form, lines, below(dice, SLIPS + 1), 0);
            for (size_t i = 0; i < lines; i++)
                if (i == at || at == lines)
                    saved_line(saved, form, i)[0] = form == OLD_FORM ? IN_KIND_LINE
                                                                     : IN_KIND_OLD_LINE;
            insist(try_save(dice, saved, length, small_room(dice),
                            in_form(KIND_EXCHANGED_OLD_LOADED, form)) == 22,
                   "the kind of a line fixes its length");
        }
}

/* --- Damage --- */

static size_t make_small(struct dice *dice, enum saved_form form, uint8_t *saved)
{
    size_t lines = between(dice, 1, 3), length = make_save(dice, saved, form, lines,
                                                           below(dice, 4), 0);
    if (form == NEW_FORM && chance(dice, 2))
        forget_numbers(saved, lines);
    return length;
}

/* A save cut at every length, and damaged at every byte. */
static void damage_save(struct dice *dice, enum saved_form form)
{
    static const uint8_t values[] = {0, 1, 2, 3, 4, ' ', '*', '0', '9', 'A', 'X', 254, 255};
    uint8_t saved[SMALL_SAVE], damaged[SMALL_SAVE];
    size_t length = make_small(dice, form, saved);
    const struct shelf *room = small_room(dice);
    insist(try_save(dice, saved, length, room, in_form(WHOLE_OLD_LOADED, form)) == 0,
           "a valid save is loaded");
    for (size_t place = 0; place < length; place++) {
        insist(try_save(dice, saved, place, room, in_form(CUT_OLD_LOADED, form)) == 22,
               "a save that is cut is none");
        for (size_t i = 0; i < 3; i++) {
            memcpy(damaged, saved, length);
            damaged[place] = i == 0 ? (uint8_t)(saved[place] + 1 - 2 * below(dice, 2))
                           : i == 1 ? values[below(dice, sizeof values)]
                                    : odd_byte(dice, saved[place]);
            try_save(dice, damaged, length, room, in_form(DAMAGED_OLD_LOADED, form));
        }
    }
}

/* A save of one line without a report, cut where something that may stand behind it would make it
   whole: at its front, in what the report says, at its slip and at its end. */
static void cut_at_parts(struct dice *dice, enum saved_form form)
{
    uint8_t saved[SMALL_SAVE];
    const struct shelf *room = small_room(dice);
    size_t width = saved_width(form), length = make_save(dice, saved, form, 1, 0, 0);
    const size_t cuts[] = {0, width - IN_DAY, width - IN_DAY - 2, width, length - 1};
    saved[IN_KIND_BYTE + IN_MARK] = IN_NO_MARK;
    if (form == NEW_FORM)
        put_state(saved + IN_KIND_BYTE, IN_NO_MARK, IN_NO_REPORT, BLANK_DATE);
    for (size_t i = 0; i < sizeof cuts / sizeof cuts[0]; i++)
        for (size_t j = 0; j < EVERY_GUARD; j++)
            insist(try_save(dice, saved, cuts[i], room, in_form(CUT_OLD_LOADED, form)) == 22,
                   "a save that is cut is none, whatever stands behind it");
}

/* A save with bytes behind it, also such as would be an end, a slip or a line. */
static void lengthen_save(struct dice *dice, enum saved_form form)
{
    static const size_t more[] = {1, 2, 4, IN_SAVED_END, 6, 10, 50, IN_SAVED_SLIP, 52,
                                  IN_SAVED_OLD_LINE, 54, 62, IN_SAVED_LINE, 64};
    uint8_t saved[2 * SMALL_SAVE];
    const struct shelf *room = small_room(dice);
    for (size_t i = 0; i < sizeof more / sizeof more[0]; i++) {
        size_t length = make_small(dice, form, saved);
        memset(saved + length, (int)below(dice, 4), more[i]);
        if (chance(dice, 2))
            memcpy(saved + length, saved, more[i] < length ? more[i] : length);
        insist(try_save(dice, saved, length + more[i], room, in_form(LONGER_OLD_LOADED, form))
               == 22, "a save with bytes behind it is none");
    }
}

static void exchange(uint8_t *one, uint8_t *other, size_t width)
{
    for (size_t i = 0; i < width; i++) {
        uint8_t byte = one[i];
        one[i] = other[i];
        other[i] = byte;
    }
}

/* Entries repeated and exchanged, keys repeated, counts wrong, parties of nobody, no end. */
static void load_wrong_entries(struct dice *dice, enum saved_form form)
{
    uint8_t saved[SMALL_SAVE];
    for (size_t i = 0; i < 56; i++) {
        size_t lines = between(dice, 2, LINES), slips = between(dice, 2, SLIPS);
        size_t length = make_save(dice, saved, form, lines, slips, 0), width = saved_width(form);
        size_t at = below(dice, lines), on = below(dice, slips);
        uint8_t *first = saved_line(saved, form, at);
        uint8_t *second = saved_line(saved, form, (at + between(dice, 1, lines - 1)) % lines);
        uint8_t *slip = saved_slip(saved, form, lines, on);
        uint8_t *other = saved_slip(saved, form, lines, (on + between(dice, 1, slips - 1)) % slips);
        switch (i % 14) {
        case 0: memcpy(first + 1, second + 1, IN_KEY); break;
        case 1: memcpy(slip + 1, other + 1, IN_SLIP_KEY); break;
        case 2: memcpy(saved_line(saved, form, lines - 1), slip, IN_SAVED_SLIP); break;
        case 3: put_little(saved + length - 4, 2, lines + 1 - 2 * below(dice, 2)); break;
        case 4: put_little(saved + length - 2, 2, slips + 1 - 2 * below(dice, 2)); break;
        case 5: make_line_key(dice, 0, first + 1); break;
        case 6: memcpy(slip + 1, "43210     VD24000     VD", 24); break;
        case 7: put_little(slip + 1 + IN_LINE_OF_SLIP, 2, lines - below(dice, 2)); break;
        case 8: memcpy(first + 25, "*+:?'     ", 10); break;
        case 9: memcpy(first, second, width); break;
        case 10: memcpy(slip, other, IN_SAVED_SLIP); break;
        case 11: exchange(first, second, width); break;
        case 12: exchange(slip, other, IN_SAVED_SLIP); break;
        default: length -= IN_SAVED_END; break;
        }
        try_save(dice, saved, length, small_room(dice), in_form(ENTRIES_OLD_LOADED, form));
    }
}

void compare_moves(struct dice *dice)
{
    move_any(dice);
    move_other_form(dice);
    lose_messages(dice);
    mix_kinds(dice);
    for (size_t i = 0; i < SAVED_FORMS; i++) {
        enum saved_form form = (enum saved_form)i;
        move_into_some(dice, form);
        move_into_all(dice, form);
        exchange_kinds(dice, form);
        damage_save(dice, form);
        cut_at_parts(dice, form);
        lengthen_save(dice, form);
        load_wrong_entries(dice, form);
    }
}
