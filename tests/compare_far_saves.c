/* Cases of large saves in both forms: faults, repeats, sums, kinds and messages far behind, and
   counts past two bytes. */
#include "cases.h"

#include <string.h>

enum {
    MOST_LINES = 512, MOST_SLIPS = 1024, MOST_COPIES = 9999, LOW_BITS = 8, TWO_BYTES = 65536,
    FAR_SAVE_ROOM = (TWO_BYTES + 2000) * IN_SAVED_LINE,
    SAVED_LINE_OF_SLIP = IN_KIND_BYTE + IN_LINE_OF_SLIP, SAVED_COPIES = IN_KIND_BYTE + IN_COPIES
};

/* The save that is looked at, and its form. */
static uint8_t saved[FAR_SAVE_ROOM];
static enum saved_form form;

/* The largest room, with any used counts. */
static struct shelf *largest_shelf(struct dice *dice)
{
    static struct shelf shelf;
    make_shelf(dice, &shelf, MOST_LINES, MOST_SLIPS);
    shelf.used[0] = (size_t)roll(dice);
    return &shelf;
}

static uint8_t *line_at(size_t index)
{
    return saved_line(saved, form, index);
}

static uint8_t *slip_at(size_t lines, size_t index)
{
    return saved_slip(saved, form, lines, index);
}

static size_t make_far(struct dice *dice, size_t lines, size_t slips, size_t copies)
{
    return make_save(dice, saved, form, lines, slips, copies);
}

static uint64_t load_far(struct dice *dice, size_t length)
{
    return both_load(saved, length, largest_shelf(dice));
}

/* A move into an output that is large enough. */
static uint64_t move_far_to(enum saved_form to, size_t length)
{
    static uint8_t out[SAVE_ROOM];
    return both_move(to, saved, length, out, sizeof out);
}

/* The move that takes the form of the save. */
static uint64_t move_far(size_t length)
{
    return move_far_to(form == OLD_FORM ? NEW_FORM : OLD_FORM, length);
}

/* One of both, for a save that is 22 to either. */
static uint64_t try_far(struct dice *dice, size_t length)
{
    return chance(dice, 2) ? move_far(length) : load_far(dice, length);
}

/* A valid save in which each line has a school of its own. */
static size_t make_mixed_save(struct dice *dice, size_t lines, size_t slips)
{
    size_t length = make_far(dice, lines, slips, 0);
    for (size_t i = 0; i < lines; i++)
        put_digits(line_at(i) + 1, 6, i);
    for (size_t i = 0; i < slips; i++) {
        uint8_t *slip = slip_at(lines, i);
        size_t line = get_little(slip + SAVED_LINE_OF_SLIP, 2);
        memcpy(slip + 1 + IN_PARTY, line_at(line) + 1, IN_PARTY);
    }
    return length;
}

/* One fault in an entry: where it stands in the saved line or slip, and the wrong bytes. */
struct fault { size_t place, width; const char *bytes; };

/* Reference, article, its qualifier, copies and mark of a saved line. */
static const struct fault line_faults[] = {
    {25, 1, " "}, {34, 1, "\x7f"}, {34, 1, "\x81"}, {35, 1, "x"}, {48, 2, "EX"}, {50, 2, "\0\0"},
    {50, 2, "\x10\x27"}, {52, 1, "\3"}
};

/* Mark, message and date of a line in the new form. */
static const struct fault report_faults[] = {
    {52, 3, "\0\17\0"}, {52, 3, "\0\376\377"}, {52, 3, "\1\377\377"}, {53, 2, "\xe8\3"},
    {53, 2, "\xfd\377"}, {55, 8, "20230229"}, {55, 1, "\xa0"}, {62, 1, "!"}
};

/* Supplier, school, date, slip number, position and copies of a saved slip. */
static const struct fault slip_faults[] = {
    {1, 1, "3"}, {13, 1, "X"}, {25, 8, "20230229"}, {33, 1, " "}, {42, 1, "\x9d"}, {46, 1, "/"},
    {49, 2, "\0\0"}, {49, 2, "\x10\x27"}
};

/* Loads the save with the fault in this entry, which alone makes it 22, or moves it. */
static void try_faulty(struct dice *dice, size_t length, uint8_t *entry,
                       const struct fault *fault, enum class class)
{
    uint8_t right[IN_SAVED_LINE];
    memcpy(right, entry, IN_SAVED_LINE);
    memcpy(entry + fault->place, fault->bytes, fault->width);
    expect(class, 1, try_far(dice, length), 22);
    memcpy(entry, right, IN_SAVED_LINE);
}

/* A line that stands far behind: the last one, or any. */
static uint8_t *far_line(struct dice *dice, size_t lines, size_t turn)
{
    return line_at(turn % 3 ? between(dice, 601, lines - 1) : lines - 1);
}

/* A valid save of more entries than any room takes is 23 to load, and the move of its own form
   takes it; with one fault far behind it is 22 to load and to move. */
static void try_far_faults(struct dice *dice)
{
    size_t lines = between(dice, 602, 700), slips = between(dice, 1101, 1300);
    size_t length = make_mixed_save(dice, lines, slips);
    expect(SAVE_OVER_600_LINES, lines > 600, load_far(dice, length), 23);
    came_up(SAVE_OVER_1100_SLIPS, slips > 1100);
    for (size_t i = 0; i < sizeof line_faults / sizeof line_faults[0]; i++)
        try_faulty(dice, length, far_line(dice, lines, i), &line_faults[i],
                   (enum class)(FAULT_PAST_OLD_LINE_600 + form));
    for (size_t i = 0; form == NEW_FORM && i < sizeof report_faults / sizeof report_faults[0]; i++)
        try_faulty(dice, length, far_line(dice, lines, i), &report_faults[i],
                   REPORT_BROKEN_PAST_LINE_600);
    for (size_t i = 0; i < sizeof slip_faults / sizeof slip_faults[0]; i++)
        try_faulty(dice, length,
                   slip_at(lines, i % 3 ? between(dice, 1025, slips - 1) : slips - 1),
                   &slip_faults[i], FAULT_PAST_SLIP_1024);
    if (form == NEW_FORM)
        forget_numbers(saved, lines);
    expect((enum class)(MOVED_OVER_600_OLD_LINES + form), 1, move_far(length), 0);
    expect((enum class)(OVER_600_OLD_TO_OLD_IS_22 + form), 1, move_far_to(form, length), 22);
}

/* In the new form: one message, far behind, would be lost. */
static void lose_far_messages(struct dice *dice)
{
    form = NEW_FORM;
    size_t lines = between(dice, 602, 700), length = make_far(dice, lines, 20, 0);
    const size_t places[] = {between(dice, 256, 511), MOST_LINES, between(dice, 601, lines - 1),
                             lines - 1};
    forget_numbers(saved, lines);
    for (size_t i = 0; i < sizeof places / sizeof places[0]; i++) {
        uint8_t right[IN_SAVED_LINE], *line = line_at(places[i]);
        memcpy(right, line, IN_SAVED_LINE);
        put_number(dice, saved, places[i], i % 2 ? make_message(dice) : 0);
        expect(places[i] > 600 ? LOST_PAST_LINE_600 : LOST_FROM_LINE_256, 1, move_far(length), 28);
        memcpy(line, right, IN_SAVED_LINE);
    }
    insist(move_far(length) == 0, "without that message nothing is lost");
}

/* Widens or narrows the entry of one line to that of the other form; gives the new length. */
static size_t turn_line(size_t index, size_t length)
{
    enum { MORE = IN_SAVED_LINE - IN_SAVED_OLD_LINE };
    uint8_t *line = line_at(index);
    size_t rest = length - (index + 1) * saved_width(form);
    if (form == NEW_FORM) {
        memmove(line + IN_SAVED_OLD_LINE, line + IN_SAVED_LINE, rest);
        line[0] = IN_KIND_OLD_LINE;
        return length - MORE;
    }
    memmove(line + IN_SAVED_LINE, line + IN_SAVED_OLD_LINE, rest);
    line[0] = IN_KIND_LINE;
    put_state(line + IN_KIND_BYTE, IN_NO_MARK, IN_NO_REPORT, BLANK_DATE);
    return length + MORE;
}

/* What all three calls that take a save have to answer to one that is none. The classes stand in
   their order, for each form. */
static void refuse_far(struct dice *dice, size_t length, enum class class)
{
    class = (enum class)(class + 3 * form);
    expect(class, 1, load_far(dice, length), 22);
    expect((enum class)(class + 1), 1, move_far_to(NEW_FORM, length), 22);
    expect((enum class)(class + 2), 1, move_far_to(OLD_FORM, length), 22);
}

/* Saves with one line of the other kind far behind: of the width that goes with it, and of the
   width that the others have. */
static void mix_far_kinds(struct dice *dice)
{
    size_t lines = between(dice, 602, 700), at = between(dice, 601, lines - 1);
    refuse_far(dice, turn_line(lines - 1, make_far(dice, lines, 0, 0)), FAR_MIXED_OLD_LOADED);
    size_t length = make_far(dice, lines, 0, 0);
    line_at(at)[0] = form == OLD_FORM ? IN_KIND_LINE : IN_KIND_OLD_LINE;
    refuse_far(dice, length, FAR_KIND_OLD_LOADED);
}

/* The key of a line stands again at another, under titles that differ as told. */
static void load_line_again(struct dice *dice, size_t length, size_t first, size_t again,
                            enum change change)
{
    struct titles titles;
    uint8_t right[IN_SAVED_LINE];
    make_titles(dice, change, &titles);
    memcpy(right, line_at(again), saved_width(form));
    memcpy(line_at(first) + 1 + IN_KEY, titles.ours, IN_TITLE);
    memcpy(line_at(again) + 1 + IN_KEY, titles.other, IN_TITLE);
    memcpy(line_at(again) + 1, line_at(first) + 1, IN_KEY);
    enum class same = again > 600 ? SAVED_600_OF_SAME : SAVED_256_OF_SAME;
    expect((enum class)(same + change), again >= 256, try_far(dice, length), 22);
    memcpy(line_at(again), right, saved_width(form));
}

/* The same behind line 256 and behind line 600, the first of the two near or far. */
static void load_lines_again(struct dice *dice)
{
    size_t lines = between(dice, 610, 700), length = make_far(dice, lines, 20, 0);
    for (size_t i = 0; i < 2 * CHANGES; i++) {
        enum change change = (enum change)(i % CHANGES);
        size_t middle = between(dice, 257, 512), again = between(dice, 605, lines - 1);
        load_line_again(dice, length, chance(dice, 3) ? middle - 1 : below(dice, middle), middle,
                        change);
        load_line_again(dice, length, chance(dice, 3) ? again - 1 : below(dice, again), again,
                        change);
    }
    insist(load_far(dice, length) == 23, "without its repeats it is valid");
}

/* A key that stands again far behind, the first of the two near or far; each form meets two of
   three such places. */
static void try_far_repeats(struct dice *dice)
{
    size_t lines = between(dice, 610, 700), slips = between(dice, 1101, 1300);
    for (size_t i = form; i < 2 + (size_t)form; i++) {
        size_t length = make_far(dice, lines, slips, 0);
        size_t again = between(dice, 605, lines - 1);
        size_t first = i == 0 ? below(dice, 64) : i == 1 ? between(dice, 64, 600) : again - 1;
        memcpy(line_at(again) + 1, line_at(first) + 1, IN_KEY);
        expect(LINES_REPEATED_PAST_600, again > 600, try_far(dice, length), 22);
        length = make_far(dice, lines, slips, 0);
        again = between(dice, 1030, slips - 1);
        first = i == 0 ? below(dice, 64) : i == 1 ? between(dice, 64, 1024)
                       : between(dice, 1025, again - 1);
        memcpy(slip_at(lines, again) + 1, slip_at(lines, first) + 1, IN_SLIP_KEY);
        expect(SLIPS_REPEATED_PAST_1024, again > 1024, try_far(dice, length), 22);
    }
}

/* Makes a save of so many full slips on one line, the last of other copies. */
static size_t make_full_line(struct dice *dice, size_t line, size_t slips, size_t last)
{
    size_t lines = line + 1 + below(dice, 3);
    size_t length = make_far(dice, lines, slips, MOST_COPIES);
    for (size_t i = 0; i < slips; i++)
        put_little(slip_at(lines, i) + SAVED_LINE_OF_SLIP, 2, line);
    put_little(slip_at(lines, slips - 1) + SAVED_COPIES, 2, last);
    return length;
}

/* Sums at the limit from both sides, and one over 2^24, on lines near and far. 1,000 slips
   of 9,999 copies and one of 999 make the limit. */
static void load_sums(struct dice *dice)
{
    const size_t lines[] = {below(dice, 3), 3, between(dice, 4, 63), between(dice, 64, 255), 256,
                            between(dice, 257, 508)};
    for (size_t i = 0; i < sizeof lines / sizeof lines[0]; i++) {
        size_t length = make_full_line(dice, lines[i], 1001, 999);
        insist(load_far(dice, length) == 0, "a sum at the limit loads");
        length = make_full_line(dice, lines[i], 1001, 1000);
        expect(SUM_OVER_LIMIT_FROM_LINE_3, lines[i] >= 3, try_far(dice, length), 22);
    }
    size_t length = make_full_line(dice, 5, 1700, MOST_COPIES);
    expect(SUM_OVER_2_24, 1700 * MOST_COPIES > 1 << 24, try_far(dice, length), 22);
}

/* Two lines that their low byte does not tell apart, over the limit together alone. */
static void load_two_sums(struct dice *dice)
{
    size_t line = below(dice, 200), far = line + 256, lines = far + 1;
    size_t length = make_far(dice, lines, MOST_SLIPS, MOST_COPIES);
    for (size_t i = 0; i < MOST_SLIPS; i++)
        put_little(slip_at(lines, i) + SAVED_LINE_OF_SLIP, 2, i % 2 ? far : line);
    expect(SUMS_256_LINES_APART, MOST_SLIPS * MOST_COPIES > 9999999,
           load_far(dice, length), 0);
}

/* Sums at the limit with a slip of another line behind, also where no room takes them. */
static void load_mixed_sums(struct dice *dice)
{
    for (size_t i = 0; i < 4; i++) {
        size_t slips = i < 2 ? 1002 : 1030, line = below(dice, 4);
        size_t length = make_full_line(dice, line, slips, 1);
        size_t lines = get_little(saved + length - IN_SAVED_LINES_COUNT, 2);
        size_t other = line == 0 ? lines - 1 : 0;
        for (size_t j = 1000; j < slips; j++) {
            put_little(slip_at(lines, j) + SAVED_COPIES, 2, j > 1000 ? 1 : i % 2 ? 1000 : 999);
            put_little(slip_at(lines, j) + SAVED_LINE_OF_SLIP, 2, j > 1000 ? other : line);
        }
        load_far(dice, length);
    }
}

/* As many entries as fit, one more of either, each in one of the forms, and a bit of one turned. */
static void load_full(struct dice *dice)
{
    static const size_t sizes[SAVED_FORMS][3][2] = {{{512, 1024}, {513, 1}, {510, 1}},
                                                    {{512, 1024}, {1, 1025}, {511, 0}}};
    for (size_t i = 0; i < sizeof sizes[form] / sizeof sizes[form][0]; i++) {
        size_t lines = sizes[form][i][0], slips = sizes[form][i][1];
        size_t length = make_mixed_save(dice, lines, slips);
        insist(load_far(dice, length)
               == (lines > MOST_LINES || slips > MOST_SLIPS ? 23u : 0u), "full rooms load");
        came_up(SAVED_SLIP_OF_LINE_FROM_256, lines == MOST_LINES);
        saved[below(dice, length)] ^= (uint8_t)(1u << below(dice, 8));
        load_far(dice, length);
    }
}

/* A slip of a far line with the school, and with the supplier, of another. */
static void load_far_parties(struct dice *dice)
{
    enum { LINES = 300, SLIPS = 3 };
    size_t length = make_mixed_save(dice, LINES, SLIPS);
    size_t line = between(dice, 256, LINES - 1);
    uint8_t *slip = slip_at(LINES, below(dice, SLIPS)), *school = slip + 1 + IN_PARTY;
    put_little(slip + SAVED_LINE_OF_SLIP, 2, line);
    memcpy(school, line_at(line) + 1, IN_PARTY);
    insist(load_far(dice, length) == 0, "a slip of a far line loads");
    memcpy(school, line_at(below(dice, 256)) + 1, IN_PARTY);
    expect(SAVED_PARTY_OF_LINE_FROM_256, 1, try_far(dice, length), 22);
    memcpy(school, line_at(line) + 1, IN_PARTY);
    slip[1] = slip[1] == '7' ? '8' : '7';
    expect(SAVED_PARTY_OF_LINE_FROM_256, 1, try_far(dice, length), 22);
}

/* Ends the save behind so many of its lines; gives its length. */
static size_t end_behind(size_t lines)
{
    uint8_t *end = line_at(lines);
    end[0] = IN_KIND_END;
    put_little(end + IN_KIND_BYTE, 2, lines);
    put_little(end + IN_KIND_BYTE + 2, 2, 0);
    return lines * saved_width(form) + IN_SAVED_END;
}

/* More entries than two bytes count, with nothing else wrong: the two bytes that stand there
   are too few. And as many lines as they count, with one of the other kind far behind. */
static void load_past_two_bytes(struct dice *dice)
{
    size_t few = below(dice, 3), at = between(dice, TWO_BYTES / 2, TWO_BYTES - 2);
    size_t length = make_far(dice, TWO_BYTES + few, 0, 0);
    expect(SAVED_LINES_MODULO_65536, get_little(saved + length - IN_SAVED_LINES_COUNT, 2) == few,
           try_far(dice, length), 22);
    length = turn_line(at, end_behind(TWO_BYTES - 1));
    refuse_far(dice, length, MIXED_OF_65535_OLD_LOADED);
    length = make_far(dice, 2, TWO_BYTES + few, 1);
    expect(SAVED_SLIPS_MODULO_65536, get_little(saved + length - IN_SAVED_SLIPS_COUNT, 2) == few,
           try_far(dice, length), 22);
}

/* Slips of lines that their low byte would take for one that is there. */
static void load_far_lines_of_slips(struct dice *dice)
{
    size_t lines = between(dice, 1, 200), slips = between(dice, 1, 20);
    size_t length = make_far(dice, lines, slips, 0);
    for (size_t bit = LOW_BITS; bit < 2 * LOW_BITS; bit++) {
        uint8_t *slip = slip_at(lines, below(dice, slips));
        size_t line = get_little(slip + SAVED_LINE_OF_SLIP, 2);
        put_little(slip + SAVED_LINE_OF_SLIP, 2, line ^ (size_t)1 << bit);
        expect(SAVED_LINE_OF_SLIP_FAR, line < lines, try_far(dice, length), 22);
        put_little(slip + SAVED_LINE_OF_SLIP, 2, line);
    }
}

/* A save of one school that is its own supplier, so that no slip can be told from a line by
   its parties. */
static size_t make_own_supplier(struct dice *dice, size_t lines, size_t slips)
{
    size_t length = make_far(dice, lines, slips, 0);
    for (size_t i = 0; i < lines; i++)
        memcpy(line_at(i) + 1 + IN_PARTY, line_at(i) + 1, IN_PARTY);
    for (size_t i = 0; i < slips; i++)
        memcpy(slip_at(lines, i) + 1, slip_at(lines, i) + 1 + IN_PARTY, IN_PARTY);
    return length;
}

/* A slip of the line behind the last one, where the first slip stands; and slips without
   any line. */
static void load_lost_slips(struct dice *dice)
{
    static const size_t slips[] = {1, 2, 7, 64, 1100};
    for (size_t i = 0; i < sizeof slips / sizeof slips[0]; i++) {
        size_t lines = between(dice, 1, 9), length = make_own_supplier(dice, lines, slips[i]);
        uint8_t *slip = slip_at(lines, below(dice, slips[i]));
        insist(load_far(dice, length) == (slips[i] > MOST_SLIPS ? 23u : 0u),
               "a school may be its own supplier");
        put_little(slip + SAVED_LINE_OF_SLIP, 2, lines);
        expect(SAVED_SLIP_OF_NEXT_LINE, 1, try_far(dice, length), 22);
        length = make_own_supplier(dice, 1, slips[i]);
        put_little(saved + length - IN_SAVED_LINES_COUNT, 2, 0);
        expect(SAVED_SLIPS_WITHOUT_LINES, 1,
               both_load(line_at(1), length - saved_width(form), largest_shelf(dice)), 22);
    }
}

/* Outputs much larger than the save, also such as are too small by their low bytes. */
static void save_into_large(struct dice *dice)
{
    static const size_t rooms[] = {9001, TWO_BYTES - 1, TWO_BYTES, TWO_BYTES + 1,
                                   TWO_BYTES + 4, TWO_BYTES + 200, 3 * TWO_BYTES};
    static struct shelf shelf;
    make_shelf(dice, &shelf, 6, 6);
    stock_unique(dice, &shelf, between(dice, 1, 5), below(dice, 5));
    for (size_t i = 0; i < sizeof rooms / sizeof rooms[0]; i++)
        expect(SAVE_OUTPUT_OVER_9000, rooms[i] > 9000, both_save(&shelf, saved, rooms[i]), 0);
}

/* The same for both moves. */
static void move_into_large(struct dice *dice)
{
    static const size_t rooms[] = {TWO_BYTES - 1, TWO_BYTES, TWO_BYTES + 1, TWO_BYTES + 200};
    static uint8_t out[TWO_BYTES + 200];
    enum saved_form to = form == OLD_FORM ? NEW_FORM : OLD_FORM;
    size_t lines = between(dice, 1, 5), length = make_far(dice, lines, below(dice, 5), 0);
    if (form == NEW_FORM)
        forget_numbers(saved, lines);
    for (size_t i = 0; i < sizeof rooms / sizeof rooms[0]; i++)
        expect((enum class)(OUT_OVER_65536_TO_OLD + to), rooms[i] >= TWO_BYTES,
               both_move(to, saved, length, out, rooms[i]), 0);
}

void compare_far_saves(struct dice *dice)
{
    for (size_t i = 0; i < SAVED_FORMS; i++) {
        form = (enum saved_form)i;
        try_far_faults(dice);
        try_far_repeats(dice);
        load_lines_again(dice);
        load_full(dice);
        load_far_parties(dice);
        load_past_two_bytes(dice);
        load_far_lines_of_slips(dice);
        load_lost_slips(dice);
        mix_far_kinds(dice);
        move_into_large(dice);
    }
    lose_far_messages(dice);
    form = (enum saved_form)below(dice, SAVED_FORMS);
    load_sums(dice);
    load_two_sums(dice);
    load_mixed_sums(dice);
    save_into_large(dice);
}
