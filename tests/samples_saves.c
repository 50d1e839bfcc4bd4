/* Saves of both forms with the values that document 02 leaves: what loading and both moves answer
   to them and the bytes they give, held against both implementations. */
#include "lending.h"
#include "reference.h"

#include <string.h>

#define OURS "43210     VD"
#define ISBN "9783442756841EN"

/* Saves of up to two lines and one slip: two fronts of a line, one with a mark and one without,
   as entries of either kind; what a report says; a slip of the first line, and the end. */
#define ORDERED(reference) OURS "24000     VD" reference ISBN "\12\0"
#define FIRST_AS(mark) ORDERED("A-17      ") mark
#define OLD_FIRST "\1" FIRST_AS("\1")
#define OLD_SECOND "\1" ORDERED("A-18      ") "\0"
#define NEW_FIRST_AS(mark, message, date) "\3" FIRST_AS(mark) message date
#define NEW_FIRST(message, date) NEW_FIRST_AS("\1", message, date)
#define NEW_SECOND_AS(message, date) "\3" ORDERED("A-18      ") "\0" message date
#define NEW_SECOND NEW_SECOND_AS(ABSENT, BLANK_DATE)
#define UNKNOWN "\376\377"
#define ABSENT "\377\377"
#define NUMBER_15 "\17\0"
#define SLIP_BODY "24000     VD" OURS "2024022670012345  0001" "\0\0" "\4\0"
#define SAVED_SLIP "\2" SLIP_BODY
#define ENDED(lines, slips) "\0" lines "\0" slips "\0"
#define BOTH ENDED("\2", "\0")
#define ONE ENDED("\1", "\0")
#define NONE ENDED("\0", "\0")

/* The same two lines with a slip in both forms, as they stand in a book, and one that is
   numbered. */
static const char old_save[] = OLD_FIRST OLD_SECOND SAVED_SLIP ENDED("\2", "\1");
static const char new_save[] = NEW_FIRST(UNKNOWN, BLANK_DATE) NEW_SECOND SAVED_SLIP
    ENDED("\2", "\1");
static const char numbered_save[] = NEW_FIRST(NUMBER_15, "20240315") NEW_SECOND SAVED_SLIP
    ENDED("\2", "\1");
static const char unknown_lines[] = FIRST_AS("\1") UNKNOWN BLANK_DATE "\4\0\0\0"
    ORDERED("A-18      ") "\0" ABSENT BLANK_DATE "\0\0\0\0";
static const char numbered_lines[] = FIRST_AS("\1") NUMBER_15 "20240315" "\4\0\0\0"
    ORDERED("A-18      ") "\0" ABSENT BLANK_DATE "\0\0\0\0";

/* Saves with what loading, old to new and new to old answer, the output being large. */
#define SAVED(bytes) bytes, sizeof bytes - 1
struct save_sample { const char *bytes; size_t length; uint64_t load, to_new, to_old; };
static const struct save_sample save_samples[] = {
    {SAVED(NONE), 0, 0, 0},
    {SAVED(OLD_FIRST OLD_SECOND BOTH), 0, 0, 22},
    {SAVED(NEW_FIRST(UNKNOWN, BLANK_DATE) NEW_SECOND BOTH), 0, 22, 0},
    {SAVED(NEW_SECOND ONE), 0, 22, 0},
    /* both kinds, in either order, also behind lines of one kind */
    {SAVED(OLD_FIRST NEW_SECOND BOTH), 22, 22, 22},
    {SAVED(NEW_FIRST(UNKNOWN, BLANK_DATE) OLD_SECOND BOTH), 22, 22, 22},
    {SAVED(NEW_FIRST(NUMBER_15, BLANK_DATE) OLD_SECOND BOTH), 22, 22, 22},
    /* each form under the other kind */
    {SAVED("\3" FIRST_AS("\1") ONE), 22, 22, 22},
    {SAVED("\1" FIRST_AS("\1") UNKNOWN BLANK_DATE ONE), 22, 22, 22},
    {SAVED("\4" FIRST_AS("\1") UNKNOWN BLANK_DATE ONE), 22, 22, 22},
    {SAVED("\203" FIRST_AS("\1") UNKNOWN BLANK_DATE ONE), 22, 22, 22},
    {SAVED("\201" FIRST_AS("\1") ONE), 22, 22, 22},
    {SAVED(OLD_FIRST "\201" ORDERED("A-18      ") "\0" BOTH), 22, 22, 22},
    {SAVED(NEW_FIRST(UNKNOWN, BLANK_DATE) "\203" ORDERED("A-18      ") "\0" ABSENT BLANK_DATE BOTH),
     22, 22, 22},
    /* messages from end to end, with each form of the date */
    {SAVED(NEW_FIRST("\0\0", "20240315") ONE), 0, 22, 28},
    {SAVED(NEW_FIRST("\0\0", "00000000") ONE), 0, 22, 28},
    {SAVED(NEW_FIRST("\0\0", BLANK_DATE) ONE), 0, 22, 28},
    {SAVED(NEW_FIRST("\347\3", "99991231") ONE), 0, 22, 28},
    {SAVED(NEW_FIRST_AS("\2", "\347\3", BLANK_DATE) NEW_SECOND BOTH), 0, 22, 28},
    {SAVED(NEW_FIRST("\350\3", BLANK_DATE) ONE), 22, 22, 22},
    {SAVED(NEW_FIRST("\375\377", BLANK_DATE) ONE), 22, 22, 22},
    /* what goes with no mark, and what with one */
    {SAVED(NEW_FIRST_AS("\2", UNKNOWN, BLANK_DATE) ONE), 0, 22, 0},
    {SAVED(NEW_FIRST(ABSENT, BLANK_DATE) ONE), 22, 22, 22},
    {SAVED(NEW_SECOND_AS(UNKNOWN, BLANK_DATE) ONE), 22, 22, 22},
    {SAVED(NEW_SECOND_AS("\0\0", BLANK_DATE) ONE), 22, 22, 22},
    {SAVED(NEW_SECOND_AS("\347\3", "20240315") ONE), 22, 22, 22},
    {SAVED(NEW_FIRST_AS("\3", UNKNOWN, BLANK_DATE) ONE), 22, 22, 22},
    {SAVED(NEW_FIRST_AS("\3", NUMBER_15, BLANK_DATE) ONE), 22, 22, 22},
    {SAVED("\1" FIRST_AS("\3") ONE), 22, 22, 22},
    /* dates in none of the three forms, and such as go with a message alone */
    {SAVED(NEW_FIRST(NUMBER_15, "20230229") ONE), 22, 22, 22},
    {SAVED(NEW_FIRST(NUMBER_15, "0000000 ") ONE), 22, 22, 22},
    {SAVED(NEW_FIRST(NUMBER_15, "\0\0\0\0\0\0\0\0") ONE), 22, 22, 22},
    {SAVED(NEW_FIRST(UNKNOWN, "20240315") ONE), 22, 22, 22},
    {SAVED(NEW_FIRST(UNKNOWN, "00000000") ONE), 22, 22, 22},
    {SAVED(NEW_SECOND_AS(ABSENT, "20240315") ONE), 22, 22, 22},
    {SAVED(NEW_SECOND_AS(ABSENT, "00000000") ONE), 22, 22, 22},
    /* a message in a save that is none: a byte too many, a wrong count, a key twice, no end */
    {SAVED(NEW_FIRST(NUMBER_15, BLANK_DATE) ONE "\0"), 22, 22, 22},
    {SAVED(NEW_FIRST(NUMBER_15, BLANK_DATE) NEW_SECOND ONE), 22, 22, 22},
    {SAVED(NEW_FIRST(NUMBER_15, BLANK_DATE) NEW_FIRST(UNKNOWN, BLANK_DATE) BOTH), 22, 22, 22},
    {SAVED(OLD_FIRST OLD_FIRST BOTH), 22, 22, 22},
    {SAVED(NEW_FIRST(NUMBER_15, BLANK_DATE)), 22, 22, 22},
    {SAVED(NONE NONE), 22, 22, 22},
    {SAVED(""), 22, 22, 22}
};

/* A move with an output of this size: the answer. 22 comes before 28, and 28 before 23. */
struct move_sample { const char *bytes; size_t length; enum saved_form to; size_t out;
                     uint64_t answer; };
static const struct move_sample move_samples[] = {
    {SAVED(NONE), NEW_FORM, 4, 23}, {SAVED(NONE), NEW_FORM, 5, 0},
    {SAVED(NONE), OLD_FORM, 4, 23}, {SAVED(NONE), OLD_FORM, 5, 0},
    {SAVED(old_save), NEW_FORM, 181, 23}, {SAVED(old_save), NEW_FORM, 182, 0},
    {SAVED(new_save), OLD_FORM, 161, 23}, {SAVED(new_save), OLD_FORM, 162, 0},
    {SAVED(old_save), NEW_FORM, 0, 23}, {SAVED(new_save), OLD_FORM, 0, 23},
    {SAVED(numbered_save), OLD_FORM, 200, 28}, {SAVED(numbered_save), OLD_FORM, 161, 28},
    {SAVED(numbered_save), OLD_FORM, 0, 28},
    {SAVED(old_save), OLD_FORM, 0, 22}, {SAVED(new_save), NEW_FORM, 0, 22},
    {SAVED(numbered_save), NEW_FORM, 0, 22},
    {SAVED(NEW_FIRST(NUMBER_15, BLANK_DATE) BOTH), OLD_FORM, 0, 22},
    {SAVED(NEW_FIRST(NUMBER_15, BLANK_DATE) BOTH), OLD_FORM, 200, 22}
};

struct side {
    wq_saved (*save)(const uint8_t *, size_t, const uint8_t *, size_t, const size_t *, uint8_t *,
                     size_t);
    wq_loaded (*load)(const uint8_t *, size_t, uint8_t *, size_t, uint8_t *, size_t, size_t *);
    wq_saved (*move[SAVED_FORMS])(const uint8_t *, size_t, uint8_t *, size_t);
};

static const struct side sides[] = {
    {ref_save, ref_load, {[OLD_FORM] = ref_to_old, [NEW_FORM] = ref_to_new}},
    {wq_save, wq_load, {[OLD_FORM] = wq_to_old, [NEW_FORM] = wq_to_new}}
};

enum { SAMPLE_OUT = 200, FILLED = 7 };

/* A move fills as much of the output as it says, and nothing where it refuses. */
static void run_move(const struct side *side, const struct move_sample *sample)
{
    uint8_t out[SAMPLE_OUT];
    memset(out, FILLED, sizeof out);
    wq_saved moved = side->move[sample->to]((const uint8_t *)sample->bytes, sample->length, out,
                                            sample->out);
    tally.calls++;
    insist(moved.answer == sample->answer && moved.place == 0
           && (moved.answer == 0 || moved.length == 0), "a move answers as stated");
    for (size_t i = (size_t)moved.length; i < sizeof out; i++)
        insist(out[i] == FILLED, "the output behind what is moved is as it was");
}

static void run_save_sample(const struct side *side, const struct save_sample *sample)
{
    uint8_t lines[2 * IN_LINE] = {0}, slips[IN_SLIP] = {0};
    size_t used[2] = {FILLED, FILLED};
    const struct move_sample moves[] = {
        {sample->bytes, sample->length, NEW_FORM, SAMPLE_OUT, sample->to_new},
        {sample->bytes, sample->length, OLD_FORM, SAMPLE_OUT, sample->to_old}
    };
    wq_loaded loaded = side->load((const uint8_t *)sample->bytes, sample->length, lines,
                                  sizeof lines, slips, sizeof slips, used);
    tally.calls++;
    insist(loaded.answer == sample->load && loaded.place == 0, "a load answers as stated");
    insist((used[0] == FILLED) == (loaded.answer != 0), "a load that is refused changes nothing");
    run_move(side, &moves[0]);
    run_move(side, &moves[1]);
}

/* A save of two lines and a slip: loaded, the lines are these; saved again, it is this. */
static void load_and_save(const struct side *side, const char *saved, size_t length,
                          const char *wanted, const char *again)
{
    uint8_t lines[3 * IN_LINE], slips[IN_SLIP], out[SAMPLE_OUT] = {0};
    size_t used[2] = {0, 0};
    memset(lines, FILLED, sizeof lines);
    wq_loaded loaded = side->load((const uint8_t *)saved, length, lines, sizeof lines, slips,
                                  sizeof slips, used);
    wq_saved kept = side->save(lines, sizeof lines, slips, sizeof slips, used, out, sizeof out);
    tally.calls += 2;
    insist(loaded.answer == 0 && used[0] == 2 && used[1] == 1
           && memcmp(lines, wanted, 2 * IN_LINE) == 0 && lines[2 * IN_LINE] == FILLED
           && memcmp(slips, SLIP_BODY, IN_SLIP) == 0, "a load gives the lines as stated");
    insist(kept.answer == 0 && kept.place == 0 && kept.length == sizeof new_save - 1
           && memcmp(out, again, sizeof new_save - 1) == 0, "a loaded book is saved as stated");
}

/* Bytes of one form moved to these of the other. */
static void move_save(const struct side *side, enum saved_form to, const char *saved,
                      size_t length, const char *wanted, size_t moved_length)
{
    uint8_t out[SAMPLE_OUT] = {0};
    wq_saved moved = side->move[to]((const uint8_t *)saved, length, out, sizeof out);
    tally.calls++;
    insist(moved.answer == 0 && moved.place == 0 && moved.length == moved_length
           && memcmp(out, wanted, moved_length) == 0, "a move gives the bytes as stated");
}

static void run_side(const struct side *side)
{
    insist(sizeof unknown_lines == 2 * IN_LINE + 1 && sizeof numbered_lines == 2 * IN_LINE + 1
           && sizeof old_save == 163 && sizeof new_save == 183,
           "lines and saves have the widths that they have to");
    for (size_t i = 0; i < sizeof save_samples / sizeof save_samples[0]; i++)
        run_save_sample(side, &save_samples[i]);
    for (size_t i = 0; i < sizeof move_samples / sizeof move_samples[0]; i++)
        run_move(side, &move_samples[i]);
    load_and_save(side, SAVED(old_save), unknown_lines, new_save);
    load_and_save(side, SAVED(new_save), unknown_lines, new_save);
    load_and_save(side, SAVED(numbered_save), numbered_lines, numbered_save);
    move_save(side, NEW_FORM, SAVED(old_save), SAVED(new_save));
    move_save(side, OLD_FORM, SAVED(new_save), SAVED(old_save));
}

void run_save_samples(void)
{
    for (size_t i = 0; i < sizeof sides / sizeof sides[0]; i++)
        run_side(&sides[i]);
}
