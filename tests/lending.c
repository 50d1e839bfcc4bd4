/* Lends the same memory to both implementations and compares everything they leave. */
#include "lending.h"
#include "reference.h"

#include <inttypes.h>
#include <stdio.h>
#include <stdlib.h>
#include <string.h>

#if defined(__SANITIZE_ADDRESS__)
#include <sanitizer/asan_interface.h>
#define HIDE(bytes, length) ASAN_POISON_MEMORY_REGION(bytes, length)
#define SHOW(bytes, length) ASAN_UNPOISON_MEMORY_REGION(bytes, length)
#else
#define HIDE(bytes, length) ((void)(bytes), (void)(length))
#define SHOW(bytes, length) ((void)(bytes), (void)(length))
#endif

enum {
    MOST_PIECES = 8, SIDES = 2, GUARD = 72, SLACK = 16, DESK_WORDS = 1 << 20, MOST_SHOWN = 4096,
    /* the values of a call: answer and place, then what it gives; of a line its figures, what
       its last report said, and whether the articles agreed */
    FIGURES_FROM = 2,
    SAID_FROM = FIGURES_FROM + sizeof (struct figures) / sizeof (uint64_t),
    AGREED = SAID_FROM + sizeof (struct said) / sizeof (uint64_t), MOST_VALUES
};

struct tally tally;

const char *const call_names[CALL_COUNT] = {
    "check", "write", "parts", "w-parts", "book", "line", "save", "load", "to-new", "to-old",
    "account"
};

/* One lent piece: the bytes before the call, and where its copy stands on each side. */
struct piece {
    const char *name;
    const void *bytes;
    size_t length, align, place;
};

struct lending {
    enum call call;
    size_t count, fields, parts;
    struct piece pieces[MOST_PIECES];
};

struct outcome { uint64_t values[MOST_VALUES]; };

/* Both sides have the same layout. */
static size_t desk_words[SIDES][DESK_WORDS];

/* What stands between the pieces: a line, a slip and schools that would count, fields,
   digits, the rest of a kind that was cut, the mark of a bundle and a loop, table entries with
   ID 1019; lines and a slip of a save with the end behind them, the rest of a line, and ends. It
   changes from call to call and differs between the sides, so that reading it
   shows. */
static const char guards[EVERY_GUARD][GUARD + SLACK + 1] = {
    "43210     VD24000     VDA-17      9783442756841EN\1\0\0\377\377        \0\0\0\0"
    "**********************",
    "24000     VD43210     VD2024022670012345  0001\0\0\1\0" "000000000000000000000000000000",
    "43210     VD\377\377\377\377" "43210     VD\377\377\377\377" "43210     VD\0\0\0\0"
    "43210     IB\377\377\377\377" "43210     VD\377\377\377\377",
    "43210     VD\0\0\0\0" "43210     VD\0\0\0\0" "43210     VD\377\377\377\377"
    "24000     VD\377\377\377\377" "43210     VD\0\0\0\0",
    "*9999*9999*9999*9999*9999*9999*9999*9999*9999*9999*9999*9999*9999*9999*9999*9999",
    "00000000000000000000000000000000000000000000000000000000000000000000000000000000",
    "                                                                                ",
    "10110110110110110110110110110110110110110110110110110110110110110110110110110110",
    "01010101010101010101010101010101010101010101010101010101010101010101010101010101",
    "B101L101M101B101L101M101B101L101M101B101L101M101B101L101M101B101L101M101B101L101",
    "6*10191*102990300*1030NO*1032EUR*102990300*1030LP*1032EUR*1101A*1102VB*1151PHY*9",
    "\373\3\0\0\0\0\0\0" "\373\3\0\0\0\0\0\0" "\373\3\0\0\0\0\0\0"
    "\373\3\0\0\0\0\0\0" "\373\3\0\0\0\0\0\0" "\373\3\0\0\0\0\0\0"
    "\373\3\0\0\0\0\0\0" "\373\3\0\0\0\0\0\0",
    "\3" "43210     VD24000     VDA-18      9783442756841EN\1\0\1\17\0" "20240315"
    "\0\1\0\0\0" "\0\1\0\0\0",
    "\1" "43210     VD24000     VDA-18      9783442756841EN\1\0\1" "\0\1\0\0\0"
    "\0\1\0\0\0" "\0\1\0\0\0" "\0\1\0\0\0" "\0\1\0\0\0",
    "\2" "24000     VD43210     VD2024022670012345  0001\0\0\1\0" "\0\1\0\1\0"
    "\0\1\0\0\0" "\0\1\0\0\0",
    "\377\377        \0\1\0\0\0" "\376\377        \0\1\0\0\0" "\0\1\0\0\0",
    "        \0\1\0\0\0" "        \0\2\0\1\0" "\0\1\0\0\0",
    "\0\1\0\0\0" "\0\1\0\0\0" "\0\2\0\1\0" "\0\1\0\1\0" "\0\2\0\0\0",
    "\0"
};

static const char *guard_of(size_t side)
{
    return guards[(side == 0 ? tally.call : tally.call / EVERY_GUARD) % EVERY_GUARD];
}

static uint8_t *desk(size_t side)
{
    return (uint8_t *)desk_words[side];
}

static uint8_t *copy_of(const struct lending *lending, size_t side, size_t piece)
{
    return desk(side) + lending->pieces[piece].place;
}

static void add_piece(struct lending *lending, const char *name, const void *bytes,
                      size_t length, size_t align)
{
    struct piece *piece = &lending->pieces[lending->count++];
    piece->name = name;
    piece->bytes = bytes;
    piece->length = length;
    piece->align = align;
}

/* Lays the pieces out, each at any place of its own alignment, and copies them. */
static void lay_out(struct lending *lending)
{
    size_t end = 0;
    for (size_t i = 0; i < lending->count; i++) {
        struct piece *piece = &lending->pieces[i];
        size_t aligned = (end + GUARD + 7) / 8 * 8;
        piece->place = aligned + (size_t)(tally.call % 8) / piece->align * piece->align;
        if (piece->place + piece->length + GUARD > sizeof desk_words[0])
            abort();
        for (size_t side = 0; side < SIDES; side++) {
            memcpy(desk(side) + end, guard_of(side), piece->place - end);
            memcpy(desk(side) + piece->place, piece->bytes, piece->length);
            memcpy(desk(side) + piece->place + piece->length, guard_of(side), GUARD);
        }
        end = piece->place + piece->length;
    }
}

/* Hides or shows the guards for the sanitizer. */
static void hide_guards(const struct lending *lending, int hide)
{
    for (size_t side = 0; side < SIDES; side++) {
        size_t end = 0;
        for (size_t i = 0; i <= lending->count; i++) {
            int last = i == lending->count;
            size_t start = last ? end + GUARD : lending->pieces[i].place;
            if (hide)
                HIDE(desk(side) + end, start - end);
            else
                SHOW(desk(side) + end, start - end);
            if (!last)
                end = start + lending->pieces[i].length;
        }
    }
}

static int guards_hold(const struct lending *lending, size_t side)
{
    size_t end = 0;
    for (size_t i = 0; i < lending->count; i++) {
        const struct piece *piece = &lending->pieces[i];
        if (memcmp(desk(side) + end, guard_of(side), piece->place - end) != 0)
            return 0;
        end = piece->place + piece->length;
    }
    return memcmp(desk(side) + end, guard_of(side), GUARD) == 0;
}

static struct outcome told_of(wq_told told)
{
    struct outcome outcome = {{told.answer, told.place, told.ordered, told.filled,
                               told.still_open, told.let_go, told.extra, told.message,
                               told.expected, told.year, told.month, told.day, 0}};
    return outcome;
}

/* What a booking gives stands as what the call by key does, with `agreed` behind it. */
static struct outcome booked_of(wq_booked booked)
{
    struct outcome outcome = {{booked.answer, booked.place, booked.ordered, booked.filled,
                               booked.still_open, booked.let_go, booked.extra, booked.message,
                               booked.expected, booked.year, booked.month, booked.day,
                               booked.agreed}};
    return outcome;
}

#define BYTES(i) copy_of(lending, side, i), lending->pieces[i].length
#define WORDS(i) (size_t *)(void *)copy_of(lending, side, i), \
                 lending->pieces[i].length / sizeof (size_t)
#define USED(i) (size_t *)(void *)copy_of(lending, side, i)
#define SCHOOLS(i) (const wq_school *)(void *)copy_of(lending, side, i), \
                   lending->pieces[i].length / sizeof (wq_school)

static struct outcome run_record_call(const struct lending *lending, size_t side)
{
    if (lending->call == CHECK) {
        wq_checked checked = side == 0 ? ref_check(BYTES(0), WORDS(1))
                                       : wq_check(BYTES(0), WORDS(1));
        struct outcome outcome = {{checked.answer, checked.place, checked.fields}};
        return outcome;
    }
    wq_written written = side == 0
        ? ref_write(BYTES(0), WORDS(1), lending->fields, BYTES(2), BYTES(3))
        : wq_write(BYTES(0), WORDS(1), lending->fields, BYTES(2), BYTES(3));
    struct outcome outcome = {{written.answer, written.place, written.length}};
    return outcome;
}

static struct outcome run_parts_call(const struct lending *lending, size_t side)
{
    if (lending->call == PARTS) {
        wq_parts_read read = side == 0 ? ref_parts(BYTES(0), BYTES(1))
                                       : wq_parts(BYTES(0), BYTES(1));
        struct outcome outcome = {{read.answer, read.place, read.parts}};
        return outcome;
    }
    wq_written written = side == 0
        ? ref_write_parts(BYTES(0), WORDS(1), lending->fields, BYTES(2), BYTES(3),
                          lending->parts, BYTES(4))
        : wq_write_parts(BYTES(0), WORDS(1), lending->fields, BYTES(2), BYTES(3),
                         lending->parts, BYTES(4));
    struct outcome outcome = {{written.answer, written.place, written.length}};
    return outcome;
}

static struct outcome saved_of(wq_saved saved)
{
    struct outcome outcome = {{saved.answer, saved.place, saved.length}};
    return outcome;
}

static struct outcome run_save_call(const struct lending *lending, size_t side)
{
    if (lending->call == SAVE)
        return saved_of(side == 0 ? ref_save(BYTES(0), BYTES(1), USED(2), BYTES(3))
                                  : wq_save(BYTES(0), BYTES(1), USED(2), BYTES(3)));
    wq_loaded loaded = side == 0 ? ref_load(BYTES(0), BYTES(1), BYTES(2), USED(3))
                                 : wq_load(BYTES(0), BYTES(1), BYTES(2), USED(3));
    struct outcome outcome = {{loaded.answer, loaded.place}};
    return outcome;
}

static struct outcome run_move_call(const struct lending *lending, size_t side)
{
    if (lending->call == TO_NEW)
        return saved_of(side == 0 ? ref_to_new(BYTES(0), BYTES(1)) : wq_to_new(BYTES(0), BYTES(1)));
    return saved_of(side == 0 ? ref_to_old(BYTES(0), BYTES(1)) : wq_to_old(BYTES(0), BYTES(1)));
}

static struct outcome run_account_call(const struct lending *lending, size_t side)
{
    wq_account_told told = side == 0 ? ref_account(SCHOOLS(0), BYTES(1), BYTES(2))
                                     : wq_account(SCHOOLS(0), BYTES(1), BYTES(2));
    struct outcome outcome = {{told.answer, told.place, told.ceiling}};
    return outcome;
}

static struct outcome run_call(const struct lending *lending, size_t side)
{
    switch (lending->call) {
    case BOOK:
        return booked_of(side == 0
            ? ref_book(BYTES(0), BYTES(1), BYTES(2), BYTES(3), USED(4))
            : wq_book(BYTES(0), BYTES(1), BYTES(2), BYTES(3), USED(4)));
    case LINE:
        return told_of(side == 0
            ? ref_line(BYTES(0), BYTES(1), BYTES(2), BYTES(3), BYTES(4), BYTES(5), BYTES(6),
                       USED(7))
            : wq_line(BYTES(0), BYTES(1), BYTES(2), BYTES(3), BYTES(4), BYTES(5), BYTES(6),
                      USED(7)));
    case SAVE: case LOAD:
        return run_save_call(lending, side);
    case TO_NEW: case TO_OLD:
        return run_move_call(lending, side);
    case ACCOUNT:
        return run_account_call(lending, side);
    case PARTS: case WRITE_PARTS:
        return run_parts_call(lending, side);
    default:
        return run_record_call(lending, side);
    }
}

static void print_piece(const struct piece *piece)
{
    const uint8_t *bytes = piece->bytes;
    printf("  %s (%zu bytes):", piece->name, piece->length);
    for (size_t i = 0; i < piece->length && i < MOST_SHOWN; i++)
        printf("%s%02x", i % 32 == 0 ? "\n    " : "", bytes[i]);
    puts(piece->length > MOST_SHOWN ? " .." : "");
}

static void print_outcome(const char *name, const struct outcome *outcome)
{
    printf("  %s:", name);
    for (size_t i = 0; i < MOST_VALUES; i++)
        printf(" %" PRIu64, outcome->values[i]);
    puts("");
}

static void print_first_difference(const struct lending *lending)
{
    for (size_t i = 0; i < lending->count; i++)
        for (size_t j = 0; j < lending->pieces[i].length; j++)
            if (copy_of(lending, 0, i)[j] != copy_of(lending, 1, i)[j]) {
                printf("  after: %s differs at byte %zu: reference %02x, library %02x\n",
                       lending->pieces[i].name, j, copy_of(lending, 0, i)[j],
                       copy_of(lending, 1, i)[j]);
                return;
            }
}

static void fail(const struct lending *lending, const struct outcome outcomes[SIDES],
                 const char *what)
{
    printf("DIFFERENCE in %s: %s (seed %" PRIu64 ", call %" PRIu64 ")\n",
           call_names[lending->call], what, tally.seed, tally.call);
    if (lending->call == WRITE || lending->call == WRITE_PARTS)
        printf("  fields %zu\n", lending->fields);
    if (lending->call == WRITE_PARTS)
        printf("  parts %zu\n", lending->parts);
    for (size_t i = 0; i < lending->count; i++)
        print_piece(&lending->pieces[i]);
    print_outcome("reference", &outcomes[0]);
    print_outcome("library  ", &outcomes[1]);
    print_first_difference(lending);
    exit(1);
}

void insist(int holds, const char *fact)
{
    if (holds)
        return;
    printf("FALSE: %s (seed %" PRIu64 ", call %" PRIu64 ")\n", fact, tally.seed, tally.call);
    exit(1);
}

/* Whether the first pieces are as they were lent. */
static int are_unchanged(const struct lending *lending, size_t side, size_t pieces)
{
    for (size_t i = 0; i < pieces; i++)
        if (memcmp(copy_of(lending, side, i), lending->pieces[i].bytes,
                   lending->pieces[i].length) != 0)
            return 0;
    return 1;
}

/* Where a refusal has to leave everything as it was. */
static int is_unchanged(const struct lending *lending, size_t side)
{
    return are_unchanged(lending, side, lending->count);
}

/* Whether a refusal gives nothing besides its answer and place. */
static int gives_nothing(const struct outcome *outcome)
{
    for (size_t i = FIGURES_FROM; i < MOST_VALUES; i++)
        if (outcome->values[i] != 0)
            return 0;
    return 1;
}

static int is_same(const struct lending *lending)
{
    for (size_t i = 0; i < lending->count; i++)
        if (memcmp(copy_of(lending, 0, i), copy_of(lending, 1, i),
                   lending->pieces[i].length) != 0)
            return 0;
    return 1;
}

/* Keeps what the call gave for those who made it. */
static void keep_outcome(const struct outcome *outcome)
{
    tally.place = outcome->values[1];
    tally.value = outcome->values[FIGURES_FROM];
    tally.agreed = outcome->values[AGREED];
    memcpy(&tally.figures, outcome->values + FIGURES_FROM, sizeof tally.figures);
    memcpy(&tally.said, outcome->values + SAID_FROM, sizeof tally.said);
}

/* Runs the call on both sides and compares all of it; gives the answer. */
static uint64_t run_both(struct lending *lending)
{
    struct outcome outcomes[SIDES];
    tally.calls++;
    tally.call++;
    lay_out(lending);
    hide_guards(lending, 1);
    for (size_t side = 0; side < SIDES; side++)
        outcomes[side] = run_call(lending, side);
    hide_guards(lending, 0);
    uint64_t answer = outcomes[0].values[0];
    if (memcmp(&outcomes[0], &outcomes[1], sizeof outcomes[0]) != 0)
        fail(lending, outcomes, "answer, place or values");
    if (!is_same(lending))
        fail(lending, outcomes, "lent bytes");
    if (!guards_hold(lending, 0) || !guards_hold(lending, 1))
        fail(lending, outcomes, "written outside the lent bytes");
    if (answer != 0 && !is_unchanged(lending, 0))
        fail(lending, outcomes, "a refusal changed lent bytes");
    if (answer != 0 && !gives_nothing(&outcomes[0]))
        fail(lending, outcomes, "a refusal gave values");
    if (answer >= ANSWER_COUNT)
        fail(lending, outcomes, "no such answer");
    tally.seen[lending->call][answer]++;
    keep_outcome(&outcomes[0]);
    return answer;
}

static struct lending lend(enum call call)
{
    struct lending lending;
    memset(&lending, 0, sizeof lending);
    lending.call = call;
    return lending;
}

static void add_shelf(struct lending *lending, const struct shelf *shelf)
{
    add_piece(lending, "lines", shelf->lines, shelf->lines_length, 1);
    add_piece(lending, "slips", shelf->slips, shelf->slips_length, 1);
    add_piece(lending, "used", shelf->used, sizeof shelf->used, sizeof (size_t));
}

/* The caller's book becomes what both left. */
static void take_back(const struct lending *lending, size_t first, struct shelf *shelf)
{
    memcpy(shelf->lines, copy_of(lending, 0, first), shelf->lines_length);
    memcpy(shelf->slips, copy_of(lending, 0, first + 1), shelf->slips_length);
    memcpy(shelf->used, copy_of(lending, 0, first + 2), sizeof shelf->used);
}

uint64_t both_check(const uint8_t *record, size_t length, size_t table_length)
{
    static size_t table[MOST_TABLE];
    struct lending lending = lend(CHECK);
    if (table_length > MOST_TABLE)
        abort();
    memset(table, (int)(tally.call * 37 % 256), table_length * sizeof table[0]);
    add_piece(&lending, "record", record, length, 1);
    add_piece(&lending, "table", table, table_length * sizeof table[0], sizeof table[0]);
    return run_both(&lending);
}

uint64_t both_write(const struct sheet *sheet, size_t fixed_length, size_t table_length,
                    size_t contents_length, uint8_t *out, size_t out_length)
{
    struct lending lending = lend(WRITE);
    lending.fields = sheet->count;
    memset(out, (int)(tally.call * 37 % 256), out_length);
    add_piece(&lending, "fixed", sheet->fixed, fixed_length, 1);
    add_piece(&lending, "table", sheet->table, table_length * sizeof (size_t),
              sizeof (size_t));
    add_piece(&lending, "contents", sheet->contents, contents_length, 1);
    add_piece(&lending, "out", out, out_length, 1);
    uint64_t answer = run_both(&lending);
    memcpy(out, copy_of(&lending, 0, 3), out_length);
    return answer;
}

/* The room keeps what it held before, but for the parts that were read. */
uint64_t both_parts(const uint8_t *record, size_t length, uint8_t *parts, size_t parts_length)
{
    struct lending lending = lend(PARTS);
    memset(parts, (int)(tally.call * 37 % 256), parts_length);
    add_piece(&lending, "record", record, length, 1);
    add_piece(&lending, "parts", parts, parts_length, 1);
    uint64_t answer = run_both(&lending);
    size_t filled = (size_t)tally.value * IN_PART;
    insist(are_unchanged(&lending, 0, 1), "the record never changes");
    insist(filled <= parts_length && memcmp(copy_of(&lending, 0, 1) + filled, parts + filled,
                                            parts_length - filled) == 0,
           "nothing changes behind the parts that are read");
    memcpy(parts, copy_of(&lending, 0, 1), parts_length);
    return answer;
}

uint64_t both_write_parts(const struct bundle *bundle, uint8_t *out, size_t out_length)
{
    enum { ONLY_READ = 4 };
    const struct sheet *sheet = &bundle->sheet;
    struct lending lending = lend(WRITE_PARTS);
    lending.fields = sheet->count;
    lending.parts = bundle->count;
    memset(out, (int)(tally.call * 37 % 256), out_length);
    add_piece(&lending, "fixed", sheet->fixed, sheet->fixed_length, 1);
    add_piece(&lending, "table", sheet->table, bundle->table_length * sizeof (size_t),
              sizeof (size_t));
    add_piece(&lending, "contents", sheet->contents, sheet->contents_length, 1);
    add_piece(&lending, "parts", bundle->parts, bundle->parts_length, 1);
    add_piece(&lending, "out", out, out_length, 1);
    uint64_t answer = run_both(&lending);
    insist(are_unchanged(&lending, 0, ONLY_READ), "only the output of writing changes");
    memcpy(out, copy_of(&lending, 0, ONLY_READ), out_length);
    return answer;
}

/* What a call told of this line follows from it. */
static void insist_told_of(const uint8_t *line)
{
    const struct said said = said_on(line);
    const struct figures figures = figures_on(line);
    insist(is_same_said(&said, &tally.said), "what the last report said is told as it stands");
    insist(memcmp(&figures, &tally.figures, sizeof figures) == 0,
           "the figures that are told follow from ordered, arrived and mark");
}

/* Whether the room for lines is as it was, but for the line at this place. */
static int are_others_kept(const struct shelf *before, const struct shelf *after, size_t place)
{
    size_t behind = place + IN_LINE;
    return memcmp(after->lines, before->lines, place) == 0
        && memcmp(after->lines + behind, before->lines + behind,
                  after->lines_length - behind) == 0;
}

/* What holds after every booking: an order adds a line behind the used ones, any other record
   has one; it is as it has to be and is told so, and all else in the lines is as it was. */
static void insist_booked(const uint8_t *record, const struct shelf *before,
                          const struct shelf *after)
{
    uint8_t wanted[IN_LINE];
    int order = record[0] == 'B';
    const uint8_t *named = line_named(record, before);
    insist((named == NULL) == order, "an order has no line yet, any other record has one");
    size_t place = order ? before->used[0] * IN_LINE : (size_t)(named - before->lines);
    const uint8_t *line = after->lines + place;
    line_after(record, before->lines + place, wanted);
    insist(after->used[0] == before->used[0] + (order ? 1 : 0), "an order alone adds a line");
    insist(memcmp(line, wanted, IN_ARRIVED) == 0,
           "an order sets what it orders, a report what it says, and no other record does");
    insist(memcmp(line + IN_ARRIVED, wanted + IN_ARRIVED, IN_ARRIVED_WIDTH) == 0,
           "nothing has arrived for an order, a delivery adds its copies, a report adds none");
    insist(are_others_kept(before, after, place), "a booking changes its own line alone");
    insist_told_of(line);
    insist(tally.agreed == (uint64_t)names_title(record, line),
           "agreed tells whether the record names the line's article");
    insist(!order || tally.agreed == 1, "an order agrees with its own line");
}

uint64_t both_book(const uint8_t *record, size_t length, const struct roster *roster,
                   struct shelf *shelf)
{
    enum { ONLY_READ = 2 };
    static struct shelf before;
    struct lending lending = lend(BOOK);
    add_piece(&lending, "record", record, length, 1);
    add_piece(&lending, "roster", roster->bytes, roster->length, 1);
    add_shelf(&lending, shelf);
    uint64_t answer = run_both(&lending);
    insist(are_unchanged(&lending, 0, ONLY_READ), "record and roster never change");
    if (answer != 0)
        return answer;
    memcpy(before.lines, shelf->lines, shelf->lines_length);
    before.used[0] = shelf->used[0];
    take_back(&lending, ONLY_READ, shelf);
    insist_booked(record, &before, shelf);
    return answer;
}

/* A line that was found is the first with the key, and is told as it stands. */
static void insist_told(const uint8_t *const parts[KEY_PARTS], const size_t lengths[KEY_PARTS],
                        const struct shelf *shelf)
{
    uint8_t key[IN_KEY];
    size_t length = 0;
    for (size_t i = 0; i < KEY_PARTS; length += lengths[i++]) {
        insist(lengths[i] <= IN_KEY - length, "the fields of a key that is found make a key");
        memcpy(key + length, parts[i], lengths[i]);
    }
    const uint8_t *line = length == IN_KEY ? line_with(shelf, key) : NULL;
    insist(line != NULL, "a line that is told has the key");
    insist_told_of(line);
}

uint64_t both_line(const uint8_t *const parts[KEY_PARTS], const size_t lengths[KEY_PARTS],
                   struct shelf *shelf)
{
    static const char *const names[KEY_PARTS] = {
        "school", "school qualifier", "supplier", "supplier qualifier", "reference"
    };
    struct lending lending = lend(LINE);
    for (size_t i = 0; i < KEY_PARTS; i++)
        add_piece(&lending, names[i], parts[i], lengths[i], 1);
    add_shelf(&lending, shelf);
    uint64_t answer = run_both(&lending);
    insist(is_unchanged(&lending, 0), "a call by key changes nothing");
    if (answer == 0)
        insist_told(parts, lengths, shelf);
    return answer;
}

/* What was written to the output are these bytes, its length is told, and all behind them is as
   it was. */
static void insist_written(const struct lending *lending, size_t piece, const uint8_t *wanted,
                           size_t length)
{
    const struct piece *out = &lending->pieces[piece];
    const uint8_t *after = copy_of(lending, 0, piece), *before = out->bytes;
    insist(tally.value == length && length <= out->length, "the length is that of the save");
    insist(memcmp(after, wanted, length) == 0, "a save has its entries in the form that it has to");
    insist(memcmp(after + length, before + length, out->length - length) == 0,
           "nothing changes behind what is written");
}

uint64_t both_save(struct shelf *shelf, uint8_t *out, size_t out_length)
{
    enum { ONLY_READ = 3 };
    static uint8_t wanted[SAVE_ROOM];
    struct lending lending = lend(SAVE);
    memset(out, (int)(tally.call * 37 % 256), out_length);
    add_shelf(&lending, shelf);
    add_piece(&lending, "out", out, out_length, 1);
    uint64_t answer = run_both(&lending);
    insist(are_unchanged(&lending, 0, ONLY_READ), "saving leaves the book as it was");
    if (answer == 0)
        insist_written(&lending, ONLY_READ, wanted, write_save(shelf, NEW_FORM, wanted));
    memcpy(out, copy_of(&lending, 0, ONLY_READ), out_length);
    return answer;
}

uint64_t both_load(const uint8_t *saved, size_t length, struct shelf *shelf)
{
    static struct shelf before;
    struct lending lending = lend(LOAD);
    add_piece(&lending, "saved", saved, length, 1);
    add_shelf(&lending, shelf);
    uint64_t answer = run_both(&lending);
    insist(are_unchanged(&lending, 0, 1), "loading leaves the saved bytes as they were");
    if (answer != 0)
        return answer;
    before = *shelf;
    take_back(&lending, 1, shelf);
    insist(is_loaded(saved, length, &before, shelf),
           "a load fills the entries that its save states, and no others");
    return answer;
}

/* What follows from an answer other than 22: the save is of the move's own form; 28 tells that a
   message would be lost, and else none would; and 23 that the output is too small. */
static void insist_moved(const struct lending *lending, enum saved_form to, uint64_t answer)
{
    static uint8_t wanted[SAVE_ROOM];
    const uint8_t *saved = lending->pieces[0].bytes;
    size_t length = lending->pieces[0].length;
    enum saved_form from = to == NEW_FORM ? OLD_FORM : NEW_FORM;
    insist(length >= IN_SAVED_END, "a save has an end");
    size_t lines = lines_stated(saved, length);
    if (length + lines * (IN_SAVED_LINE - IN_SAVED_OLD_LINE) > sizeof wanted)
        abort();
    insist(is_in_form(saved, from), "a move takes its own form alone");
    insist((answer == 28) == (to == OLD_FORM && has_number(saved, lines)),
           "28 is told just where a line has a message");
    if (answer == 28)
        return;
    size_t moved = write_moved(saved, length, to, wanted);
    insist((answer == 23) == (lending->pieces[1].length < moved),
           "23 is told just where the output is too small");
    if (answer == 0)
        insist_written(lending, 1, wanted, moved);
}

uint64_t both_move(enum saved_form to, const uint8_t *saved, size_t length, uint8_t *out,
                   size_t out_length)
{
    struct lending lending = lend(to == NEW_FORM ? TO_NEW : TO_OLD);
    memset(out, (int)(tally.call * 37 % 256), out_length);
    add_piece(&lending, "saved", saved, length, 1);
    add_piece(&lending, "out", out, out_length, 1);
    uint64_t answer = run_both(&lending);
    insist(are_unchanged(&lending, 0, 1), "a move leaves the saved bytes as they were");
    if (answer != 22)
        insist_moved(&lending, to, answer);
    memcpy(out, copy_of(&lending, 0, 1), out_length);
    return answer;
}

uint64_t both_account(const wq_school *schools, size_t count, const uint8_t *address,
                      size_t address_length, const uint8_t *qualifier,
                      size_t qualifier_length)
{
    enum { SCHOOL_ALIGN = sizeof schools->ceiling };
    struct lending lending = lend(ACCOUNT);
    add_piece(&lending, "schools", schools, count * sizeof schools[0], SCHOOL_ALIGN);
    add_piece(&lending, "address", address, address_length, 1);
    add_piece(&lending, "qualifier", qualifier, qualifier_length, 1);
    uint64_t answer = run_both(&lending);
    insist(is_unchanged(&lending, 0), "a call for an account changes nothing");
    return answer;
}
