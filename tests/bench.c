/* The library's speed beside that of the reference, call by call on the same inputs.
   Usage: bench FILE [rows | count ROW SIDE ROUNDS], where FILE holds records that each end
   with CR LF. Prints a table in Markdown; its last line is the worst ratio. Fails where the
   two sides differ. With `rows` it prints call and input of each row that can be counted,
   with `count` it only makes the calls of such a row (from 0) on one side (0 the library,
   1 the reference) in so many rounds: a counter of instructions takes two runs and their
   difference, which has no setting up in it (tests/counts.sh).
   The two sides take turns on the same bytes, and the shortest repetition of each counts:
   whatever else the machine does can only lengthen one. All rows are timed in several passes,
   so that a few busy seconds do not fall on every repetition of a row. Time is the thread's
   own processor time. */
#define _POSIX_C_SOURCE 200112L

#include "reference.h"

#include <inttypes.h>
#include <stdio.h>
#include <stdlib.h>
#include <string.h>
#include <time.h>

enum {
    /* 40 repetitions of each side in all */
    PASSES = 10, REPETITIONS = 4, LEAST_NANOSECONDS = 2000000,
    MOST_RECORDS = 64, FILE_ROOM = 65536, LONGEST = WQ_MOST_RECORD, FULL_TABLE = WQ_FULL_TABLE,
    TEXT = 128,
    ORDER_LENGTH = WQ_ORDER_LENGTH, DELIVERY_LENGTH = WQ_DELIVERY_LENGTH,
    REPORT_LENGTH = WQ_REPORT_LENGTH,
    ADDRESS = WQ_ADDRESS_WIDTH, QUALIFIER = WQ_QUALIFIER_WIDTH, NAME = WQ_REFERENCE_WIDTH,
    SUPPLIER_PLACE = WQ_LINE_SUPPLIER, REFERENCE_PLACE = WQ_LINE_REFERENCE,
    LINE = WQ_LINE_WIDTH, SLIP = WQ_SLIP_WIDTH,
    SCHOOLS = 30, MIDDLE = SCHOOLS / 2, MOST_SCHOOLS = 64,
    MOST_LINES = 512, MOST_SLIPS = 2 * MOST_LINES, POSITIONS_ON_A_SLIP = 8,
    SAVE_ROOM = WQ_SAVE_LENGTH(MOST_LINES, MOST_SLIPS),
    TAX_MARK = 107, FIELD_HEAD = 5, LOOP = 10, MOST_PARTS = 8, FULL_PARTS = MOST_PARTS * 68,
    ANSWER_DONE = 0, ANSWER_REPEATED = 17, ANSWER_NOT_ON_ROSTER = 24
};

static const size_t sizes[] = {10, 100, 256, MOST_LINES};
enum { SIZES = sizeof sizes / sizeof sizes[0], BOOK_ROWS = 11, KEY_ROWS = 5, REPORTED_ROWS = 4,
       SAVE_ROW = 6, SAVE_ROWS = 2, ACCOUNT_ROWS = 2, PART_ROWS = 4 };

/* How a number becomes a name of ten bytes: a front that all names share, then its last
   digits in the signs given, then blanks. */
struct naming { const char *front, *signs; size_t digits; };

/* A kind of book: which schools of the roster order, the names that they use, and whether
   reports came, each with an expected day. */
struct book_kind {
    const char *name; /* in the table, behind the book's size */
    size_t first_row, rows; /* of book_rows */
    size_t first_school, schools;
    struct naming references, slip_numbers;
    int reported;
};
#define TEN_SIGNS "0123456789"
#define MANY_SIGNS TEN_SIGNS "ABCDEFGHIJKLMNOPQRSTUVWXYZabcdefghijklmnopqrstuvwxyz-_"
static const struct book_kind book_kinds[] = {
    {"", 0, BOOK_ROWS, MIDDLE, 1, {"R", TEN_SIGNS, 6}, {"70", TEN_SIGNS, 6}, 0},
    {", thirty schools with the same references", 0, KEY_ROWS, 0, SCHOOLS,
     {"R", TEN_SIGNS, 6}, {"70", TEN_SIGNS, 6}, 0},
    {", references that differ in the last bytes", 0, KEY_ROWS, MIDDLE, 1,
     {"KLASSE8-", MANY_SIGNS, 2}, {"LS-2024-", MANY_SIGNS, 2}, 0},
    {", lines reported", 0, REPORTED_ROWS, MIDDLE, 1, {"R", TEN_SIGNS, 6},
     {"70", TEN_SIGNS, 6}, 1},
    {", lines reported", SAVE_ROW, SAVE_ROWS, MIDDLE, 1, {"R", TEN_SIGNS, 6},
     {"70", TEN_SIGNS, 6}, 1}
};
enum { BOOK_KINDS = sizeof book_kinds / sizeof book_kinds[0],
       MOST_ROWS = 2 * (1 + MOST_RECORDS) + BOOK_KINDS * BOOK_ROWS * SIZES + ACCOUNT_ROWS
                 + PART_ROWS };

/* The calls of one side. */
enum { LIBRARY, REFERENCE, SIDES };
struct side {
    wq_checked (*check)(const uint8_t *, size_t, size_t *, size_t);
    wq_written (*write)(const uint8_t *, size_t, const size_t *, size_t, size_t,
                        const uint8_t *, size_t, uint8_t *, size_t);
    wq_parts_read (*parts)(const uint8_t *, size_t, uint8_t *, size_t);
    wq_written (*write_parts)(const uint8_t *, size_t, const size_t *, size_t, size_t,
                              const uint8_t *, size_t, const uint8_t *, size_t, size_t,
                              uint8_t *, size_t);
    wq_booked (*book)(const uint8_t *, size_t, const uint8_t *, size_t, uint8_t *, size_t,
                      uint8_t *, size_t, size_t *);
    wq_told (*line)(const uint8_t *, size_t, const uint8_t *, size_t, const uint8_t *, size_t,
                    const uint8_t *, size_t, const uint8_t *, size_t, const uint8_t *, size_t,
                    const uint8_t *, size_t, const size_t *);
    wq_saved (*save)(const uint8_t *, size_t, const uint8_t *, size_t, const size_t *,
                     uint8_t *, size_t);
    wq_loaded (*load)(const uint8_t *, size_t, uint8_t *, size_t, uint8_t *, size_t, size_t *);
    wq_saved (*to_new)(const uint8_t *, size_t, uint8_t *, size_t);
    wq_saved (*to_old)(const uint8_t *, size_t, uint8_t *, size_t);
    wq_account_told (*account)(const wq_school *, size_t, const uint8_t *, size_t,
                               const uint8_t *, size_t);
};
static const struct side sides[SIDES] = {
    {wq_check, wq_write, wq_parts, wq_write_parts, wq_book, wq_line, wq_save, wq_load, wq_to_new,
     wq_to_old, wq_account},
    {ref_check, ref_write, ref_parts, ref_write_parts, ref_book, ref_line, ref_save, ref_load,
     ref_to_new, ref_to_old, ref_account}
};

/* A record of the file, and what reading it and its parts gives. */
struct record {
    const uint8_t *bytes;
    size_t length, fixed_length, table[FULL_TABLE];
    wq_checked checked;
    uint8_t parts[FULL_PARTS];
    size_t part_count;
};

/* A lent book. */
struct book {
    uint8_t lines[MOST_LINES * LINE], slips[MOST_SLIPS * SLIP];
    size_t lines_length, slips_length, used[2];
};

/* What a row times: records of the file, one call on a book, or one for an account. */
struct task {
    const struct record *records;
    size_t count; /* calls in a round */
    char text[TEXT];
    wq_booked booked;
    wq_told told;
};
static const struct task one_call = {.count = 1};

/* Makes a task's calls so many times; gives 0 where every answer is the expected one. */
typedef uint64_t run(const struct side *side, const struct task *task, size_t rounds);

/* A row of the table: what it times, nanoseconds a call of each side, the least so far (0 is
   none yet), and the rounds that make a repetition long enough. */
struct row {
    const char *call;
    char input[TEXT];
    run *calls;
    struct task task;
    size_t lines; /* of its book; 0 without one, and then the next three are null */
    const struct book_kind *kind;
    struct task (*task_in_book)(const struct book_kind *);
    const struct row *smallest; /* the row of the smallest book */
    double nanoseconds[SIDES];
    size_t rounds;
};

/* The article of all orders with its qualifier, and the number that a supplier has for it. */
static const char ordered_title[] = "9783442756841EN", own_title[] = "1234567      UM";

static struct record records[MOST_RECORDS], bundles[PART_ROWS / 2];
static wq_school roster[MOST_SCHOOLS];
static struct book kept, lent, loaded;
static size_t references; /* that each school of the book uses */
static uint8_t saved[SAVE_ROOM], old_saved[SAVE_ROOM], out[SAVE_ROOM];
static size_t saved_length, old_length;
static struct row rows[MOST_ROWS];
static size_t row_count;

static void insist(int holds, const char *what)
{
    if (holds)
        return;
    fprintf(stderr, "bench: %s\n", what);
    exit(1);
}

/* The bits in which two results differ: those that a booking and the call by key both give. */
#define UNLIKE_TOLD(one, other) \
    (((one)->answer ^ (other)->answer) | ((one)->place ^ (other)->place) \
     | ((one)->ordered ^ (other)->ordered) | ((one)->filled ^ (other)->filled) \
     | ((one)->still_open ^ (other)->still_open) | ((one)->let_go ^ (other)->let_go) \
     | ((one)->extra ^ (other)->extra) | ((one)->message ^ (other)->message) \
     | ((one)->expected ^ (other)->expected) | ((one)->year ^ (other)->year) \
     | ((one)->month ^ (other)->month) | ((one)->day ^ (other)->day))

static uint64_t unlike(const wq_booked *one, const wq_booked *other)
{
    return UNLIKE_TOLD(one, other) | (one->agreed ^ other->agreed);
}

static uint64_t unlike_told(const wq_told *one, const wq_told *other)
{
    return UNLIKE_TOLD(one, other);
}

/* --- The calls that are timed --- */

static uint64_t run_check(const struct side *side, const struct task *task, size_t rounds)
{
    static size_t table[FULL_TABLE];
    uint64_t wrong = 0;
    while (rounds-- > 0)
        for (size_t i = 0; i < task->count; i++) {
            const struct record *record = &task->records[i];
            wq_checked got = side->check(record->bytes, record->length, table, FULL_TABLE);
            wrong |= (got.answer ^ record->checked.answer) | (got.place ^ record->checked.place)
                   | (got.fields ^ record->checked.fields);
        }
    return wrong;
}

/* A record that read well is written again from its own table. */
static uint64_t run_write(const struct side *side, const struct task *task, size_t rounds)
{
    uint64_t wrong = 0;
    while (rounds-- > 0)
        for (size_t i = 0; i < task->count; i++) {
            const struct record *record = &task->records[i];
            wq_written got = side->write(record->bytes, record->fixed_length, record->table,
                                         FULL_TABLE, (size_t)record->checked.fields,
                                         record->bytes, record->length, out, LONGEST);
            wrong |= got.answer | got.place | (got.length ^ record->length);
        }
    return wrong;
}

static uint64_t run_parts(const struct side *side, const struct task *task, size_t rounds)
{
    static uint8_t parts[FULL_PARTS];
    const struct record *record = task->records;
    uint64_t wrong = 0;
    while (rounds-- > 0) {
        wq_parts_read got = side->parts(record->bytes, record->length, parts, FULL_PARTS);
        wrong |= got.answer | got.place | (got.parts ^ record->part_count);
    }
    return wrong;
}

/* A bundle is written again from its own table, so far as it stands before the parts, and from
   its parts. */
static uint64_t run_write_parts(const struct side *side, const struct task *task, size_t rounds)
{
    const struct record *record = task->records;
    size_t fields = (size_t)record->checked.fields - record->part_count * LOOP;
    uint64_t wrong = 0;
    while (rounds-- > 0) {
        wq_written got = side->write_parts(record->bytes, record->fixed_length, record->table,
                                           FULL_TABLE, fields, record->bytes, record->length,
                                           record->parts, FULL_PARTS, record->part_count,
                                           out, LONGEST);
        wrong |= got.answer | got.place | (got.length ^ record->length);
    }
    return wrong;
}

/* A booking changes the counts and the last line, or adds an entry past the counts: so the
   book is put back by copying 82 bytes, which is timed on both sides alike. */
static uint64_t run_book(const struct side *side, const struct task *task, size_t rounds)
{
    const uint8_t *record = (const uint8_t *)task->text;
    size_t length = strlen(task->text), last = (kept.used[0] - 1) * LINE;
    uint64_t wrong = 0;
    while (rounds-- > 0) {
        wq_booked got = side->book(record, length, (const uint8_t *)roster,
                                   SCHOOLS * sizeof roster[0], lent.lines, lent.lines_length,
                                   lent.slips, lent.slips_length, lent.used);
        wrong |= unlike(&got, &task->booked);
        memcpy(lent.used, kept.used, sizeof kept.used);
        memcpy(lent.lines + last, kept.lines + last, LINE);
    }
    return wrong;
}

/* The call by key, of the last line. */
static wq_told last_line(const struct side *side)
{
    const uint8_t *school = kept.lines + (kept.used[0] - 1) * LINE;
    const uint8_t *supplier = school + SUPPLIER_PLACE;
    return side->line(school, ADDRESS, school + ADDRESS, QUALIFIER,
                      supplier, ADDRESS, supplier + ADDRESS, QUALIFIER,
                      school + REFERENCE_PLACE, NAME,
                      lent.lines, lent.lines_length, lent.slips, lent.slips_length, lent.used);
}

static uint64_t run_line(const struct side *side, const struct task *task, size_t rounds)
{
    uint64_t wrong = 0;
    while (rounds-- > 0) {
        wq_told got = last_line(side);
        wrong |= unlike_told(&got, &task->told);
    }
    return wrong;
}

static uint64_t run_save(const struct side *side, const struct task *task, size_t rounds)
{
    uint64_t wrong = 0;
    (void)task;
    while (rounds-- > 0) {
        wq_saved got = side->save(lent.lines, lent.lines_length, lent.slips, lent.slips_length,
                                  lent.used, out, SAVE_ROOM);
        wrong |= got.answer | got.place | (got.length ^ saved_length);
    }
    return wrong;
}

static uint64_t load_from(const struct side *side, const uint8_t *bytes, size_t length,
                          size_t rounds)
{
    uint64_t wrong = 0;
    while (rounds-- > 0) {
        wq_loaded got = side->load(bytes, length, loaded.lines, kept.lines_length,
                                   loaded.slips, kept.slips_length, loaded.used);
        wrong |= got.answer | got.place;
    }
    return wrong;
}

static uint64_t run_load(const struct side *side, const struct task *task, size_t rounds)
{
    (void)task;
    return load_from(side, saved, saved_length, rounds);
}

static uint64_t run_load_old(const struct side *side, const struct task *task, size_t rounds)
{
    (void)task;
    return load_from(side, old_saved, old_length, rounds);
}

static uint64_t run_to_new(const struct side *side, const struct task *task, size_t rounds)
{
    uint64_t wrong = 0;
    (void)task;
    while (rounds-- > 0) {
        wq_saved got = side->to_new(old_saved, old_length, out, SAVE_ROOM);
        wrong |= got.answer | got.place | (got.length ^ saved_length);
    }
    return wrong;
}

static uint64_t run_to_old(const struct side *side, const struct task *task, size_t rounds)
{
    uint64_t wrong = 0;
    (void)task;
    while (rounds-- > 0) {
        wq_saved got = side->to_old(saved, saved_length, out, SAVE_ROOM);
        wrong |= got.answer | got.place | (got.length ^ old_length);
    }
    return wrong;
}

/* The call for an account: of the middle school, or of one that is on no roster. */
static uint64_t run_account(const struct side *side, const struct task *task, size_t rounds)
{
    const uint8_t *account = (const uint8_t *)task->text;
    size_t schools = task->booked.answer == ANSWER_DONE ? SCHOOLS : MOST_SCHOOLS;
    uint64_t wrong = 0;
    while (rounds-- > 0) {
        wq_account_told got = side->account(roster, schools, account, ADDRESS,
                                            account + ADDRESS, QUALIFIER);
        wrong |= (got.answer ^ task->booked.answer) | got.place;
    }
    return wrong;
}

/* --- Timing and the table --- */

static uint64_t now(void)
{
    struct timespec time;
    insist(clock_gettime(CLOCK_THREAD_CPUTIME_ID, &time) == 0, "no clock");
    return (uint64_t)time.tv_sec * 1000000000u + (uint64_t)time.tv_nsec;
}

/* Times the row so often on each side and keeps the shortest time in it; where a repetition
   is too short, all start over with twice the rounds. */
static void measure(struct row *row)
{
    uint64_t shortest[SIDES] = {UINT64_MAX, UINT64_MAX};
    size_t rounds = row->rounds > 0 ? row->rounds : 1;
    for (size_t turn = 0; turn < SIDES * REPETITIONS; turn++) {
        size_t side = (turn + turn / SIDES) % SIDES;
        uint64_t begun = now();
        uint64_t wrong = row->calls(&sides[side], &row->task, rounds);
        uint64_t spent = now() - begun;
        insist(wrong == 0, "a timed call gave another answer");
        if (spent < shortest[side])
            shortest[side] = spent;
        if (spent < LEAST_NANOSECONDS) {
            rounds *= 2;
            shortest[LIBRARY] = shortest[REFERENCE] = UINT64_MAX;
            turn = (size_t)-1;
        }
    }
    row->rounds = rounds;
    for (size_t side = 0; side < SIDES; side++) {
        double each = (double)shortest[side] / (double)rounds / (double)row->task.count;
        if (row->nanoseconds[side] == 0 || each < row->nanoseconds[side])
            row->nanoseconds[side] = each;
    }
}

static double ratio_of(const struct row *row)
{
    return row->nanoseconds[LIBRARY] / row->nanoseconds[REFERENCE];
}

static void print_growth(const struct row *row, size_t side)
{
    if (row->smallest == NULL)
        printf(" |");
    else
        printf(" %.1f |", row->nanoseconds[side] / row->smallest->nanoseconds[side]);
}

static void print_table(void)
{
    const struct row *worst = &rows[0];
    printf("Times in nanoseconds a call; growth is the time over that in the smallest book.\n\n"
           "| call | input | library | C | library / C | growth, library | growth, C |\n"
           "|---|---|---:|---:|---:|---:|---:|\n");
    for (const struct row *row = rows; row < rows + row_count; row++) {
        printf("| %s | %s | %.1f | %.1f | %.2f |", row->call, row->input,
               row->nanoseconds[LIBRARY], row->nanoseconds[REFERENCE], ratio_of(row));
        print_growth(row, LIBRARY);
        print_growth(row, REFERENCE);
        printf("\n");
        if (ratio_of(row) > ratio_of(worst))
            worst = row;
    }
    printf("\nworst ratio %.2f (%s, %s)\n", ratio_of(worst), worst->call, worst->input);
}

/* --- Records --- */

static size_t read_file(const char *name, uint8_t *bytes)
{
    FILE *file = fopen(name, "rb");
    insist(file != NULL, "the file of records cannot be opened");
    size_t length = fread(bytes, 1, FILE_ROOM, file);
    insist(!ferror(file) && length < FILE_ROOM, "the file of records cannot be read whole");
    fclose(file);
    return length;
}

static size_t fixed_length_of(uint8_t kind)
{
    return kind == 'B' ? ORDER_LENGTH : kind == 'L' ? DELIVERY_LENGTH : REPORT_LENGTH;
}

/* Both sides read the record alike, and where it is read, write it again alike. */
static void take_record(struct record *record, const uint8_t *bytes, size_t length)
{
    size_t table[FULL_TABLE] = {0};
    record->bytes = bytes;
    record->length = length;
    record->fixed_length = length > 0 ? fixed_length_of(bytes[0]) : 0;
    record->checked = ref_check(bytes, length, record->table, FULL_TABLE);
    wq_checked got = wq_check(bytes, length, table, FULL_TABLE);
    insist(memcmp(&got, &record->checked, sizeof got) == 0
           && memcmp(table, record->table, sizeof table) == 0, "a record is read differently");
    insist(got.answer == ANSWER_DONE, "the file holds a record that is refused");
    struct task task = one_call;
    task.records = record;
    for (size_t side = 0; side < SIDES; side++) {
        memset(out, 0, LONGEST);
        insist(run_write(&sides[side], &task, 1) == 0 && memcmp(out, bytes, length) == 0,
               "a record is not written as it was read");
    }
}

/* Both sides read the same parts of the record and write it with them as it was. */
static void take_parts(struct record *record)
{
    uint8_t parts[FULL_PARTS] = {0};
    struct task task = one_call;
    wq_parts_read first = ref_parts(record->bytes, record->length, record->parts, FULL_PARTS);
    wq_parts_read second = wq_parts(record->bytes, record->length, parts, FULL_PARTS);
    insist(memcmp(&first, &second, sizeof first) == 0 && first.answer == ANSWER_DONE
           && memcmp(parts, record->parts, sizeof parts) == 0, "parts are read differently");
    record->part_count = (size_t)first.parts;
    task.records = record;
    for (size_t side = 0; side < SIDES; side++) {
        memset(out, 0, LONGEST);
        insist(run_write_parts(&sides[side], &task, 1) == 0
               && memcmp(out, record->bytes, record->length) == 0,
               "a record is not written with its parts as it was read");
    }
}

/* The records between the line ends; gives their number. */
static size_t take_records(const uint8_t *bytes, size_t length)
{
    size_t count = 0, begin = 0;
    for (size_t i = 0; i + 1 < length; i++)
        if (bytes[i] == '\r' && bytes[i + 1] == '\n') {
            insist(count < MOST_RECORDS, "too many records");
            take_record(&records[count++], bytes + begin, i - begin);
            begin = i + 2;
        }
    insist(count > 0 && begin == length, "the file is not records that end with CR LF");
    return count;
}

/* --- Books --- */

/* Schools that differ late, as at a desk; the one that orders stands in the middle of the
   first 30. */
static void fill_roster(void)
{
    char text[TEXT];
    for (size_t i = 0; i < MOST_SCHOOLS; i++) {
        snprintf(text, sizeof text, "%05zu     VD", 43210 - MIDDLE + i);
        memcpy(roster[i].address, text, ADDRESS);
        memcpy(roster[i].qualifier, text + ADDRESS, QUALIFIER);
        roster[i].ceiling = WQ_HIGHEST_CEILING;
    }
}

static void make_name(char *name, const struct naming *naming, size_t number)
{
    size_t front = strlen(naming->front), signs = strlen(naming->signs);
    memset(name, ' ', NAME);
    memcpy(name, naming->front, front);
    for (size_t i = naming->digits; i > 0; i--, number /= signs)
        name[front + i - 1] = naming->signs[number % signs];
    name[NAME] = '\0';
}

/* The school of a line, as it stands in a record. One school after the other uses all
   references, so that most schools have a line with the reference that is searched. */
static void make_school(char *text, const struct book_kind *kind, size_t line)
{
    const wq_school *school = &roster[kind->first_school + line / references];
    memcpy(text, school->address, ADDRESS);
    memcpy(text + ADDRESS, school->qualifier, QUALIFIER);
    text[ADDRESS + QUALIFIER] = '\0';
}

/* One supplier and one article, so that the reference alone tells a school's lines apart. */
static void make_reference(char *name, const struct book_kind *kind, size_t line)
{
    make_name(name, &kind->references, line % references);
}

static void order_text(char *text, const struct book_kind *kind, size_t line)
{
    char school[ADDRESS + QUALIFIER + 1], reference[NAME + 1];
    make_school(school, kind, line);
    make_reference(reference, kind, line);
    snprintf(text, TEXT, "B101%s24000     VD20240219%s%s0010ST*9999", school, reference,
             ordered_title);
}

static void delivery_text(char *text, const struct book_kind *kind, size_t line, size_t slip,
                          const char *title)
{
    char school[ADDRESS + QUALIFIER + 1], reference[NAME + 1], slip_number[NAME + 1];
    make_school(school, kind, line);
    make_reference(reference, kind, line);
    make_name(slip_number, &kind->slip_numbers, slip / POSITIONS_ON_A_SLIP);
    snprintf(text, TEXT, "L10124000     VD%s20240226%s%04zu%s%s0004"
             "000000000129500LPEUR003000001*9999", school, slip_number,
             1 + slip % POSITIONS_ON_A_SLIP, reference, title);
}

/* A report without a date, or with a day of any month. */
static void report_text(char *text, const struct book_kind *kind, size_t line)
{
    enum { SHORTEST_MONTH = 28, MONTHS = 12 };
    char school[ADDRESS + QUALIFIER + 1], reference[NAME + 1], said[TEXT] = "010N        ";
    make_school(school, kind, line);
    make_reference(reference, kind, line);
    if (kind->reported)
        snprintf(said, sizeof said, "015J2024%02zu%02zu", 1 + line % MONTHS,
                 1 + line % SHORTEST_MONTH);
    snprintf(text, TEXT, "M10124000     VD%s70012345  %s%s%.12s0000*9999", school, reference,
             ordered_title, said);
}

static wq_booked book_into(struct book *book, const struct side *side, const char *text)
{
    return side->book((const uint8_t *)text, strlen(text), (const uint8_t *)roster,
                      SCHOOLS * sizeof roster[0], book->lines, book->lines_length,
                      book->slips, book->slips_length, book->used);
}

/* A book made by bookings: all lines but one, two slips on each, one slip more on the last, and
   where reports came, one on each line; one entry of each room stays free. */
static void stock(const struct book_kind *kind, size_t lines)
{
    char text[TEXT];
    memset(&kept, 0, sizeof kept);
    references = (lines + kind->schools - 1) / kind->schools;
    kept.lines_length = lines * LINE;
    kept.slips_length = 2 * lines * SLIP;
    for (size_t line = 0; line + 1 < lines; line++) {
        order_text(text, kind, line);
        insist(book_into(&kept, &sides[REFERENCE], text).answer == ANSWER_DONE, "no order");
    }
    for (size_t slip = 0; slip + 1 < 2 * lines; slip++) {
        size_t line = slip / 2 < lines - 1 ? slip / 2 : lines - 2;
        delivery_text(text, kind, line, slip, ordered_title);
        insist(book_into(&kept, &sides[REFERENCE], text).answer == ANSWER_DONE, "no delivery");
    }
    for (size_t line = 0; kind->reported && line + 1 < lines; line++) {
        report_text(text, kind, line);
        insist(book_into(&kept, &sides[REFERENCE], text).answer == ANSWER_DONE, "no report");
    }
    insist(kept.used[0] == lines - 1 && kept.used[1] == 2 * lines - 1, "the book's counts");
    lent = kept;
}

static void empty_loaded(void)
{
    memset(&loaded, 0, sizeof loaded);
    loaded.lines_length = kept.lines_length;
    loaded.slips_length = kept.slips_length;
}

/* Both sides save the book alike, and load it again as it was. */
static void agree_on_saves(void)
{
    wq_saved first = ref_save(kept.lines, kept.lines_length, kept.slips, kept.slips_length,
                              kept.used, saved, SAVE_ROOM);
    wq_saved second = wq_save(kept.lines, kept.lines_length, kept.slips, kept.slips_length,
                              kept.used, out, SAVE_ROOM);
    saved_length = (size_t)first.length;
    insist(memcmp(&first, &second, sizeof first) == 0 && first.answer == ANSWER_DONE
           && memcmp(saved, out, saved_length) == 0, "the book is saved differently");
    for (size_t side = 0; side < SIDES; side++) {
        empty_loaded();
        insist(run_load(&sides[side], NULL, 1) == 0
               && memcmp(&loaded, &kept, sizeof kept) == 0, "the book is loaded differently");
    }
}

/* Both sides move its save to the old form and back alike, and load the book from there as it
   was. No line has a message. */
static void agree_on_moves(void)
{
    agree_on_saves();
    old_length = (size_t)ref_to_old(saved, saved_length, old_saved, SAVE_ROOM).length;
    insist(old_length > 0, "the save is not moved to the old form");
    for (size_t side = 0; side < SIDES; side++) {
        empty_loaded();
        insist(run_load_old(&sides[side], NULL, 1) == 0
               && memcmp(&loaded, &kept, sizeof kept) == 0, "the old save is loaded differently");
        insist(run_to_old(&sides[side], NULL, 1) == 0
               && memcmp(out, old_saved, old_length) == 0, "the save is moved back differently");
        insist(run_to_new(&sides[side], NULL, 1) == 0
               && memcmp(out, saved, saved_length) == 0, "the old save is moved differently");
    }
}

/* Both sides give this answer, tell this of the articles and leave the same book behind. */
static void expect(struct task *task, uint64_t answer, uint64_t agreed)
{
    static struct book after[SIDES];
    for (size_t side = 0; side < SIDES; side++) {
        after[side] = kept;
        wq_booked got = book_into(&after[side], &sides[side], task->text);
        insist(side == 0 || unlike(&got, &task->booked) == 0, "a record is booked differently");
        task->booked = got;
    }
    insist(task->booked.answer == answer && task->booked.agreed == agreed,
           "a booking has not the answer its row needs");
    insist(memcmp(&after[LIBRARY], &after[REFERENCE], sizeof kept) == 0,
           "the sides leave different books");
}

static struct task delivery_task(const struct book_kind *kind)
{
    struct task task = one_call;
    delivery_text(task.text, kind, kept.used[0] - 1, kept.used[1], ordered_title);
    expect(&task, ANSWER_DONE, 1);
    return task;
}

static struct task own_number_task(const struct book_kind *kind)
{
    struct task task = one_call;
    delivery_text(task.text, kind, kept.used[0] - 1, kept.used[1], own_title);
    expect(&task, ANSWER_DONE, 0);
    return task;
}

static struct task repeated_task(const struct book_kind *kind)
{
    struct task task = one_call;
    delivery_text(task.text, kind, kept.used[0] - 1, kept.used[1] - 1, ordered_title);
    expect(&task, ANSWER_REPEATED, 0);
    return task;
}

static struct task order_task(const struct book_kind *kind)
{
    struct task task = one_call;
    order_text(task.text, kind, kept.used[0]);
    expect(&task, ANSWER_DONE, 1);
    return task;
}

static struct task report_task(const struct book_kind *kind)
{
    struct task task = one_call;
    report_text(task.text, kind, kept.used[0] - 1);
    expect(&task, ANSWER_DONE, 1);
    return task;
}

static struct task line_task(const struct book_kind *kind)
{
    struct task task = one_call;
    (void)kind;
    task.told = last_line(&sides[REFERENCE]);
    insist(task.told.answer == ANSWER_DONE, "the last line has no figures");
    return task;
}

static struct task save_task(const struct book_kind *kind)
{
    struct task task = one_call;
    (void)kind;
    agree_on_saves();
    return task;
}

static struct task move_task(const struct book_kind *kind)
{
    struct task task = one_call;
    (void)kind;
    agree_on_moves();
    return task;
}

/* --- The rows --- */

static struct row *add_row(const char *call, run *calls)
{
    struct row *row = &rows[row_count++];
    row->call = call;
    row->calls = calls;
    row->task.count = 1;
    return row;
}

static int is_bundle(const struct record *record)
{
    return record->bytes[0] == 'L' && record->bytes[TAX_MARK] == '6';
}

/* The bundle of two parts that the papers have, and one of eight parts made from it. */
static void take_bundles(size_t count)
{
    static uint8_t bytes[LONGEST];
    size_t found = 0;
    while (found < count && !is_bundle(&records[found]))
        found++;
    insist(found < count, "the file holds no bundle");
    const struct record *paper = &bundles[0];
    bundles[0] = records[found];
    take_parts(&bundles[0]);
    insist(paper->part_count == 2, "the bundle of the file has not two parts");
    size_t first = (size_t)paper->checked.fields - 2 * LOOP;
    size_t start = paper->table[3 * first + 1] - FIELD_HEAD;
    size_t loops = paper->length - FIELD_HEAD - start, length = start;
    memcpy(bytes, paper->bytes, start);
    for (size_t i = 0; i < MOST_PARTS / 2; i++, length += loops)
        memcpy(bytes + length, paper->bytes + start, loops);
    memcpy(bytes + length, "*9999", FIELD_HEAD);
    take_record(&bundles[1], bytes, length + FIELD_HEAD);
    take_parts(&bundles[1]);
    insist(bundles[1].part_count == MOST_PARTS, "the larger bundle has not eight parts");
}

static void add_bundles(const char *call, run *calls)
{
    for (size_t i = 0; i < PART_ROWS / 2; i++) {
        struct row *row = add_row(call, calls);
        row->task.records = &bundles[i];
        snprintf(row->input, sizeof row->input, "bundle of %zu parts, %zu bytes, %" PRIu64
                 " fields", bundles[i].part_count, bundles[i].length,
                 bundles[i].checked.fields);
    }
}

/* All records in turn, then each alone where that is wanted too. */
static void add_records(const char *call, run *calls, size_t count, int alone)
{
    struct row *row = add_row(call, calls);
    row->task.records = records;
    row->task.count = count;
    snprintf(row->input, sizeof row->input, "all %zu records in turn", count);
    for (size_t i = 0; alone && i < count; i++) {
        row = add_row(call, calls);
        row->task.records = &records[i];
        snprintf(row->input, sizeof row->input, "record %zu: %.4s, %zu bytes, %" PRIu64
                 " fields", i + 1, (const char *)records[i].bytes, records[i].length,
                 records[i].checked.fields);
    }
}

/* The rows of a book, each in books of all sizes; those that most kinds of books have come first,
   then, from SAVE_ROW on, save and load, and the calls for a save of the old form. */
static const struct {
    const char *call;
    run *calls;
    struct task (*task)(const struct book_kind *);
} book_rows[BOOK_ROWS] = {
    {"book, delivery accepted", run_book, delivery_task},
    {"book, order accepted", run_book, order_task},
    {"book, report accepted", run_book, report_task},
    {"line", run_line, line_task},
    {"book, delivery repeated (17)", run_book, repeated_task},
    {"book, delivery by the supplier's number", run_book, own_number_task},
    {"save", run_save, save_task},
    {"load", run_load, save_task},
    {"load, old form", run_load_old, move_task},
    {"old to new", run_to_new, move_task},
    {"new to old", run_to_old, move_task}
};

static void add_books(const struct book_kind *kind, size_t which)
{
    const struct row *smallest = &rows[row_count];
    for (size_t i = 0; i < SIZES; i++) {
        struct row *row = add_row(book_rows[which].call, book_rows[which].calls);
        row->lines = sizes[i];
        row->kind = kind;
        row->task_in_book = book_rows[which].task;
        row->smallest = smallest;
        snprintf(row->input, sizeof row->input, "%zu lines, %zu slips%s", sizes[i],
                 2 * sizes[i], kind->name);
    }
}

static void add_account(const char *call, const char *input, const char *account,
                        uint64_t answer)
{
    struct row *row = add_row(call, run_account);
    snprintf(row->input, sizeof row->input, "%s", input);
    snprintf(row->task.text, sizeof row->task.text, "%s", account);
    row->task.booked.answer = answer;
}

static void add_rows(size_t taken, int alone)
{
    add_records("check", run_check, taken, alone);
    add_records("write", run_write, taken, alone);
    take_bundles(taken);
    add_bundles("parts", run_parts);
    add_bundles("write with parts", run_write_parts);
    for (const struct book_kind *kind = book_kinds; kind < book_kinds + BOOK_KINDS; kind++)
        for (size_t i = 0; i < kind->rows; i++)
            add_books(kind, kind->first_row + i);
    add_account("account, found", "the middle of 30 schools", "43210     VD", ANSWER_DONE);
    add_account("account, not on the roster (24)", "64 schools", "43201     IB",
                ANSWER_NOT_ON_ROSTER);
}

/* The row's book, and its call there. */
static void set_up(struct row *row)
{
    if (row->lines == 0)
        return;
    stock(row->kind, row->lines);
    row->task = row->task_in_book(row->kind);
}

static void insist_unchanged(void)
{
    insist(memcmp(lent.used, kept.used, sizeof kept.used) == 0
           && memcmp(lent.lines, kept.lines, kept.used[0] * LINE) == 0
           && memcmp(lent.slips, kept.slips, kept.used[1] * SLIP) == 0,
           "the calls changed the book");
}

static void time_rows(void)
{
    for (size_t pass = 0; pass < PASSES; pass++)
        for (struct row *row = rows; row < rows + row_count; row++) {
            set_up(row);
            measure(row);
            insist_unchanged();
        }
}

static void print_rows(void)
{
    for (const struct row *row = rows; row < rows + row_count; row++)
        printf("%s | %s\n", row->call, row->input);
}

static size_t number_of(const char *text)
{
    char *end;
    unsigned long number = strtoul(text, &end, 10);
    insist(*text >= '0' && *text <= '9' && *end == '\0', "not a number");
    return number;
}

/* Makes the calls of one row on one side, and nothing more than they need. */
static void count_row(size_t which, size_t side, size_t rounds)
{
    insist(which < row_count && side < SIDES, "no such row or side");
    struct row *row = &rows[which];
    set_up(row);
    insist(row->calls(&sides[side], &row->task, rounds) == 0,
           "a counted call gave another answer");
    insist_unchanged();
}

int main(int count, char **arguments)
{
    static uint8_t bytes[FILE_ROOM];
    int timed = count == 2;
    int listed = count == 3 && strcmp(arguments[2], "rows") == 0;
    int counted = count == 6 && strcmp(arguments[2], "count") == 0;
    insist(timed || listed || counted, "usage: bench FILE [rows | count ROW SIDE ROUNDS]");
    fill_roster();
    add_rows(take_records(bytes, read_file(arguments[1], bytes)), timed);
    if (timed) {
        time_rows();
        print_table();
    } else if (listed) {
        print_rows();
    } else {
        count_row(number_of(arguments[3]), number_of(arguments[4]), number_of(arguments[5]));
    }
    return 0;
}
