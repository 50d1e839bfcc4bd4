/* Document 01's samples with the values it states, document 02's clerk and his roster, titles
   with its typographic marks, a supplier that answers with its own number, teachers who ask
   why a title is late, and the bundles of documents 001 and 004, held against both
   implementations. */
#include "lending.h"
#include "reference.h"

#include <inttypes.h>
#include <stdio.h>
#include <stdlib.h>
#include <string.h>

#define X_OF(title) "B10143210     VD24000     VD20240219A-17      " title "0010ST"
#define X X_OF(ISBN)
#define Y_OF(title, slip, position, copies) \
    "L10124000     VD43210     VD20240226" slip position "A-17      " title \
    copies "000000000129500LPEUR003000001"
#define Y_FIXED(slip, position, copies) Y_OF(ISBN, slip, position, copies)
#define Y(slip, position, copies) Y_FIXED(slip, position, copies) END
#define Z_DATED(title, message, date) \
    "M10124000     VD43210     VD70012345  A-17      " title message date "0000*9999"
#define Z_OF(title, message) Z_DATED(title, message, BLANK_DATE)
#define Z(message) Z_OF(ISBN, message)
#define ISBN "9783442756841EN"
#define OWN "1234567      UM"
#define AS_OWN "9783442756841UM"
#define END "*9999"
#define SLIP "70012345  "

enum { DESK_LINES = 256, DESK_SLIPS = 512 };

struct side {
    const char *name;
    wq_checked (*check)(const uint8_t *, size_t, size_t *, size_t);
    wq_written (*write)(const uint8_t *, size_t, const size_t *, size_t, size_t,
                        const uint8_t *, size_t, uint8_t *, size_t);
    wq_parts_read (*parts)(const uint8_t *, size_t, uint8_t *, size_t);
    wq_written (*write_parts)(const uint8_t *, size_t, const size_t *, size_t, size_t,
                              const uint8_t *, size_t, const uint8_t *, size_t, size_t,
                              uint8_t *, size_t);
    wq_booked (*book)(const uint8_t *, size_t, const uint8_t *, size_t, uint8_t *, size_t,
                      uint8_t *, size_t, size_t *);
    wq_told (*line)(const uint8_t *, size_t, const uint8_t *, size_t, const uint8_t *, size_t,
                    const uint8_t *, size_t, const uint8_t *, size_t, const uint8_t *, size_t,
                    const uint8_t *, size_t, const size_t *);
    wq_account_told (*account)(const wq_school *, size_t, const uint8_t *, size_t,
                               const uint8_t *, size_t);
};

static const struct side sides[] = {
    {"reference", ref_check, ref_write, ref_parts, ref_write_parts, ref_book, ref_line,
     ref_account},
    {"library", wq_check, wq_write, wq_parts, wq_write_parts, wq_book, wq_line, wq_account}
};

/* Reading: the record, its answer and place, and the number of fields. */
static const struct { const char *record; uint64_t answer, place, fields; } read_samples[] = {
    {X END, 0, 0, 0},
    {Y(SLIP, "0001", "0004"), 0, 0, 0},
    {Z("010N"), 0, 0, 0},
    {X "*999", 3, 71, 0},
    {"B10143210     VD24000     VD20240219A-17      9783442756842EN0010ST" END, 5, 46, 0},
    {"B10143210     VD24000     VD20230229A-17      9783442756841EN0010ST" END, 5, 28, 0},
    {"B10143210     VD24000     VD20240229A-17      9783442756841EN0010ST" END, 0, 0, 0},
    {"", 2, 0, 0},
    {X "*10299030" END, 9, 67, 0},
    {X "*102990300" END, 10, 67, 0},
    {X "*1003" END, 9, 67, 0},
    {X "*8888" END, 0, 0, 1},
    {X "*90901" END, 0, 0, 1},
    {X "*88889999" END, 0, 0, 1}
};

/* The goods of Y with these short titles, which begin at byte 113: answer and place. The
   first has quotes 132 and 147 and the dash 150, the second quotes of other kinds, the third
   all marks; then each byte between them that is not allowed. */
#define TITLED Y_FIXED(SLIP, "0001", "0004") "*1017"
#define QUALIFIED "*1018KL" END
struct title_sample { const char *title; uint64_t answer, place; };
static const struct title_sample title_samples[] = {
    {"\x84" "Faust\x93 \x96 Teil I", 0, 0},
    {"\x8bL\x92\xe9t\xe9\x9b \x91" "A\x92 \x82x\x94 3 \x80\x85", 0, 0},
    {"\x80\x82\x83\x84\x85\x86\x87\x88\x89\x8a\x8b\x8c\x8e"
     "\x91\x92\x93\x94\x95\x96\x97\x98\x99\x9a\x9b\x9c\x9e\x9f", 0, 0},
    {"Faust\x7f", 4, 118}, {"Faust\x81", 4, 118}, {"Faust\x8d", 4, 118},
    {"Faust\x8f", 4, 118}, {"Faust\x90", 4, 118}, {"Faust\x9d", 4, 118},
    {"\x84" "Faust\x93 \x97 \x81 \x8d", 4, 123}
};

/* The bundles of documents 001 and 004, which have the same two parts, what reading the parts of
   records near to them answers, and how many there are. The parts as they are lent: tax mark and
   medium, net and list price with amount, number of digits, qualifier and currency, length of
   the article, article, its qualifier. */
#define BUNDLE_001(mark) \
    "L10114914     VD33333     VD20150314982478    000185601     9783131464712EN0001" \
    "000000000229900LPEUR00250000" mark "*1003KIENZLER*1029157600*1030NO*1032EUR"
#define BUNDLE_004 \
    "L10124000     VD900900    VD2017050624123456  0001202020    9783131464712EN0001" \
    "000000000229900LPEUR002300006*1003MEIER*90901*904000000000*90430000000000000000"
#define LOOP(tax, net, list, number, medium) \
    "*1019" tax "*1029" net "*1032EUR*1029" list "*1032EUR*11019783131464712-" number \
    "*1102VB*1151" medium
#define PAPER LOOP("1", "126200*1030NO", "180000*1030LP", "1", "PHY")
#define ONLINE LOOP("2", "31400*1030NO", "49900*1030LP", "2", "DIG")
#define FREE LOOP("2", "31400*1030NO", "49900*1030FP", "2", "DIG")
#define SHORT LOOP("0", "00000*1030NO", "00000*1030FP", "3", "PHY")
#define NINE SHORT SHORT SHORT SHORT SHORT SHORT SHORT SHORT SHORT
#define NO_BYTES "\0\0\0\0\0" "\0\0\0\0\0" "\0\0\0\0\0" "\0\0\0\0\0"
static const char paper_part[] = "1\1" "\xf8\xec\1\0\0\0\0\0" "\6NOEUR" "\x20\xbf\2\0\0\0\0\0"
    "\6LPEUR" "\17" "9783131464712-1" NO_BYTES "VB";
static const char online_part[] = "2\2" "\xa8\x7a\0\0\0\0\0\0" "\5NOEUR" "\xec\xc2\0\0\0\0\0\0"
    "\5LPEUR" "\17" "9783131464712-2" NO_BYTES "VB";
struct bundle_sample { const char *record; uint64_t answer, parts; };
static const struct bundle_sample bundle_samples[] = {
    {BUNDLE_001("6") PAPER ONLINE END, 0, 2},
    {BUNDLE_004 PAPER ONLINE END, 0, 2},
    {BUNDLE_001("6") PAPER END, 0, 1},
    {BUNDLE_001("6") PAPER FREE END, 0, 2},
    {BUNDLE_001("0") PAPER ONLINE END, 0, 0},
    {BUNDLE_001("1") NINE END, 0, 0},
    {Y(SLIP, "0001", "0004"), 0, 0},
    {X END, 0, 0},
    {BUNDLE_001("6") END, 26, 0},
    {BUNDLE_001("6") PAPER ONLINE "*9001O" END, 26, 0},
    {BUNDLE_001("6") PAPER "*9001O" ONLINE END, 26, 0},
    {BUNDLE_001("6") "*10191" PAPER ONLINE END, 26, 0},
    {BUNDLE_001("6") PAPER ONLINE "*10191" END, 26, 0},
    {BUNDLE_001("6") LOOP("1", "126200*1030LP", "180000*1030NO", "1", "PHY") END, 26, 0},
    {BUNDLE_001("6") LOOP("1", "126200*1030NO", "180000*1030NO", "1", "PHY") END, 26, 0},
    {BUNDLE_001("6") NINE END, 27, 0},
    {BUNDLE_001("6") NINE "*9001O" END, 26, 0},
    {BUNDLE_001("6") LOOP("3", "126200*1030NO", "180000*1030LP", "1", "PHY") END, 9, 0},
    {BUNDLE_001("6") LOOP("1", "1262*1030NO", "180000*1030LP", "1", "PHY") END, 9, 0}
};

/* What the last report said: none yet, or a message with eight blanks, with eight zeros or with
   a day; nothing on a refusal. */
#define NO_REPORT {65535, 3, 0, 0, 0}
#define BLANK(message) {message, 3, 0, 0, 0}
#define ZEROED(message) {message, 2, 0, 0, 0}
#define DATED(message, year, month, day) {message, 1, year, month, day}
#define NOTHING {0, 0, 0, 0, 0}

/* The desk program's sample: record, then answer, place, the five figures, whether the articles
   agreed, which all of its records do, and what the last report said. It leaves one line and
   three slips. */
struct booking_sample {
    const char *record;
    uint64_t answer, place, figures[5], agreed;
    struct said said;
};
static const struct booking_sample desk_sample[] = {
    {X END, 0, 0, {10, 0, 10, 0, 0}, 1, NO_REPORT},
    {Y(SLIP, "0001", "0004"), 0, 0, {10, 4, 6, 0, 0}, 1, NO_REPORT},
    {Y(SLIP, "0001", "0004"), 17, 0, {0, 0, 0, 0, 0}, 0, NOTHING},
    {Z("010N"), 0, 0, {10, 4, 0, 6, 0}, 1, BLANK(10)},
    {Y(SLIP, "0002", "0003"), 0, 0, {10, 7, 0, 3, 0}, 1, BLANK(10)},
    {Z("015J"), 0, 0, {10, 7, 3, 0, 0}, 1, BLANK(15)},
    {Y(SLIP, "0003", "0005"), 0, 0, {10, 10, 0, 0, 2}, 1, BLANK(15)},
    {Y(SLIP, "0001", "0005"), 18, 0, {0, 0, 0, 0, 0}, 0, NOTHING},
    {Y("          ", "0001", "0004"), 13, 0, {0, 0, 0, 0, 0}, 0, NOTHING}
};

/* The same order with reports that expect it in each of the three forms; message 000 is a
   message. It leaves the same counts and figures. */
static const struct booking_sample late_sample[] = {
    {X END, 0, 0, {10, 0, 10, 0, 0}, 1, NO_REPORT},
    {Z_DATED(ISBN, "000J", "20240229"), 0, 0, {10, 0, 10, 0, 0}, 1, DATED(0, 2024, 2, 29)},
    {Y(SLIP, "0001", "0004"), 0, 0, {10, 4, 6, 0, 0}, 1, DATED(0, 2024, 2, 29)},
    {Z_DATED(ISBN, "000J", "20230229"), 5, 67, {0, 0, 0, 0, 0}, 0, NOTHING},
    {Z_DATED(ISBN, "999N", "00000000"), 0, 0, {10, 4, 0, 6, 0}, 1, ZEROED(999)},
    {Z_DATED(OWN, "000N", "00010101"), 0, 0, {10, 4, 0, 6, 0}, 0, DATED(0, 1, 1, 1)},
    {Y(SLIP, "0002", "0003"), 0, 0, {10, 7, 0, 3, 0}, 1, DATED(0, 1, 1, 1)},
    {X END, 14, 0, {0, 0, 0, 0, 0}, 0, NOTHING},
    {Z_DATED(ISBN, "256J", "99991231"), 0, 0, {10, 7, 3, 0, 0}, 1, DATED(256, 9999, 12, 31)},
    {Z("015J"), 0, 0, {10, 7, 3, 0, 0}, 1, BLANK(15)},
    {Y(SLIP, "0003", "0005"), 0, 0, {10, 10, 0, 0, 2}, 1, BLANK(15)}
};

/* Document 02's supplier, which answers an order by ISBN with its own number. It leaves the
   same counts and figures. */
static const struct booking_sample own_number_sample[] = {
    {X END, 0, 0, {10, 0, 10, 0, 0}, 1, NO_REPORT},
    {Y_OF(OWN, SLIP, "0001", "0004") END, 0, 0, {10, 4, 6, 0, 0}, 0, NO_REPORT},
    {Y(SLIP, "0001", "0004"), 17, 0, {0, 0, 0, 0, 0}, 0, NOTHING},
    {Y_OF(OWN, SLIP, "0001", "0004") END, 17, 0, {0, 0, 0, 0, 0}, 0, NOTHING},
    {Y_OF(OWN, SLIP, "0001", "0005") END, 18, 0, {0, 0, 0, 0, 0}, 0, NOTHING},
    {Z_OF(OWN, "010N"), 0, 0, {10, 4, 0, 6, 0}, 0, BLANK(10)},
    {Y(SLIP, "0002", "0003"), 0, 0, {10, 7, 0, 3, 0}, 1, BLANK(10)},
    {Z("015J"), 0, 0, {10, 7, 3, 0, 0}, 1, BLANK(15)},
    {X_OF(OWN) END, 14, 0, {0, 0, 0, 0, 0}, 0, NOTHING},
    {X_OF(AS_OWN) END, 14, 0, {0, 0, 0, 0, 0}, 0, NOTHING},
    {Y_OF(AS_OWN, SLIP, "0003", "0005") END, 0, 0, {10, 10, 0, 0, 2}, 0, BLANK(15)}
};

/* Document 02's clerk typed 43201 for 43210. An order of ten copies, the entries of the
   roster, and the answer. */
#define OURS "43210     VD"
#define OTHER "43210     IB"
#define TYPED "B10143201     VD24000     VD20240219A-17      9783442756841EN0010ST"
struct entry { const char *account; uint32_t ceiling; };
static const struct { const char *record; size_t count; struct entry entries[2]; uint64_t answer; }
roster_samples[] = {
    {X END, 1, {{OURS, 500}, {OURS, 0}}, 0},
    {X END, 0, {{OURS, 500}, {OURS, 0}}, 24},
    {TYPED END, 1, {{OURS, 500}, {OURS, 0}}, 24},
    {X END, 1, {{OURS, 10}, {OURS, 0}}, 0},
    {X END, 1, {{OURS, 9}, {OURS, 10}}, 25},
    {X END, 2, {{OURS, 10}, {OURS, 9}}, 0},
    {X END, 2, {{OURS, 9}, {OURS, 10}}, 25},
    {X END, 2, {{OTHER, 500}, {OTHER, 500}}, 24},
    {X END, 2, {{OTHER, 9}, {OURS, 10}}, 0}
};

static void differs(const struct side *side, const char *record, uint64_t answer, uint64_t place)
{
    printf("SAMPLE: the %s answers %" PRIu64 " at %" PRIu64 " to: %s\n", side->name, answer,
           place, record);
    exit(1);
}

static wq_school school_of(const struct entry *entry)
{
    wq_school school = {{0}, {0}, 0};
    memcpy(school.address, entry->account, sizeof school.address);
    memcpy(school.qualifier, entry->account + sizeof school.address, sizeof school.qualifier);
    school.ceiling = entry->ceiling;
    return school;
}

static void run_read_samples(const struct side *side)
{
    size_t table[IN_FULL_TABLE] = {0};
    for (size_t i = 0; i < sizeof read_samples / sizeof read_samples[0]; i++) {
        const char *record = read_samples[i].record;
        wq_checked checked = side->check((const uint8_t *)record, strlen(record), table,
                                         IN_FULL_TABLE);
        tally.calls++;
        if (checked.answer != read_samples[i].answer || checked.place != read_samples[i].place
            || checked.fields != read_samples[i].fields)
            differs(side, record, checked.answer, checked.place);
    }
    insist(table[0] == 8888 && table[1] == 72 && table[2] == 4,
           "a 9999 inside a content is content");
}

static size_t fixed_length_of(const char *record)
{
    return record[0] == 'B' ? WQ_ORDER_LENGTH : record[0] == 'L' ? WQ_DELIVERY_LENGTH
                                                                 : WQ_REPORT_LENGTH;
}

/* A title is read and written back as it was, or 4 in reading and 9 in writing. */
static void run_title_sample(const struct side *side, const struct title_sample *sample)
{
    char record[IN_LONGEST] = TITLED;
    uint8_t out[IN_LONGEST] = {0};
    size_t table[IN_FULL_TABLE] = {0}, start = strlen(record), title = strlen(sample->title);
    const size_t told[] = {1017, start, title, 1018, start + title + strlen("*1018"), 2};
    strcat(strcat(record, sample->title), QUALIFIED);
    const uint8_t *bytes = (const uint8_t *)record;
    size_t length = strlen(record), fields = sample->answer == 0 ? 2 : 0;
    wq_checked checked = side->check(bytes, length, table, IN_FULL_TABLE);
    wq_written written = side->write(bytes, WQ_DELIVERY_LENGTH, told, 2 * 3, 2, bytes, length,
                                     out, sizeof out);
    tally.calls += 2;
    if (checked.answer != sample->answer || checked.place != sample->place
        || checked.fields != fields)
        differs(side, record, checked.answer, checked.place);
    if (written.answer != (fields ? 0 : 9) || written.place != 0
        || written.length != (fields ? length : 0))
        differs(side, record, written.answer, written.place);
    insist(!fields || (memcmp(table, told, sizeof told) == 0
                       && memcmp(out, record, length) == 0),
           "a title is told with its bytes and written back");
}

/* The record is written again from its fixed part, its fields before the loops and its parts. */
static void write_bundle(const struct side *side, const char *record, const uint8_t *parts,
                         size_t count)
{
    size_t table[IN_FULL_TABLE] = {0}, length = strlen(record);
    uint8_t out[IN_LONGEST] = {0};
    const uint8_t *bytes = (const uint8_t *)record;
    wq_checked checked = side->check(bytes, length, table, IN_FULL_TABLE);
    size_t fields = (size_t)checked.fields - count * IN_LOOP;
    wq_written written = side->write_parts(bytes, fixed_length_of(record), table, 3 * fields,
                                           fields, bytes, length, parts, count * IN_PART, count,
                                           out, sizeof out);
    tally.calls += 2;
    if (written.answer != 0 || written.place != 0 || written.length != length
        || memcmp(out, record, length) != 0)
        differs(side, record, written.answer, written.place);
}

static void run_bundle_sample(const struct side *side, const struct bundle_sample *sample)
{
    uint8_t parts[IN_FULL_PARTS] = {0};
    wq_parts_read read = side->parts((const uint8_t *)sample->record, strlen(sample->record),
                                     parts, sizeof parts);
    tally.calls++;
    if (read.answer != sample->answer || read.parts != sample->parts
        || (read.place != 0) != (read.answer == 9))
        differs(side, sample->record, read.answer, read.place);
    if (read.answer == 0)
        write_bundle(side, sample->record, parts, (size_t)read.parts);
}

/* Both papers' bundles give the two parts that their tables explain, and write them back. */
static void run_bundle_samples(const struct side *side)
{
    insist(sizeof paper_part == IN_PART + 1 && sizeof online_part == IN_PART + 1,
           "a lent part has 68 bytes");
    for (size_t i = 0; i < sizeof bundle_samples / sizeof bundle_samples[0]; i++)
        run_bundle_sample(side, &bundle_samples[i]);
    for (size_t i = 0; i < 2; i++) {
        const char *record = bundle_samples[i].record;
        uint8_t parts[IN_FULL_PARTS];
        memset(parts, 7, sizeof parts);
        side->parts((const uint8_t *)record, strlen(record), parts, sizeof parts);
        tally.calls++;
        insist(memcmp(parts, paper_part, IN_PART) == 0
               && memcmp(parts + IN_PART, online_part, IN_PART) == 0,
               "the papers' bundles have a paper part and an online part");
        insist(parts[2 * IN_PART] == 7 && parts[sizeof parts - 1] == 7,
               "the room behind the parts is as it was");
    }
}

/* What the samples' line tells by its key. */
static void ask_sample_line(const struct side *side, const uint8_t *lines, size_t lines_length,
                            const uint8_t *slips, size_t slips_length, const size_t *used)
{
    const uint8_t *key = (const uint8_t *)OURS "24000     VDA-17      ";
    wq_told told = side->line(key, 10, key + 10, 2, key + 12, 10, key + 22, 2, key + 24, 10,
                              lines, lines_length, slips, slips_length, used);
    tally.calls++;
    insist(told.answer == 0 && told.place == 0 && told.ordered == 10 && told.filled == 10
           && told.still_open == 0 && told.let_go == 0 && told.extra == 2,
           "the line of the samples is filled, with two copies extra");
    insist(told.message == 15 && told.expected == 3 && told.year == 0 && told.month == 0
           && told.day == 0, "the last message of the samples is 015, without a date");
}

/* Whether a booking gives what the sample states. */
static int is_as_stated(const wq_booked *booked, const struct booking_sample *sample)
{
    const uint64_t *wanted = sample->figures;
    const struct said said = {booked->message, booked->expected, booked->year, booked->month,
                              booked->day};
    return booked->answer == sample->answer && booked->place == sample->place
        && booked->ordered == wanted[0] && booked->filled == wanted[1]
        && booked->still_open == wanted[2] && booked->let_go == wanted[3]
        && booked->extra == wanted[4] && booked->agreed == sample->agreed
        && is_same_said(&said, &sample->said);
}

static void run_bookings(const struct side *side, const struct booking_sample *samples,
                         size_t count)
{
    const struct entry highest = {OURS, WQ_HIGHEST_CEILING};
    const wq_school ours = school_of(&highest);
    static uint8_t lines[DESK_LINES * IN_LINE], slips[DESK_SLIPS * IN_SLIP];
    size_t used[2] = {0, 0};
    for (size_t i = 0; i < count; i++) {
        const char *record = samples[i].record;
        wq_booked booked = side->book((const uint8_t *)record, strlen(record),
                                      (const uint8_t *)&ours, sizeof ours, lines,
                                      sizeof lines, slips, sizeof slips, used);
        tally.calls++;
        if (!is_as_stated(&booked, &samples[i]))
            differs(side, record, booked.answer, booked.place);
    }
    insist(used[0] == 1 && used[1] == 3, "the samples leave one line and three slips");
    ask_sample_line(side, lines, sizeof lines, slips, sizeof slips, used);
}

/* The call for the account of an order, on the roster that the order met. */
static void ask_account(const struct side *side, const wq_school *schools, size_t count,
                        const char *record, uint64_t answer)
{
    const uint8_t *address = (const uint8_t *)record + 4, *qualifier = address + 10;
    wq_account_told told = side->account(schools, count, address, 10, qualifier, 2);
    int listed = answer != 24;
    tally.calls++;
    insist(told.place == 0 && told.answer == (listed ? 0 : 24), "an account is found as booked");
    insist(listed ? (told.ceiling < 10) == (answer == 25) : told.ceiling == 0,
           "an account has the ceiling that was booked by");
}

/* Each order meets its roster before an empty book. */
static void run_roster_samples(const struct side *side)
{
    uint8_t lines[IN_LINE] = {0}, slips[IN_SLIP] = {0};
    for (size_t i = 0; i < sizeof roster_samples / sizeof roster_samples[0]; i++) {
        const char *record = roster_samples[i].record;
        const wq_school schools[] = {school_of(&roster_samples[i].entries[0]),
                                     school_of(&roster_samples[i].entries[1])};
        size_t used[2] = {0, 0}, count = roster_samples[i].count;
        uint64_t answer = roster_samples[i].answer;
        wq_booked booked = side->book((const uint8_t *)record, strlen(record),
                                      (const uint8_t *)schools, count * sizeof schools[0],
                                      lines, sizeof lines, slips, sizeof slips, used);
        tally.calls++;
        if (booked.answer != answer || booked.place != 0 || used[0] != (answer == 0)
            || booked.still_open != (answer == 0 ? 10 : 0) || booked.agreed != (answer == 0))
            differs(side, record, booked.answer, booked.place);
        ask_account(side, schools, count, record, answer);
    }
}

void run_samples(void)
{
    insist(strlen(X END) == 72 && strlen(Y(SLIP, "0001", "0004")) == 113
           && strlen(Z("010N")) == 84, "X, Y and Z have document 01's lengths");
    insist(strlen(TITLED) == 113, "a title begins behind the fixed part and its ID");
    for (size_t i = 0; i < sizeof sides / sizeof sides[0]; i++) {
        run_read_samples(&sides[i]);
        for (size_t j = 0; j < sizeof title_samples / sizeof title_samples[0]; j++)
            run_title_sample(&sides[i], &title_samples[j]);
        run_bundle_samples(&sides[i]);
        run_bookings(&sides[i], desk_sample, sizeof desk_sample / sizeof desk_sample[0]);
        run_bookings(&sides[i], late_sample, sizeof late_sample / sizeof late_sample[0]);
        run_bookings(&sides[i], own_number_sample,
                     sizeof own_number_sample / sizeof own_number_sample[0]);
        run_roster_samples(&sides[i]);
    }
    run_save_samples();
}
