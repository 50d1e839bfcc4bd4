/* What a line holds of its last report: generated states of all kinds, and what they tell,
   stated here a second time on purpose. */
#include "inputs.h"

#include <string.h>

void make_expected(struct dice *dice, enum form form, uint8_t *date)
{
    if (form == A_DAY)
        make_day(dice, date);
    else
        memset(date, form == ZEROS ? '0' : ' ', IN_DAY);
}

/* Message numbers whose ends come often. */
size_t make_message(struct dice *dice)
{
    static const size_t ends[] = {0, 1, 255, 256, 511, 512, 998, IN_MOST_MESSAGE};
    return chance(dice, 3) ? ends[below(dice, sizeof ends / sizeof ends[0])]
                           : below(dice, IN_MOST_MESSAGE + 1);
}

void put_state(uint8_t *line, uint8_t mark, size_t message, const void *date)
{
    line[IN_MARK] = mark;
    put_little(line + IN_MESSAGE, IN_EXPECTED - IN_MESSAGE, message);
    memcpy(line + IN_EXPECTED, date, IN_DAY);
}

/* Any sound state with this mark: without a report there is one; with a report its message and
   date are known, or not since the book was loaded. */
void make_state(struct dice *dice, uint8_t *line, uint8_t mark)
{
    uint8_t date[IN_DAY];
    size_t message = make_message(dice);
    enum form form = (enum form)below(dice, FORMS);
    if (mark == IN_NO_MARK)
        message = IN_NO_REPORT;
    else if (chance(dice, 4))
        message = IN_UNKNOWN;
    make_expected(dice, message > IN_MOST_MESSAGE ? BLANKS : form, date);
    put_state(line, mark, message, date);
}

/* A state of this kind, of STATES: by J and by N with each form of the date and unknown, then
   none. */
void make_state_of(struct dice *dice, size_t kind, uint8_t *line)
{
    enum { MARKED = 2 };
    uint8_t date[IN_DAY];
    size_t form = kind / MARKED;
    int none = kind == STATES - 1, known = form < FORMS;
    make_expected(dice, known ? (enum form)form : BLANKS, date);
    put_state(line, none ? IN_NO_MARK : kind % MARKED == 0 ? IN_HELD : IN_LET_GO,
              none ? IN_NO_REPORT : known ? make_message(dice) : IN_UNKNOWN, date);
}

void make_any_state(struct dice *dice, uint8_t *line)
{
    make_state(dice, line, (uint8_t)below(dice, IN_LET_GO + 1));
}

/* A real day, told by its text: month and day are held against the last day of each month. */
static int is_day(const uint8_t *date)
{
    static const char last_days[][5] = {"0131", "0228", "0331", "0430", "0531", "0630",
                                        "0731", "0831", "0930", "1031", "1130", "1231"};
    size_t month = 0;
    for (size_t i = 0; i < IN_DAY; i++)
        if (strchr("0123456789", date[i]) == NULL || date[i] == 0)
            return 0;
    size_t year = get_digits(date, 4);
    if (year == 0 || memcmp(date + IN_DAY_OF_MONTH, "00", 2) == 0)
        return 0;
    if (memcmp(date + IN_MONTH, "0229", 4) == 0)
        return year % 400 == 0 || (year % 4 == 0 && year % 100 != 0);
    while (month < 12 && memcmp(date + IN_MONTH, last_days[month], 2) != 0)
        month++;
    return month < 12 && memcmp(date + IN_MONTH, last_days[month], 4) <= 0;
}

/* Whether mark, message and date of a line go together, stated here a second time on purpose. */
int is_sound_state(const uint8_t *line)
{
    const uint8_t *date = line + IN_EXPECTED;
    size_t message = get_little(line + IN_MESSAGE, 2);
    int blank = memcmp(date, BLANK_DATE, IN_DAY) == 0;
    int reported = line[IN_MARK] == IN_HELD || line[IN_MARK] == IN_LET_GO;
    if (message == IN_NO_REPORT)
        return line[IN_MARK] == IN_NO_MARK && blank;
    if (message == IN_UNKNOWN)
        return reported && blank;
    return reported && message <= IN_MOST_MESSAGE
        && (blank || memcmp(date, "00000000", IN_DAY) == 0 || is_day(date));
}

/* What a message with this date has to be told as, stated by its form. */
struct said said_of(size_t message, enum form form, const uint8_t *date)
{
    struct said said = {message, (uint64_t)IN_AS_DAY + form, 0, 0, 0};
    if (form != A_DAY)
        return said;
    said.year = get_digits(date, 4);
    said.month = get_digits(date + IN_MONTH, 2);
    said.day = get_digits(date + IN_DAY_OF_MONTH, 2);
    return said;
}

/* The form of a sound date is told by few of its bytes: no day begins with a blank, and none
   has the month 00. */
struct said said_on(const uint8_t *line)
{
    const uint8_t *date = line + IN_EXPECTED;
    enum form form = date[0] == ' ' ? BLANKS
                   : memcmp(date + IN_MONTH, "00", 2) == 0 ? ZEROS : A_DAY;
    return said_of(get_little(line + IN_MESSAGE, 2), form, date);
}

int is_same_said(const struct said *one, const struct said *other)
{
    return one->message == other->message && one->expected == other->expected
        && one->year == other->year && one->month == other->month && one->day == other->day;
}

const struct number_sample number_samples[] = {
    {0, MESSAGE_KIND}, {1, MESSAGE_KIND}, {255, MESSAGE_KIND}, {256, MESSAGE_KIND},
    {998, MESSAGE_KIND}, {999, MESSAGE_KIND},
    {1000, NUMBER_KIND}, {1001, NUMBER_KIND}, {1023, NUMBER_KIND},
    {1024, NUMBER_KIND}, {9999, NUMBER_KIND}, {32767, NUMBER_KIND},
    {32768, NUMBER_KIND}, {65279, NUMBER_KIND}, {65533, NUMBER_KIND},
    {IN_UNKNOWN, UNKNOWN_KIND}, {IN_NO_REPORT, NO_REPORT_KIND}
};
const size_t number_count = sizeof number_samples / sizeof number_samples[0];

const struct date_sample date_samples[] = {
    {"20240229", DAY_KIND}, {"00010101", DAY_KIND}, {"99991231", DAY_KIND},
    {"20000229", DAY_KIND}, {"20240430", DAY_KIND}, {"20231130", DAY_KIND},
    {"00000000", ZEROS_KIND}, {BLANK_DATE, BLANKS_KIND},
    {"20230229", UNREAL_KIND}, {"19000229", UNREAL_KIND}, {"00000101", UNREAL_KIND},
    {"00000229", UNREAL_KIND}, {"20241301", UNREAL_KIND}, {"20240001", UNREAL_KIND},
    {"20240431", UNREAL_KIND}, {"20240132", UNREAL_KIND}, {"20240100", UNREAL_KIND},
    {"20240000", UNREAL_KIND}, {"00000001", UNREAL_KIND}, {"10000000", UNREAL_KIND},
    {"99999999", UNREAL_KIND},
    {"2024022 ", PARTLY_BLANK_KIND}, {" 0240229", PARTLY_BLANK_KIND},
    {"2024 229", PARTLY_BLANK_KIND}, {"0000000 ", PARTLY_BLANK_KIND},
    {" 0000000", PARTLY_BLANK_KIND}, {"       0", PARTLY_BLANK_KIND},
    {"0       ", PARTLY_BLANK_KIND}, {"2024    ", PARTLY_BLANK_KIND},
    {"20240A01", BYTES_KIND}, {"2024022/", BYTES_KIND}, {":0240229", BYTES_KIND},
    {"\0\0\0\0\0\0\0\0", BYTES_KIND}, {"\xa0\xa0\xa0\xa0\xa0\xa0\xa0\xa0", BYTES_KIND},
    {"\377\377\377\377\377\377\377\377", BYTES_KIND}, {"       \xa0", BYTES_KIND},
    {"\2\0\2\4\0\2\2\x9", BYTES_KIND}, {"2024022\xb9", BYTES_KIND}, {"       !", BYTES_KIND},
    {"0000000\0", BYTES_KIND}
};
const size_t date_count = sizeof date_samples / sizeof date_samples[0];
