/* Reading and asking the roster of schools. */
#include "roster.h"
#include "text.h"

#include <inttypes.h>
#include <string.h>

enum {
    MOST_ROSTER = 1 << 20,          /* bytes of a file; no roster is longer */
    MOST_TOLD = WQ_MOST_SCHOOLS,    /* wrong lines that are told; a file with more is no roster */
    SHOWN = WQ_ARTICLE_WIDTH,       /* bytes of a wrong word that are shown */
    WORDS_ROOM = 4 * TEXT_ROOM,
    NOTE_ROOM = WORDS_ROOM + 32     /* with the number of a line before the words */
};

/* What a line has to say. */
enum word { ADDRESS, QUALIFIER, CEILING, WORD_COUNT };

struct part { const uint8_t *start; size_t length; };

/* A roster while it is read. */
struct reading {
    struct roster *roster;
    const uint8_t *at, *end;                    /* what is left of the text */
    unsigned long line;                         /* the number of the line at hand */
    unsigned long lines[WQ_MOST_SCHOOLS];       /* on which line each school stands */
    unsigned long over, first_over;             /* schools past the most, the first one's line */
    unsigned long wrong;                        /* lines */
};

static void say(const struct reading *reading, const char *words)
{
    char note[NOTE_ROOM];
    snprintf(note, sizeof note, "line %lu: %s", reading->line, words);
    complain(reading->roster->name, note);
}

/* Says what is wrong with a word, which is shown as far as there is room. */
static void say_word(const struct reading *reading, const char *what, const struct part *word,
                     const char *trouble)
{
    char text[TEXT_ROOM], words[WORDS_ROOM];
    text_of(word->start, word->length < SHOWN ? word->length : SHOWN, text);
    snprintf(words, sizeof words, "the %s %s%s %s", what, text, word->length > SHOWN ? ".." : "",
             trouble);
    say(reading, words);
}

/* Gives the next line without its end and its comment; 0 where there is none. */
static int next_line(struct reading *reading, struct part *line)
{
    const uint8_t *at = reading->at, *comment;
    if (at == reading->end)
        return 0;
    while (at < reading->end && line_end(at) == 0)
        at++;
    line->start = reading->at;
    line->length = (size_t)(at - reading->at);
    comment = memchr(line->start, '#', line->length);
    if (comment != NULL)
        line->length = (size_t)(comment - line->start);
    reading->at = at + line_end(at);
    reading->line++;
    return 1;
}

static int is_blank(uint8_t byte)
{
    return byte == ' ' || byte == '\t';
}

/* Cuts a line into words and gives their number, also where there are too many to keep. */
static size_t cut(const struct part *line, struct part words[WORD_COUNT])
{
    size_t count = 0, at = 0;
    for (;;) {
        struct part word = {line->start, 0};
        while (at < line->length && is_blank(line->start[at]))
            at++;
        if (at == line->length)
            return count;
        for (word.start += at; at < line->length && !is_blank(line->start[at]); at++)
            word.length++;
        if (count < WORD_COUNT)
            words[count] = word;
        count++;
    }
}

/* Each takes a word over into the school; else it gives what is wrong with the word. */
static const char *take_address(const struct part *word, wq_school *school)
{
    if (word->length > WQ_ADDRESS_WIDTH)
        return "is longer than 10 letters";
    for (size_t i = 0; i < word->length; i++)
        if (!is_digit(word->start[i]) && !(word->start[i] >= 'A' && word->start[i] <= 'Z'))
            return "holds something other than capital letters and digits";
    memset(school->address, ' ', sizeof school->address);
    memcpy(school->address, word->start, word->length);
    return NULL;
}

static const char *take_qualifier(const struct part *word, wq_school *school)
{
    static const char *const qualifiers[] = {"VD", "IB", "SA"};
    for (size_t i = 0; i < sizeof qualifiers / sizeof qualifiers[0]; i++) {
        if (word->length == WQ_QUALIFIER_WIDTH &&
            memcmp(word->start, qualifiers[i], WQ_QUALIFIER_WIDTH) == 0) {
            memcpy(school->qualifier, word->start, WQ_QUALIFIER_WIDTH);
            return NULL;
        }
    }
    return "is none of VD, IB and SA";
}

static const char *take_ceiling(const struct part *word, wq_school *school)
{
    uint64_t ceiling = 0;
    for (size_t i = 0; i < word->length; i++) {
        if (!is_digit(word->start[i]))
            return "is not a number of digits alone";
        if (ceiling <= WQ_HIGHEST_CEILING)
            ceiling = 10 * ceiling + (uint64_t)(word->start[i] - '0');
    }
    if (ceiling > WQ_HIGHEST_CEILING)
        return "is above the highest, 4294967295";
    school->ceiling = (uint32_t)ceiling;
    return NULL;
}

/* Takes the words of a line over; says what is wrong with each of them. */
static int take_words(const struct reading *reading, const struct part words[WORD_COUNT],
                      wq_school *school)
{
    static const char *const names[WORD_COUNT] = {"address", "qualifier", "ceiling"};
    const char *const troubles[WORD_COUNT] = {
        take_address(&words[ADDRESS], school), take_qualifier(&words[QUALIFIER], school),
        take_ceiling(&words[CEILING], school)
    };
    int fine = 1;
    for (int i = 0; i < WORD_COUNT; i++) {
        if (troubles[i] == NULL)
            continue;
        if (reading->wrong < MOST_TOLD)
            say_word(reading, names[i], &words[i], troubles[i]);
        fine = 0;
    }
    return fine;
}

/* A line that holds something has to name a school. */
static int take_line(const struct reading *reading, const struct part words[WORD_COUNT],
                     size_t count, wq_school *school)
{
    char note[WORDS_ROOM];
    if (count == WORD_COUNT)
        return take_words(reading, words, school);
    snprintf(note, sizeof note, "%zu instead of 3 words (address, qualifier and ceiling)", count);
    if (reading->wrong < MOST_TOLD)
        say(reading, note);
    return 0;
}

const uint8_t *school_account(const wq_school *school)
{
    return (const uint8_t *)school + WQ_SCHOOL_ADDRESS;
}

/* Where an account stands already, or the number of schools. */
static size_t find(const struct roster *roster, const uint8_t *account)
{
    size_t i = 0;
    while (i < roster->count && memcmp(school_account(&roster->schools[i]), account,
                                       ACCOUNT_WIDTH) != 0)
        i++;
    return i;
}

static void warn_of_repeated(const struct reading *reading, const wq_school *school, size_t first)
{
    char account[ACCOUNT_ROOM], note[WORDS_ROOM];
    text_with_qualifier(school_account(school), WQ_ADDRESS_WIDTH, account);
    snprintf(note, sizeof note, "%s with ceiling %" PRIu32 " does not count, since it stands on "
             "line %lu already, with ceiling %" PRIu32, account, school->ceiling,
             reading->lines[first], reading->roster->schools[first].ceiling);
    say(reading, note);
}

/* Adds a school behind the others; the first line of an account counts. */
static void add(struct reading *reading, const wq_school *school)
{
    struct roster *roster = reading->roster;
    size_t first = find(roster, school_account(school));
    if (first < roster->count) {
        warn_of_repeated(reading, school, first);
        roster->repeated++;
    } else if (roster->count < WQ_MOST_SCHOOLS) {
        reading->lines[roster->count] = reading->line;
        roster->schools[roster->count++] = *school;
    } else if (reading->over++ == 0) {
        reading->first_over = reading->line;
    }
}

/* What is to be said of the file as a whole; 0 where it cannot be used. */
static int judge(const struct reading *reading)
{
    const struct roster *roster = reading->roster;
    char note[NOTE_ROOM];
    if (reading->wrong > MOST_TOLD) {
        snprintf(note, sizeof note, "%lu more lines are wrong", reading->wrong - MOST_TOLD);
        complain(roster->name, note);
    }
    if (reading->over > 0) {
        snprintf(note, sizeof note, "there are %lu schools in this file, and a roster has at "
                 "most %d; line %lu has the first one too many",
                 WQ_MOST_SCHOOLS + reading->over, WQ_MOST_SCHOOLS, reading->first_over);
        complain(roster->name, note);
    }
    if (reading->wrong + reading->over > 0)
        return 0;
    if (roster->count == 0)
        complain(roster->name, "there is no school in this file: nobody stands on the roster, "
                               "so no record can be booked");
    return 1;
}

/* Reads the whole text, so that all that is wrong with it is said at once. */
static int read_schools(struct roster *roster, const struct bytes *bytes)
{
    struct reading reading = {roster, bytes->start, bytes->start + bytes->length, 0, {0}, 0, 0, 0};
    struct part line, words[WORD_COUNT];
    size_t start;
    if (!text_start(roster->name, bytes->start, &start))
        return 0;
    reading.at += start;
    while (next_line(&reading, &line)) {
        size_t count = cut(&line, words);
        wq_school school;
        if (count == 0)
            continue;
        if (take_line(&reading, words, count, &school))
            add(&reading, &school);
        else
            reading.wrong++;
    }
    return judge(&reading);
}

int roster_read(struct roster *roster, const char *name, const struct own_files *own)
{
    struct input input;
    size_t left = MOST_ROSTER;
    int fine = input_read(&input, name, own, &left);
    memset(roster, 0, sizeof *roster);
    roster->name = name;
    if (fine) {
        strcpy(roster->digest, input.digest);
        fine = read_schools(roster, &input.bytes);
    }
    input_leave(&input);
    return fine;
}

int roster_is_doubtful(const struct roster *roster)
{
    return roster->name != NULL && (roster->repeated > 0 || roster->count == 0);
}

wq_account_told roster_account(const struct roster *roster, const uint8_t account[ACCOUNT_WIDTH])
{
    return wq_account(roster->schools, roster->count, account, WQ_ADDRESS_WIDTH,
                      account + WQ_ADDRESS_WIDTH, WQ_QUALIFIER_WIDTH);
}

/* Whether two accounts differ in the qualifier alone, in one place of the address, or in two
   neighbours that are exchanged. */
static int is_similar(const uint8_t *one, const uint8_t *other)
{
    size_t first = 0, last = WQ_ADDRESS_WIDTH;
    while (first < last && one[first] == other[first])
        first++;
    while (last > first && one[last - 1] == other[last - 1])
        last--;
    if (first == last)
        return 1;
    if (memcmp(one + WQ_ADDRESS_WIDTH, other + WQ_ADDRESS_WIDTH, WQ_QUALIFIER_WIDTH) != 0)
        return 0;
    return last - first == 1 || (last - first == 2 && one[first] == other[first + 1] &&
                                 one[first + 1] == other[first]);
}

void roster_print_similar(FILE *to, const struct roster *roster, const char *before,
                          const uint8_t account[ACCOUNT_WIDTH])
{
    char text[ACCOUNT_ROOM];
    for (size_t i = 0; i < roster->count; i++) {
        if (!is_similar(school_account(&roster->schools[i]), account))
            continue;
        text_with_qualifier(school_account(&roster->schools[i]), WQ_ADDRESS_WIDTH, text);
        fprintf(to, "%s %s", before, text);
        before = ",";
    }
}
