/* Cases for articles: what a record names beside what stands in its line, and keys, booked
   and saved, that are told without them. A title is an article with its qualifier. */
#include "cases.h"

#include <string.h>

enum {
    ORDERED = 20, DELIVERED = 4, NEW_SLIP = 5000, SMALL_SAVE = 1000,
    /* bytes of an address in a save for which a digit can stand: five digits and a blank */
    DIGITS_OF_ADDRESS = 6
};

/* The class of this change among the four that begin with that of the same title. */
static enum class of_change(enum class same, enum change change)
{
    return (enum class)(same + change);
}

/* A record for this key that names this title. */
static uint64_t book_titled(struct dice *dice, struct shelf *shelf, struct booking booking,
                            const uint8_t *title)
{
    uint8_t named[IN_TITLED];
    memcpy(named, booking.key, IN_KEY);
    memcpy(named + IN_KEY, title, IN_TITLE);
    return book_one(dice, shelf, booking.shape, named, booking.copies, booking.slip);
}

static uint64_t order(struct dice *dice, struct shelf *shelf, const uint8_t *key,
                      const uint8_t *title)
{
    const struct booking booking = {ORDER_SHAPE, key, ORDERED, NULL};
    return book_titled(dice, shelf, booking, title);
}

static uint64_t report(struct dice *dice, struct shelf *shelf, const uint8_t *key,
                       const uint8_t *title)
{
    const struct booking booking = {REPORT_SHAPE, key, 0, NULL};
    return book_titled(dice, shelf, booking, title);
}

/* A delivery as the slip of this number. */
static uint64_t deliver(struct dice *dice, struct shelf *shelf, const uint8_t *key,
                        const uint8_t *title, size_t copies, size_t number)
{
    uint8_t slip[IN_SLIP_KEY];
    const struct booking booking = {GOODS_SHAPE, key, copies, slip};
    unique_slip_key(slip, number);
    return book_titled(dice, shelf, booking, title);
}

/* A delivery as a slip that no book here has. */
static uint64_t deliver_new(struct dice *dice, struct shelf *shelf, const uint8_t *key,
                            const uint8_t *title)
{
    return deliver(dice, shelf, key, title, DELIVERED, NEW_SLIP + shelf->used[1]);
}

/* A booking that is taken and tells this of the articles. */
static void expect_agreed(enum class class, int is_of_class, uint64_t answer, int agreed)
{
    expect(class, is_of_class, answer, 0);
    insist(tally.agreed == (uint64_t)agreed, "a booking tells whether the articles agreed");
}

/* An order of ours, a delivery as slip 0 and a report that name the other title, and a
   delivery as slip 1 and a report that name ours: all are booked on the line, which keeps
   its title. */
static void book_both(struct dice *dice, struct shelf *shelf, const uint8_t *key,
                      const struct titles *titles, enum change change)
{
    int same = change == SAME_TITLE;
    expect_agreed(ORDER_AGREES, 1, order(dice, shelf, key, titles->ours), 1);
    expect_agreed(of_change(DELIVERY_OF_SAME, change), 1,
                  deliver(dice, shelf, key, titles->other, DELIVERED, 0), same);
    expect_agreed(of_change(REPORT_OF_SAME, change), 1,
                  report(dice, shelf, key, titles->other), same);
    expect_agreed(ARTICLE_AGREES_AGAIN, !same,
                  deliver(dice, shelf, key, titles->ours, DELIVERED, 1), 1);
    expect_agreed(ARTICLE_AGREES_AGAIN, !same, report(dice, shelf, key, titles->ours), 1);
    insist(memcmp(shelf->lines + IN_KEY, titles->ours, IN_TITLE) == 0,
           "a line keeps the title of its order");
    insist(get_little(shelf->lines + IN_ARRIVED, 4) == 2 * DELIVERED && shelf->used[0] == 1,
           "the copies of both titles arrive on one line");
}

/* The line ordered again, and each slip again by the title that it had not: 14, 17, and 18
   where copies or reference are others, also where a line has that reference. */
static void repeat_both(struct dice *dice, struct shelf *shelf, const uint8_t *key,
                        const struct titles *titles, enum change change)
{
    uint8_t other_key[IN_TITLED];
    unique_line_key(other_key, 1);
    for (size_t i = 0; i < 2; i++) {
        int other = i == 0;
        const uint8_t *title = other ? titles->other : titles->ours;
        size_t slip = other ? 1 : 0;
        expect(of_change(ORDER_AGAIN_OF_SAME, change), other,
               order(dice, shelf, key, title), 14);
        expect(of_change(SLIP_AGAIN_OF_SAME, change), other,
               deliver(dice, shelf, key, title, DELIVERED, slip), 17);
        expect(of_change(OTHER_COPIES_OF_SAME, change), other,
               deliver(dice, shelf, key, title, DELIVERED + 1, slip), 18);
        expect(of_change(OTHER_REFERENCE_OF_SAME, change), other,
               deliver(dice, shelf, other_key, title, DELIVERED, slip), 18);
        if (other)
            insist(order(dice, shelf, other_key, title) == 0, "another reference is another line");
    }
}

/* Two titles that differ as told, before one line; then the same after saving and loading. */
static void book_titles(struct dice *dice, const struct titles *titles, enum change change)
{
    static struct shelf shelf, loaded;
    uint8_t key[IN_TITLED];
    int same = change == SAME_TITLE;
    unique_line_key(key, 0);
    make_shelf(dice, &shelf, 3, 8);
    book_both(dice, &shelf, key, titles, change);
    repeat_both(dice, &shelf, key, titles, change);
    insist(load_again(dice, &shelf, &loaded) == 0, "a book of many titles is loaded");
    expect_agreed(ARTICLES_SAVED, !same, deliver_new(dice, &loaded, key, titles->other), same);
    expect_agreed(ARTICLES_SAVED, !same, report(dice, &loaded, key, titles->ours), 1);
    insist(deliver(dice, &loaded, key, titles->ours, DELIVERED, 0) == 17,
           "a slip of a loaded book is 17 whatever its title");
}

/* Every record for the first line of the book, by another title than stands there: found by
   its key all the same. The first slip is of that line. */
static void name_other(struct dice *dice, struct shelf *shelf, const uint8_t *title,
                       enum class class)
{
    const uint8_t *key = shelf->lines;
    size_t copies = get_little(shelf->slips + IN_COPIES, 2);
    expect_agreed(class, 1, deliver_new(dice, shelf, key, title), 0);
    expect_agreed(class, 1, report(dice, shelf, key, title), 0);
    expect(class, 1, deliver(dice, shelf, key, title, copies, 0), 17);
    expect(class, 1, deliver(dice, shelf, key, title, copies - 1 ? copies - 1 : 2, 0), 18);
    expect(class, 1, order(dice, shelf, key, title), 14);
    expect(class, 1, ask_line(key, shelf), 0);
}

static void stock_one(struct dice *dice, struct shelf *shelf)
{
    make_shelf(dice, shelf, 2, 4);
    stock_unique(dice, shelf, 1, 1);
}

/* A lent line whose title is one byte off, whichever; then without the fault. */
static void name_beside_near(struct dice *dice)
{
    static struct shelf shelf;
    uint8_t title[IN_TITLE];
    for (size_t place = 0; place < IN_TITLE; place++) {
        enum class class = place < IN_ARTICLE ? LENT_ARTICLE_OFF : LENT_ARTICLE_QUALIFIER_OFF;
        uint8_t bit = (uint8_t)(1u << below(dice, 8));
        stock_one(dice, &shelf);
        memcpy(title, shelf.lines + IN_KEY, IN_TITLE);
        shelf.lines[IN_KEY + place] ^= bit;
        name_other(dice, &shelf, title, class);
        shelf.lines[IN_KEY + place] ^= bit;
        expect_agreed(class, 1, deliver_new(dice, &shelf, shelf.lines, title), 1);
        expect_agreed(class, 1, report(dice, &shelf, shelf.lines, title), 1);
    }
}

/* A record whose title is one digit off, whichever. */
static void name_near(struct dice *dice)
{
    static struct shelf shelf;
    struct titles titles;
    for (size_t place = 0; place < IN_ARTICLE; place++) {
        stock_one(dice, &shelf);
        make_near_titles(dice, place, &titles);
        memcpy(shelf.lines + IN_KEY, titles.ours, IN_TITLE);
        name_other(dice, &shelf, titles.other, NAMED_ARTICLE_OFF);
        expect_agreed(NAMED_ARTICLE_OFF, 1,
                      deliver_new(dice, &shelf, shelf.lines, titles.ours), 1);
    }
}

/* Titles that no record can have: a lent line may hold them, a save that loads may not. */
static void name_beside_any(struct dice *dice)
{
    static const char *const odd[] = {
        "               ", "9783442756841  ", "9783442756842EN", "9783442756841en",
        "             EN", "000000000000000", "***************", "9783442756841\377\377"
    };
    static struct shelf shelf, loaded;
    uint8_t title[IN_TITLE];
    for (size_t i = 0; i < 2 * sizeof odd / sizeof odd[0]; i++) {
        stock_one(dice, &shelf);
        make_title(dice, title);
        for (size_t j = 0; j < IN_TITLE; j++)
            shelf.lines[IN_KEY + j] = (uint8_t)roll(dice);
        if (i % 2 == 0)
            memcpy(shelf.lines + IN_KEY, odd[i / 2], IN_TITLE);
        name_other(dice, &shelf, title, LENT_ARTICLE_OF_ANY_BYTES);
        insist(load_again(dice, &shelf, &loaded) == 22, "a title is judged in a save");
    }
}

/* A book in which a key stands twice, first with our title and later with the other. Its first
   slip is of the later line. */
static void stock_twice(struct dice *dice, struct shelf *shelf, const struct titles *titles,
                        size_t indexes[2])
{
    enum { LINES = 6 };
    make_shelf(dice, shelf, LINES, LINES + 4);
    stock_unique(dice, shelf, LINES, LINES);
    indexes[0] = below(dice, LINES - 1);
    indexes[1] = between(dice, indexes[0] + 1, LINES - 1);
    uint8_t *first = shelf->lines + indexes[0] * IN_LINE;
    uint8_t *later = shelf->lines + indexes[1] * IN_LINE;
    memcpy(later, first, IN_KEY);
    memcpy(first + IN_KEY, titles->ours, IN_TITLE);
    memcpy(later + IN_KEY, titles->other, IN_TITLE);
    put_little(shelf->slips + IN_LINE_OF_SLIP, 2, indexes[1]);
}

/* The first line with a key is booked on and tells of its own title, whatever a later one has;
   a slip of the later one has the same key as its line's. */
static void name_first_of_key(struct dice *dice, const struct titles *titles, enum change change)
{
    static struct shelf shelf;
    uint8_t untouched[IN_LINE];
    size_t indexes[2];
    int same = change == SAME_TITLE;
    stock_twice(dice, &shelf, titles, indexes);
    uint8_t *line = shelf.lines + indexes[0] * IN_LINE, *later = shelf.lines + indexes[1] * IN_LINE;
    size_t arrived = get_little(line + IN_ARRIVED, 4);
    size_t copies = get_little(shelf.slips + IN_COPIES, 2);
    memcpy(untouched, later, IN_LINE);
    expect_agreed(FIRST_OF_KEY_AGREES, 1, deliver_new(dice, &shelf, line, titles->ours), 1);
    expect_agreed(FIRST_OF_KEY_AGREES, 1, report(dice, &shelf, line, titles->ours), 1);
    expect_agreed(LATER_OF_KEY_AGREES, !same, deliver_new(dice, &shelf, line, titles->other), same);
    expect_agreed(LATER_OF_KEY_AGREES, !same, report(dice, &shelf, line, titles->other), same);
    expect(LATER_OF_KEY_AGREES, !same, order(dice, &shelf, line, titles->other), 14);
    insist(memcmp(later, untouched, IN_LINE) == 0, "a later line with the key stays as it was");
    insist(get_little(line + IN_ARRIVED, 4) == arrived + 2 * DELIVERED, "the first is booked on");
    expect(FIRST_OF_KEY_AGREES, 1, ask_line(line, &shelf), 0);
    insist(tally.value == get_little(line + IN_ORDERED, 2), "the first line's figures are told");
    expect(SLIP_AGAIN_ON_LATER_OF_KEY, 1,
           deliver(dice, &shelf, line, titles->ours, copies, 0), 17);
    expect(SLIP_AGAIN_ON_LATER_OF_KEY, 1,
           deliver(dice, &shelf, line, titles->other, copies, 0), 17);
}

/* A save of few lines, in either form. */
struct small_save { uint8_t bytes[SMALL_SAVE]; enum saved_form form; size_t lines, length; };

static void make_small_save(struct dice *dice, struct small_save *save, size_t slips)
{
    save->form = (enum saved_form)below(dice, SAVED_FORMS);
    save->lines = between(dice, 2, 8);
    save->length = make_save(dice, save->bytes, save->form, save->lines, slips, 0);
}

static uint8_t *line_in(struct small_save *save, size_t index)
{
    return saved_line(save->bytes, save->form, index) + IN_KIND_BYTE;
}

static uint64_t load_small(struct dice *dice, const struct small_save *save)
{
    static struct shelf shelf;
    make_shelf(dice, &shelf, 8, 4);
    return both_load(save->bytes, save->length, &shelf);
}

/* Two lines of these titles, first with keys of their own, then with one key: 22. */
static void load_twice(struct dice *dice, const struct titles *titles, enum class class)
{
    struct small_save save;
    make_small_save(dice, &save, below(dice, 4));
    size_t first = below(dice, save.lines - 1), again = between(dice, first + 1, save.lines - 1);
    memcpy(line_in(&save, first) + IN_KEY, titles->ours, IN_TITLE);
    memcpy(line_in(&save, again) + IN_KEY, titles->other, IN_TITLE);
    insist(load_small(dice, &save) == 0, "lines of two keys may have any titles");
    memcpy(line_in(&save, again), line_in(&save, first), IN_KEY);
    expect(class, 1, load_small(dice, &save), 22);
}

static void load_near_twice(struct dice *dice)
{
    struct titles titles;
    for (size_t place = 0; place < IN_ARTICLE; place++) {
        make_near_titles(dice, place, &titles);
        load_twice(dice, &titles, SAVED_TWICE_OF_NEAR);
    }
}

/* All lines have one title, and two of them keys that are one byte apart, wherever a key can
   hold another byte. */
static void load_near_keys(struct dice *dice)
{
    struct small_save save;
    for (size_t place = 0; place < IN_KEY; place++) {
        if (place < IN_REFERENCE && place % IN_PARTY >= DIGITS_OF_ADDRESS)
            continue;
        make_small_save(dice, &save, 0);
        size_t again = between(dice, 1, save.lines - 1);
        uint8_t *line = line_in(&save, again);
        for (size_t i = 1; i < save.lines; i++)
            memcpy(line_in(&save, i) + IN_KEY, line_in(&save, 0) + IN_KEY, IN_TITLE);
        expect(SAVED_LINES_OF_ONE_ARTICLE, 1, load_small(dice, &save), 0);
        memcpy(line, line_in(&save, 0), IN_KEY);
        insist(load_small(dice, &save) == 22, "a key stands once in a save");
        line[place] = line[place] == '7' ? '8' : '7';
        expect(SAVED_KEYS_ONE_BYTE_APART, 1, load_small(dice, &save), 0);
    }
}

/* Articles and qualifiers that break their rules, some by a byte that is not allowed. */
static const struct { const char *title; enum class class; } broken_titles[] = {
    {"9783442756842EN", SAVED_ARTICLE_BROKEN}, {"978344275684 EN", SAVED_ARTICLE_BROKEN},
    {"344275688X   EN", SAVED_ARTICLE_BROKEN}, {"3442756881   IB", SAVED_ARTICLE_BROKEN},
    {"344275688x   IB", SAVED_ARTICLE_BROKEN}, {"344275688X  0IB", SAVED_ARTICLE_BROKEN},
    {"123456       KN", SAVED_ARTICLE_BROKEN}, {"123456789    KN", SAVED_ARTICLE_BROKEN},
    {"             UM", SAVED_ARTICLE_BROKEN}, {" 1234567     UM", SAVED_ARTICLE_BROKEN},
    {"1234567     8UM", SAVED_ARTICLE_BROKEN}, {"1234567\xa0     UM", SAVED_ARTICLE_BROKEN},
    {"1234567\x81     KN", SAVED_ARTICLE_BROKEN}, {"123     4567 RK", SAVED_ARTICLE_BROKEN},
    {"1234    45678RK", SAVED_ARTICLE_BROKEN}, {"             RK", SAVED_ARTICLE_BROKEN},
    {"9783442756841  ", SAVED_ARTICLE_QUALIFIER_BROKEN},
    {"9783442756841EX", SAVED_ARTICLE_QUALIFIER_BROKEN},
    {"9783442756841XN", SAVED_ARTICLE_QUALIFIER_BROKEN},
    {"9783442756841en", SAVED_ARTICLE_QUALIFIER_BROKEN},
    {"1234567      VD", SAVED_ARTICLE_QUALIFIER_BROKEN},
    {"1234567      U\x7f", SAVED_ARTICLE_QUALIFIER_BROKEN}
};

/* A save with one of them in any of its lines: 22. */
static void load_broken_titles(struct dice *dice)
{
    struct small_save save;
    for (size_t i = 0; i < sizeof broken_titles / sizeof broken_titles[0]; i++) {
        make_small_save(dice, &save, below(dice, 4));
        memcpy(line_in(&save, below(dice, save.lines)) + IN_KEY, broken_titles[i].title, IN_TITLE);
        expect(broken_titles[i].class, 1, load_small(dice, &save), 22);
    }
}

/* All that two titles which differ as told can meet. */
static void meet_titles(struct dice *dice, const struct titles *titles, enum change change)
{
    book_titles(dice, titles, change);
    name_first_of_key(dice, titles, change);
    load_twice(dice, titles, of_change(SAVED_TWICE_OF_SAME, change));
}

void compare_articles(struct dice *dice)
{
    enum { TIMES = 6 };
    struct titles titles;
    for (size_t i = 0; i < TIMES * CHANGES; i++) {
        make_titles(dice, (enum change)(i % CHANGES), &titles);
        meet_titles(dice, &titles, (enum change)(i % CHANGES));
    }
    for (size_t pair = 0; pair < PAIRS; pair++) {
        make_pair(dice, (enum pair)pair, &titles);
        meet_titles(dice, &titles, pair == IB_AND_EN ? OTHER_BOTH : OTHER_QUALIFIER);
        came_up((enum class)(ONE_NUMBER_EN_UM + pair), 1);
    }
    name_beside_near(dice);
    name_near(dice);
    name_beside_any(dice);
    load_near_twice(dice);
    load_near_keys(dice);
    load_broken_titles(dice);
}
