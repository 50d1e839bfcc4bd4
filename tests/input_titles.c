/* Generated titles: articles with their qualifiers, and pairs of them. */
#include "inputs.h"

#include <string.h>

enum qualifier { EN, IB, KN, UM, RK, QUALIFIERS };

static const char *const qualifiers[QUALIFIERS] = {"EN", "IB", "KN", "UM", "RK"};

/* The last of the 13 digits of an EN, behind the others. */
static void put_check_digit(uint8_t *article)
{
    size_t total = 0;
    for (size_t i = 0; i < 12; i++)
        total += (size_t)(article[i] - '0') * (i % 2 == 0 ? 1 : 3);
    article[12] = (uint8_t)('0' + (10 - total % 10) % 10);
}

static void make_ean(struct dice *dice, uint8_t *article)
{
    put_random_digits(dice, article, 12);
    put_check_digit(article);
}

static void make_isbn(struct dice *dice, uint8_t *article)
{
    size_t total = 0, check;
    put_random_digits(dice, article, 9);
    for (size_t i = 0; i < 9; i++)
        total += (size_t)(article[i] - '0') * (10 - i);
    check = (11 - total % 11) % 11;
    article[9] = (uint8_t)(check == 10 ? 'X' : '0' + (int)check);
}

static void make_title_of(struct dice *dice, enum qualifier qualifier, uint8_t *title)
{
    memset(title, ' ', IN_ARTICLE);
    memcpy(title + IN_ARTICLE, qualifiers[qualifier], IN_QUALIFIER);
    switch (qualifier) {
    case EN: make_ean(dice, title); break;
    case IB: make_isbn(dice, title); break;
    case KN: put_random_digits(dice, title, between(dice, 7, 8)); break;
    case UM: put_random_digits(dice, title, between(dice, 1, 13)); break;
    default:
        put_random_digits(dice, title, 3);
        put_random_digits(dice, title + 8, 5);
    }
}

void make_title(struct dice *dice, uint8_t *title)
{
    make_title_of(dice, (enum qualifier)below(dice, QUALIFIERS), title);
}

static int is_qualified(const uint8_t *title, enum qualifier qualifier)
{
    return memcmp(title + IN_ARTICLE, qualifiers[qualifier], IN_QUALIFIER) == 0;
}

/* Half of those whose number is one of UM as well have that number. */
void make_other_title(struct dice *dice, const uint8_t *title, uint8_t *other)
{
    memcpy(other, title, IN_TITLE);
    if ((is_qualified(title, EN) || is_qualified(title, KN)) && chance(dice, 2))
        memcpy(other + IN_ARTICLE, qualifiers[UM], IN_QUALIFIER);
    while (memcmp(other, title, IN_TITLE) == 0)
        make_title(dice, other);
}

/* A number as KN and as UM. */
static void make_short(struct dice *dice, size_t digits, uint8_t *first, uint8_t *second)
{
    memcpy(first, "             KN", IN_TITLE);
    put_random_digits(dice, first, digits);
    memcpy(second, first, IN_ARTICLE);
    memcpy(second + IN_ARTICLE, qualifiers[UM], IN_QUALIFIER);
}

/* The ISBN of a book in both its lengths: 978 stands before the nine digits of the short one. */
static void make_book(struct dice *dice, uint8_t *first, uint8_t *second)
{
    make_title_of(dice, IB, first);
    memcpy(second, "978          EN", IN_TITLE);
    memcpy(second + 3, first, 9);
    put_check_digit(second);
}

void make_pair(struct dice *dice, enum pair pair, struct titles *titles)
{
    int turned = chance(dice, 2);
    uint8_t *first = turned ? titles->other : titles->ours;
    uint8_t *second = turned ? titles->ours : titles->other;
    switch (pair) {
    case KN_AND_UM_7: make_short(dice, 7, first, second); break;
    case KN_AND_UM_8: make_short(dice, 8, first, second); break;
    case IB_AND_EN: make_book(dice, first, second); break;
    default:
        make_title_of(dice, EN, first);
        memcpy(second, first, IN_ARTICLE);
        memcpy(second + IN_ARTICLE, qualifiers[UM], IN_QUALIFIER);
    }
}

void make_titles(struct dice *dice, enum change change, struct titles *titles)
{
    enum qualifier ours = (enum qualifier)below(dice, QUALIFIERS);
    size_t other = (ours + between(dice, 1, QUALIFIERS - 1)) % QUALIFIERS;
    make_title_of(dice, ours, titles->ours);
    memcpy(titles->other, titles->ours, IN_TITLE);
    if (change == OTHER_QUALIFIER)
        make_pair(dice, (enum pair)below(dice, IB_AND_EN), titles);
    while (change == OTHER_NUMBER && memcmp(titles->other, titles->ours, IN_TITLE) == 0)
        make_title_of(dice, ours, titles->other);
    while (change == OTHER_BOTH && memcmp(titles->other, titles->ours, IN_ARTICLE) == 0)
        make_title_of(dice, (enum qualifier)other, titles->other);
}

void make_near_titles(struct dice *dice, size_t place, struct titles *titles)
{
    uint8_t *digit = titles->other + place;
    memcpy(titles->ours, "             UM", IN_TITLE);
    put_random_digits(dice, titles->ours, between(dice, place + 1, IN_ARTICLE));
    memcpy(titles->other, titles->ours, IN_TITLE);
    while (*digit == titles->ours[place])
        put_random_digits(dice, digit, 1);
}
