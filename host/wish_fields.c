/* Taking cells over into the fixed fields of an order. */
#include "wish_fields.h"

#include <string.h>

enum {
    QUANTITY_WIDTH = 4,
    YEAR_WIDTH = 4, MONTH_WIDTH = 2, DAY_NUMBERS = 3,
    ISBN_WIDTH = 10,
    SERIES_WIDTH = 3, VOLUME_WIDTH = 5      /* of an article RK: both ends of the field */
};

#define ADDRESS_WORDS "1 to 10 capital letters or digits"
#define ACCOUNT_QUALIFIERS "VD, IB or SA"

/* How many digits stand in a cell from a place on. */
static size_t digits_at(const struct cell *cell, size_t from)
{
    size_t at = from;
    while (at < cell->length && is_digit(cell->start[at]))
        at++;
    return at - from;
}

/* Writes a number to the end of a field, with zeros before it. */
static void put_number(uint8_t *to, size_t width, const uint8_t *digits, size_t count)
{
    memset(to, '0', width - count);
    memcpy(to + width - count, digits, count);
}

/* Each way to take a cell, without the blanks around it, over into a field that is blank; they
   return 0 where it is not what the field may hold. What they let pass is judged by wq_write. */
static int take_text(const struct cell *cell, uint8_t *to, size_t width)
{
    if (cell->length > width)
        return 0;
    memcpy(to, cell->start, cell->length);
    return 1;
}

static int take_quantity(const struct cell *cell, uint8_t *to, size_t width)
{
    size_t zeros = 0;
    if (cell->length == 0)
        return 0;
    while (cell->length - zeros > width && cell->start[zeros] == '0')
        zeros++;
    if (cell->length - zeros > width)
        return 0;
    put_number(to, width, cell->start + zeros, cell->length - zeros);
    return 1;
}

/* A way to write a day: what stands between its three numbers, where in YYYYMMDD each of them
   goes, and the fewest digits of month and day. */
struct day_form { uint8_t between; size_t places[DAY_NUMBERS], least; };

static const struct day_form day_forms[] = {
    {'-', {0, YEAR_WIDTH, YEAR_WIDTH + MONTH_WIDTH}, MONTH_WIDTH},
    {'.', {YEAR_WIDTH + MONTH_WIDTH, YEAR_WIDTH, 0}, 1}
};

static int take_day_as(const struct day_form *form, const struct cell *cell, uint8_t *to)
{
    size_t at = 0;
    for (size_t i = 0; i < DAY_NUMBERS; i++) {
        int is_year = form->places[i] == 0;
        size_t width = is_year ? YEAR_WIDTH : MONTH_WIDTH, digits;
        if (i > 0 && (at == cell->length || cell->start[at++] != form->between))
            return 0;
        digits = digits_at(cell, at);
        if (digits > width || digits < (is_year ? width : form->least))
            return 0;
        put_number(to + form->places[i], width, cell->start + at, digits);
        at += digits;
    }
    return at == cell->length;
}

static int take_date(const struct cell *cell, uint8_t *to, size_t width)
{
    if (digits_at(cell, 0) == cell->length)
        return take_text(cell, to, width);
    for (size_t i = 0; i < sizeof day_forms / sizeof day_forms[0]; i++)
        if (take_day_as(&day_forms[i], cell, to))
            return 1;
    return 0;
}

/* Whether a cell holds digits alone, or an ISBN that ends with X. */
static int is_number(const struct cell *cell)
{
    size_t digits = digits_at(cell, 0);
    return digits == cell->length ||
           (cell->length == ISBN_WIDTH && digits + 1 == ISBN_WIDTH && cell->start[digits] == 'X');
}

/* Copies what stands between the hyphens of a cell; gives its length, 0 where it is too long. */
static size_t without_hyphens(const struct cell *cell, uint8_t signs[WQ_ARTICLE_WIDTH])
{
    size_t count = 0;
    for (size_t i = 0; i < cell->length; i++) {
        if (cell->start[i] == '-')
            continue;
        if (count == WQ_ARTICLE_WIDTH)
            return 0;
        signs[count++] = cell->start[i];
    }
    return count;
}

/* Whether a cell has the form of an article RK: three signs, any number of blanks, five signs. */
static int is_series(const struct cell *cell)
{
    size_t at = SERIES_WIDTH;
    while (at < cell->length && is_blank_in_cell(cell->start[at]))
        at++;
    return at > SERIES_WIDTH && at + VOLUME_WIDTH == cell->length;
}

/* An EAN or ISBN may have hyphens. */
static int take_article(const struct cell *cell, uint8_t *to, size_t width)
{
    uint8_t signs[WQ_ARTICLE_WIDTH];
    struct cell number = *cell;
    number.start = signs;
    number.length = without_hyphens(cell, signs);
    if ((number.length == ISBN_WIDTH || number.length == WQ_ARTICLE_WIDTH) && is_number(&number))
        return take_text(&number, to, width);
    if (!is_series(cell))
        return take_text(cell, to, width);
    memcpy(to, cell->start, SERIES_WIDTH);
    memcpy(to + width - VOLUME_WIDTH, cell->start + cell->length - VOLUME_WIDTH, VOLUME_WIDTH);
    return 1;
}

const struct fixed_field fixed_fields[WISH_FIXED_FIELDS] = {
    {"school", 1, WQ_ADDRESS_WIDTH, take_text, NULL, ADDRESS_WORDS},
    {"school qualifier", 0, WQ_QUALIFIER_WIDTH, take_text, "VD", ACCOUNT_QUALIFIERS},
    {"supplier", 1, WQ_ADDRESS_WIDTH, take_text, NULL, ADDRESS_WORDS},
    {"supplier qualifier", 0, WQ_QUALIFIER_WIDTH, take_text, "VD", ACCOUNT_QUALIFIERS},
    {"date", 0, WQ_DATE_WIDTH, take_date, NULL,
     "a day that there is, as 20240219, 2024-02-19 or 19.02.2024"},
    {"reference", 1, WQ_REFERENCE_WIDTH, take_text, NULL, "1 to 10 signs, none of them * + : ? '"},
    {"article", 1, WQ_ARTICLE_WIDTH, take_article, NULL, NULL},
    {"article qualifier", 0, WQ_QUALIFIER_WIDTH, take_text, NULL, "EN, IB, KN, UM or RK"},
    {"quantity", 1, QUANTITY_WIDTH, take_quantity, NULL, "a number of 1 to 9999"},
    {"measure", 0, WQ_QUALIFIER_WIDTH, take_text, "ST", "ST or NP"}
};

/* What an article may be, by its qualifier. */
static const struct { const char *qualifier, *may_hold; } articles[] = {
    {"EN", "13 digits, the last one a right check digit (EN)"},
    {"IB", "10 signs, nine digits and a right check digit or X (IB)"},
    {"KN", "7 or 8 digits (KN)"},
    {"UM", "1 to 13 digits (UM)"},
    {"RK", "three digits, blanks and five digits (RK)"}
};

#define ANY_ARTICLE "13 digits of an EAN (EN), 10 signs of an ISBN (IB), three digits, blanks " \
    "and five digits (RK), 7 or 8 digits (KN), or 1 to 13 digits (UM)"

/* Whether the form of a number tells its qualifier, and if not, why. An EAN, an ISBN and RK are
   told before, where they are right. */
static const struct { size_t least, most; const char *qualifier, *untold; } number_forms[] = {
    {1, 6, "UM", NULL},
    {7, 8, NULL, "may be KN or UM; column article qualifier has to say which"},
    {9, 9, NULL, "has 9 digits, as an ISBN that lost a sign; if it is right, column article "
                 "qualifier has to say UM"},
    {10, 10, NULL, "has a wrong check digit; if it is right all the same, column article "
                   "qualifier has to say UM"},
    {11, 12, NULL, "has 11 or 12 digits, as an EAN that lost a sign; if it is right, column "
                   "article qualifier has to say UM"},
    {13, 13, NULL, "has a wrong check digit; if it is right all the same, column article "
                   "qualifier has to say UM"}
};

#define WRONG_ISBN "has a wrong check digit"

const char *article_may_hold(const struct cell *qualifier)
{
    if (qualifier->length == 0)
        return ANY_ARTICLE;
    for (size_t i = 0; i < sizeof articles / sizeof articles[0]; i++)
        if (qualifier->length == WQ_QUALIFIER_WIDTH &&
            memcmp(qualifier->start, articles[i].qualifier, WQ_QUALIFIER_WIDTH) == 0)
            return articles[i].may_hold;
    return NULL;
}

/* Whether an article is right with a qualifier: asks for an order with nothing else in it. */
static int fits(const uint8_t *article, const char *qualifier)
{
    static const char before[] = WQ_KIND_ORDER "0         VD0         VD20000101          ";
    static const char behind[] = "0001ST";
    uint8_t fixed[WQ_ORDER_LENGTH], out[WQ_MOST_RECORD];
    size_t table[WQ_TABLE_NUMBERS] = {0, 0, 0}, at = sizeof before - 1;
    memcpy(fixed, before, at);
    memcpy(fixed + at, article, WQ_ARTICLE_WIDTH);
    memcpy(fixed + at + WQ_ARTICLE_WIDTH, qualifier, WQ_QUALIFIER_WIDTH);
    memcpy(fixed + at + WQ_ARTICLE_WIDTH + WQ_QUALIFIER_WIDTH, behind, sizeof behind - 1);
    return wq_write(fixed, sizeof fixed, table, WQ_TABLE_NUMBERS, 0, fixed, 0, out,
                    sizeof out).answer == WQ_DONE;
}

/* Tells the qualifier of a number that is no EAN and no ISBN; NULL with the reason where it
   cannot be told, without one where it is no article at all. */
static const char *qualifier_of_number(const struct cell *number, const char **untold)
{
    if (!is_number(number))
        return NULL;
    if (digits_at(number, 0) < number->length) {
        *untold = WRONG_ISBN;
        return NULL;
    }
    for (size_t i = 0; i < sizeof number_forms / sizeof number_forms[0]; i++) {
        if (number->length < number_forms[i].least || number->length > number_forms[i].most)
            continue;
        *untold = number_forms[i].untold;
        return number_forms[i].qualifier;
    }
    return NULL;
}

const char *article_qualifier(const uint8_t article[WQ_ARTICLE_WIDTH], const char **untold)
{
    static const char *const checked[] = {"EN", "IB", "RK"};
    struct cell number = {article, WQ_ARTICLE_WIDTH, 0, ""};
    *untold = NULL;
    for (size_t i = 0; i < sizeof checked / sizeof checked[0]; i++)
        if (fits(article, checked[i]))
            return checked[i];
    number = cell_trimmed(&number);
    return qualifier_of_number(&number, untold);
}
