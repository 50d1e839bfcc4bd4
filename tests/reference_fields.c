/* Single fields: days, addresses, articles, and the contents of the optional fields. */
#include "reference_parts.h"

#include <string.h>

static int is_digit(uint8_t byte)
{
    return byte >= '0' && byte <= '9';
}

static int is_capital(uint8_t byte)
{
    return byte >= 'A' && byte <= 'Z';
}

/* Typographic marks: "dashes and quotes from 128 to 159 .. except 129, 141, 143, 144 and 157,
   which Windows-1252 leaves unassigned". */
static int is_typographic_mark(uint8_t byte)
{
    switch (byte) {
    case 129: case 141: case 143: case 144: case 157: return 0;
    default: return byte >= 128 && byte <= 159;
    }
}

/* Allowed bytes: 32 to 126 and 160 to 255, and by document 02 the typographic marks. */
int ref_is_allowed(uint8_t byte)
{
    return (byte >= 32 && byte <= 126) || byte >= 160 || is_typographic_mark(byte);
}

/* The place of the first byte that is not allowed, or the length. */
size_t ref_first_not_allowed(const uint8_t *bytes, size_t length)
{
    size_t place = 0;
    while (place < length && ref_is_allowed(bytes[place]))
        place++;
    return place;
}

static size_t leading_digits(const uint8_t *bytes, size_t length)
{
    size_t count = 0;
    while (count < length && is_digit(bytes[count]))
        count++;
    return count;
}

int ref_all_digits(const uint8_t *bytes, size_t length)
{
    return leading_digits(bytes, length) == length;
}

static int all_blank(const uint8_t *bytes, size_t length)
{
    return all_equal(bytes, length, ' ');
}

static int all_capitals(const uint8_t *bytes, size_t length)
{
    for (size_t i = 0; i < length; i++)
        if (!is_capital(bytes[i]))
            return 0;
    return 1;
}

static int is_text(const uint8_t *bytes, size_t length, const char *text)
{
    return length == strlen(text) && memcmp(bytes, text, length) == 0;
}

/* The value of a few digits. */
size_t ref_number(const uint8_t *digits, size_t length)
{
    size_t number = 0;
    for (size_t i = 0; i < length; i++)
        number = number * 10 + (size_t)(digits[i] - '0');
    return number;
}

static size_t days_in_month(size_t year, size_t month)
{
    static const unsigned char days[] = {31, 28, 31, 30, 31, 30, 31, 31, 30, 31, 30, 31};
    int leap = (year % 4 == 0 && year % 100 != 0) || year % 400 == 0;
    return days[month - 1] + (size_t)(month == 2 && leap);
}

/* Year, month and day of eight digits. */
struct day ref_day_of(const uint8_t *digits)
{
    struct day day;
    day.year = ref_number(digits, YEAR_WIDTH);
    day.month = ref_number(digits + YEAR_WIDTH, MONTH_WIDTH);
    day.day = ref_number(digits + YEAR_WIDTH + MONTH_WIDTH, DAY_WIDTH);
    return day;
}

/* "Date: eight digits of a real Gregorian day, years 0001 to 9999." */
int ref_is_real_day(const uint8_t *date)
{
    if (!ref_all_digits(date, DATE_WIDTH))
        return 0;
    struct day it = ref_day_of(date);
    if (it.year == 0 || it.month == 0 || it.month > 12 || it.day == 0)
        return 0;
    return it.day <= days_in_month(it.year, it.month);
}

/* "An expected date is a day, eight zeros (001) or eight blanks (004), and which of the three
   it was is kept." */
enum expected_form ref_expected_form(const uint8_t *date)
{
    if (is_blank_date(date))
        return EXPECTED_BLANKS;
    if (memcmp(date, "00000000", DATE_WIDTH) == 0)
        return EXPECTED_ZEROS;
    return ref_is_real_day(date) ? EXPECTED_DAY : EXPECTED_NO_FORM;
}

/* "Address: one or more digits or capitals, then blanks only." */
int ref_is_address(const uint8_t *address)
{
    size_t count = 0;
    while (count < ADDRESS_WIDTH && (is_digit(address[count]) || is_capital(address[count])))
        count++;
    return count > 0 && all_blank(address + count, ADDRESS_WIDTH - count);
}

/* "Its qualifier: VD, IB or SA." */
int ref_is_address_qualifier(const uint8_t *qualifier)
{
    return memcmp(qualifier, "VD", QUALIFIER_WIDTH) == 0
        || memcmp(qualifier, "IB", QUALIFIER_WIDTH) == 0
        || memcmp(qualifier, "SA", QUALIFIER_WIDTH) == 0;
}

/* EN: 13 digits, weights 1, 3, 1, .. over twelve, with the check digit a multiple of ten. */
static int is_ean(const uint8_t *article)
{
    unsigned total = 0;
    if (!ref_all_digits(article, ARTICLE_WIDTH))
        return 0;
    for (size_t i = 0; i < ARTICLE_WIDTH; i++)
        total += (i % 2 ? 3u : 1u) * (unsigned)(article[i] - '0');
    return total % 10 == 0;
}

/* IB: ten characters with weights 10 to 1, X for ten only last, then three blanks. */
static int is_isbn(const uint8_t *article)
{
    enum { ISBN_WIDTH = 10 };
    uint8_t last = article[ISBN_WIDTH - 1];
    unsigned total = 0;
    if (!ref_all_digits(article, ISBN_WIDTH - 1) || !(is_digit(last) || last == 'X'))
        return 0;
    for (size_t i = 0; i < ISBN_WIDTH - 1; i++)
        total += (unsigned)(ISBN_WIDTH - i) * (unsigned)(article[i] - '0');
    total += last == 'X' ? 10u : (unsigned)(last - '0');
    return total % 11 == 0 && all_blank(article + ISBN_WIDTH, ARTICLE_WIDTH - ISBN_WIDTH);
}

/* RK: three digits, five blanks, five digits. */
static int is_series_number(const uint8_t *article)
{
    return ref_all_digits(article, 3) && all_blank(article + 3, 5)
        && ref_all_digits(article + 8, 5);
}

static int is_digits_then_blanks(const uint8_t *article, size_t least, size_t most)
{
    size_t count = leading_digits(article, ARTICLE_WIDTH);
    return count >= least && count <= most
        && all_blank(article + count, ARTICLE_WIDTH - count);
}

/* "Article by qualifier"; another qualifier breaks its own rule, not the article's. */
int ref_is_article(const uint8_t *article, const uint8_t *qualifier)
{
    if (memcmp(qualifier, "EN", QUALIFIER_WIDTH) == 0)
        return is_ean(article);
    if (memcmp(qualifier, "IB", QUALIFIER_WIDTH) == 0)
        return is_isbn(article);
    if (memcmp(qualifier, "KN", QUALIFIER_WIDTH) == 0)
        return is_digits_then_blanks(article, 7, 8);
    if (memcmp(qualifier, "UM", QUALIFIER_WIDTH) == 0)
        return is_digits_then_blanks(article, 1, ARTICLE_WIDTH);
    if (memcmp(qualifier, "RK", QUALIFIER_WIDTH) == 0)
        return is_series_number(article);
    return 1;
}

int ref_is_article_qualifier(const uint8_t *qualifier)
{
    return memcmp(qualifier, "EN", QUALIFIER_WIDTH) == 0
        || memcmp(qualifier, "IB", QUALIFIER_WIDTH) == 0
        || memcmp(qualifier, "KN", QUALIFIER_WIDTH) == 0
        || memcmp(qualifier, "UM", QUALIFIER_WIDTH) == 0
        || memcmp(qualifier, "RK", QUALIFIER_WIDTH) == 0;
}

static int bytes_within(size_t length, size_t least, size_t most)
{
    return length >= least && length <= most;
}

static int digits_within(const uint8_t *content, size_t length, size_t least, size_t most)
{
    return bytes_within(length, least, most) && ref_all_digits(content, length);
}

/* 1203: "1 to 3 digits, 1 to 360". */
static int is_days_to_pay(const uint8_t *content, size_t length)
{
    if (!digits_within(content, length, 1, 3))
        return 0;
    size_t days = ref_number(content, length);
    return days >= 1 && days <= 360;
}

static int is_one_of(const uint8_t *content, size_t length, const char *choices)
{
    return length == 1 && content[0] != 0 && strchr(choices, content[0]) != NULL;
}

/* Document 01's table of listed contents; an ID not listed is kept with any content. */
int ref_content_keeps_table(size_t id, const uint8_t *content, size_t length)
{
    switch (id) {
    case 1001: case 1003: case 1101: return bytes_within(length, 1, 35);
    case 1005: case 1007: case 1013: case 1018: case 1030: case 1102:
    case 1108: case 1114: case 1116: case 1202: case 1204:
        return length == 2 && all_capitals(content, length);
    case 1009: return length == 3;
    case 1017: return bytes_within(length, 1, 39);
    case 9010: return bytes_within(length, 1, 40);
    case 1019: return is_one_of(content, length, "012");
    case 1021: case 1045: return is_one_of(content, length, "JN");
    case 1025: return digits_within(content, length, 5, 8);
    case 1029: return digits_within(content, length, 5, 15);
    case 1032: return length == 3 && all_capitals(content, length);
    case 1047: return is_one_of(content, length, "J");
    case 9003: return is_one_of(content, length, "JU");
    case 1051: case 1113: return bytes_within(length, 1, 5);
    case 1107: case 9007: case 9016: return digits_within(content, length, 1, 4);
    case 1115: return bytes_within(length, 1, 10);
    case 1129: return digits_within(content, length, 1, 6);
    case 1131: return bytes_within(length, 1, 3);
    case 1151: return is_text(content, length, "PHY") || is_text(content, length, "DIG");
    case 1201: return length == DATE_WIDTH && ref_is_real_day(content);
    case 1203: return is_days_to_pay(content, length);
    case 9001: return length == 1;
    case 9011: return digits_within(content, length, 1, 14);
    case 9012: return digits_within(content, length, 13, 13);
    default: return 1;
    }
}
