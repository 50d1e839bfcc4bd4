/* Asking the book in memory. */
#include "book.h"

#include <stdio.h>
#include <string.h>

/* Where the fields of an order stand that its line keeps. */
enum {
    ORDER_PARTIES = WQ_KIND_WIDTH,              /* school and supplier, as in a line's key */
    ORDER_REFERENCE = ORDER_PARTIES + 2 * ACCOUNT_WIDTH + WQ_DATE_WIDTH,
    ORDER_ARTICLE = ORDER_REFERENCE + WQ_REFERENCE_WIDTH,
    ORDER_QUANTITY = ORDER_ARTICLE + WQ_ARTICLE_WIDTH + WQ_QUALIFIER_WIDTH,
    QUANTITY_WIDTH = 4,
    QUANTITY_END = WQ_MOST_COPIES + 1           /* no line has so many copies ordered */
};

/* A roster of the record's own school; gives its number of entries, none for a record that is
   too short to name a school. */
static size_t own_school(const struct record *record, wq_school *school)
{
    const uint8_t *account = record_school(record);
    if (account == NULL)
        return 0;
    memcpy(school->address, account, WQ_ADDRESS_WIDTH);
    memcpy(school->qualifier, account + WQ_ADDRESS_WIDTH, WQ_QUALIFIER_WIDTH);
    school->ceiling = WQ_HIGHEST_CEILING;
    return 1;
}

wq_booked book_record(struct book *book, const struct record *record)
{
    wq_school own;
    const wq_school *schools = book->roster->schools;
    size_t count = book->roster->count;
    if (book->roster->name == NULL) {
        schools = &own;
        count = own_school(record, &own);
    }
    return wq_book(record->bytes, record->length, (const uint8_t *)schools,
                   count * WQ_SCHOOL_WIDTH, book->lines, sizeof book->lines, book->slips,
                   sizeof book->slips, book->used);
}

wq_told book_figures(const struct book *book, const uint8_t key[WQ_LINE_KEY_WIDTH])
{
    return wq_line(key + WQ_LINE_SCHOOL, WQ_ADDRESS_WIDTH,
                   key + WQ_LINE_SCHOOL_QUALIFIER, WQ_QUALIFIER_WIDTH,
                   key + WQ_LINE_SUPPLIER, WQ_ADDRESS_WIDTH,
                   key + WQ_LINE_SUPPLIER_QUALIFIER, WQ_QUALIFIER_WIDTH,
                   key + WQ_LINE_REFERENCE, WQ_REFERENCE_WIDTH,
                   book->lines, sizeof book->lines, book->slips, sizeof book->slips, book->used);
}

uint64_t book_open_copies(const struct book *book, const uint8_t account[ACCOUNT_WIDTH])
{
    uint64_t copies = 0;
    for (size_t i = 0; i < book->used[WQ_USED_LINES]; i++) {
        const uint8_t *line = book->lines + i * WQ_LINE_WIDTH;
        if (memcmp(line + WQ_LINE_SCHOOL, account, ACCOUNT_WIDTH) == 0)
            copies += book_figures(book, line).still_open;
    }
    return copies;
}

const uint8_t *book_line(const struct book *book, const uint8_t key[WQ_LINE_KEY_WIDTH])
{
    for (size_t i = 0; i < book->used[WQ_USED_LINES]; i++)
        if (memcmp(book->lines + i * WQ_LINE_WIDTH, key, WQ_LINE_KEY_WIDTH) == 0)
            return book->lines + i * WQ_LINE_WIDTH;
    return NULL;
}

/* Numbers stand lowest byte first. */
static unsigned two_bytes(const uint8_t *bytes)
{
    return bytes[0] | (unsigned)bytes[1] << 8;
}

int book_has_order(const struct book *book, const struct record *order)
{
    uint8_t key[WQ_LINE_KEY_WIDTH];
    char quantity[QUANTITY_WIDTH + 1] = "";
    const uint8_t *line;
    if (order->length < WQ_ORDER_LENGTH ||
        memcmp(order->bytes, WQ_KIND_ORDER, WQ_KIND_WIDTH) != 0)
        return 0;
    memcpy(key + WQ_LINE_SCHOOL, order->bytes + ORDER_PARTIES, 2 * ACCOUNT_WIDTH);
    memcpy(key + WQ_LINE_REFERENCE, order->bytes + ORDER_REFERENCE, WQ_REFERENCE_WIDTH);
    line = book_line(book, key);
    if (line == NULL)
        return 0;
    snprintf(quantity, sizeof quantity, "%04u", two_bytes(line + WQ_LINE_ORDERED) % QUANTITY_END);
    return memcmp(line + WQ_LINE_ARTICLE, order->bytes + ORDER_ARTICLE,
                  WQ_ARTICLE_WIDTH + WQ_QUALIFIER_WIDTH) == 0 &&
           memcmp(quantity, order->bytes + ORDER_QUANTITY, QUANTITY_WIDTH) == 0;
}

const uint8_t *book_slip(const struct book *book, const uint8_t key[WQ_SLIP_KEY_WIDTH])
{
    for (size_t i = 0; i < book->used[WQ_USED_SLIPS]; i++)
        if (memcmp(book->slips + i * WQ_SLIP_WIDTH, key, WQ_SLIP_KEY_WIDTH) == 0)
            return book->slips + i * WQ_SLIP_WIDTH;
    return NULL;
}

const uint8_t *book_line_of_slip(const struct book *book, const uint8_t *slip)
{
    return book->lines + (size_t)two_bytes(slip + WQ_SLIP_LINE) * WQ_LINE_WIDTH;
}

unsigned book_copies_of_slip(const uint8_t *slip)
{
    return two_bytes(slip + WQ_SLIP_QUANTITY);
}
