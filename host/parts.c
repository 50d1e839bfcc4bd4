/* What the program says about the parts of a bundle. */
#include "parts.h"
#include "text.h"
#include "words.h"

#include <inttypes.h>

enum {
    UNIT = 10000,               /* an amount is in ten-thousandths of its currency */
    HUNDREDTH = UNIT / 100,
    BYTE_BITS = 8
};

/* An amount stands lowest byte first. */
static uint64_t amount_of(const uint8_t *price)
{
    uint64_t amount = 0;
    for (size_t i = WQ_PRICE_AMOUNT_WIDTH; i > 0; i--)
        amount = amount << BYTE_BITS | price[WQ_PRICE_AMOUNT + i - 1];
    return amount;
}

/* A price with its currency: two decimals, or all four where the last two are not zeros. */
static void print_price(FILE *to, const char *name, const uint8_t *price)
{
    uint64_t amount = amount_of(price);
    fprintf(to, ", %s %" PRIu64 ".%02" PRIu64, name, amount / UNIT, amount % UNIT / HUNDREDTH);
    if (amount % HUNDREDTH > 0)
        fprintf(to, "%02" PRIu64, amount % HUNDREDTH);
    fprintf(to, " %.*s", WQ_CURRENCY_WIDTH, (const char *)price + WQ_PRICE_CURRENCY);
}

/* The article of a part. It may hold any bytes that a record may, its qualifier capitals alone. */
static void print_article(FILE *to, const uint8_t *part)
{
    char article[TEXT_ROOM];
    text_of(part + WQ_PART_ARTICLE, part[WQ_PART_ARTICLE_LENGTH], article);
    fprintf(to, ", article %s %.*s", article[0] == '\0' ? "blank" : article, WQ_QUALIFIER_WIDTH,
            (const char *)part + WQ_PART_ARTICLE_QUALIFIER);
}

/* One part. A net price is always qualified NO, so only the list price's qualifier is told. */
static void print_part(FILE *to, const uint8_t *part)
{
    fputs(part[WQ_PART_MEDIUM] == WQ_DIGITAL ? "digital" : "physical", to);
    print_article(to, part);
    fprintf(to, ", tax mark %c", part[WQ_PART_TAX]);
    print_price(to, "net", part + WQ_PART_NET);
    print_price(to, "list", part + WQ_PART_LIST);
    fprintf(to, " (%.*s)\n", WQ_QUALIFIER_WIDTH,
            (const char *)part + WQ_PART_LIST + WQ_PRICE_QUALIFIER);
}

int print_parts(FILE *to, const struct record *record)
{
    uint8_t parts[WQ_FULL_PARTS];
    wq_parts_read read = wq_parts(record->bytes, record->length, parts, sizeof parts);
    if (read.answer != WQ_DONE) {
        fprintf(to, "  parts cannot be told: %" PRIu64 " %s; booked all the same\n", read.answer,
                words_for(read.answer));
        return 0;
    }
    for (uint64_t i = 0; i < read.parts; i++) {
        fprintf(to, "  part %" PRIu64 " of %" PRIu64 ": ", i + 1, read.parts);
        print_part(to, parts + i * WQ_PART_WIDTH);
    }
    return 1;
}
