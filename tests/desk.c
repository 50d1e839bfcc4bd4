/* desk: what the desk program of document 01 prints of the records on standard input, by
   the reference. One line a record: number, kind letter, answer, ordered, filled, open,
   let go, extra, message. */
#include "reference.h"
#include "reference_parts.h"

#include <inttypes.h>
#include <stdio.h>
#include <string.h>

enum { DESK_LINES = 256, DESK_SLIPS = 512, MOST_INPUT = 1 << 24 };

static uint8_t lines[DESK_LINES * LINE_WIDTH], slips[DESK_SLIPS * SLIP_WIDTH];
static uint8_t input[MOST_INPUT];
static size_t used[2];

/* The desk has no roster: each record meets one of its own account alone, with the highest
   ceiling, or of no entry where it is too short to have an account. Gives its length. */
static size_t own_roster(const uint8_t *record, size_t length, uint8_t *roster)
{
    size_t school = ref_kind_of(record, length) == ORDER ? SENDER_PLACE : RECIPIENT_PLACE;
    if (length < school + PARTY_WIDTH)
        return 0;
    memcpy(roster, record + school, PARTY_WIDTH);
    memset(roster + SCHOOL_CEILING_PLACE, 0xff, CEILING_WIDTH);
    return SCHOOL_WIDTH;
}

/* The ninth field: three digits, or a hyphen where there is no message, also on a refusal. */
static void print_message(const wq_booked *booked)
{
    if (booked->answer == DONE && booked->message <= MOST_MESSAGE)
        printf(" %0*" PRIu64 "\n", MESSAGE_WIDTH, booked->message);
    else
        printf(" -\n");
}

/* Books one record and prints its line. Too long, and no known kind, have no letter. */
static void answer_record(size_t number, const uint8_t *record, size_t length)
{
    uint8_t roster[SCHOOL_WIDTH];
    wq_booked booked = ref_book(record, length, roster, own_roster(record, length, roster),
                                lines, sizeof lines, slips, sizeof slips, used);
    int letter = booked.answer == 1 || booked.answer == 2 ? '?' : record[0];
    printf("%zu %c %" PRIu64 " %" PRIu64 " %" PRIu64 " %" PRIu64 " %" PRIu64 " %" PRIu64,
           number, letter, booked.answer, booked.ordered, booked.filled, booked.still_open,
           booked.let_go, booked.extra);
    print_message(&booked);
}

int main(void)
{
    size_t length = fread(input, 1, sizeof input, stdin), start = 0, number = 0;
    if (length == sizeof input)
        return 2;
    for (size_t i = 0; i + 1 < length; i++) {
        if (input[i] != '\r' || input[i + 1] != '\n')
            continue;
        answer_record(++number, input + start, i - start);
        start = i + 2;
        i++;
    }
    if (start < length)
        answer_record(++number, input + start, length - start);
    return 0;
}
