/* Booking files, and telling what became of their records. */
#define _XOPEN_SOURCE 700

#include "booking.h"
#include "parts.h"
#include "text.h"
#include "words.h"

#include <string.h>

enum {
    WHEN_WIDTH = 20,            /* the time at the start of a log line */
    NOTE_ROOM = 120
};

static void count_answer(struct tally *tally, uint64_t answer)
{
    if (answer == WQ_DONE)
        tally->booked++;
    else if (answer == WQ_NOTHING_TO_BOOK || answer == WQ_SLIP_REPEATED)
        tally->no_need++;
    else
        tally->refused++;
}

static void add_tally(struct tally *all, const struct tally *tally)
{
    all->booked += tally->booked;
    all->no_need += tally->no_need;
    all->refused += tally->refused;
}

/* Books the records of one file. */
static struct tally book_records(struct booking *booking, struct book *book, struct input *input)
{
    struct tally tally = {0, 0, 0};
    struct record record;
    unsigned long number = 0;
    if (input_lacks_ends(input))
        complain(input->name, "there is no CR LF in this file, so it is taken as one record");
    while (input_next(input, &record)) {
        wq_booked booked = book_record(book, &record);
        unsigned long before = tally.refused;
        FILE *again;
        print_answer(stdout, input->name, ++number, &record, &booked, book);
        count_answer(&tally, booked.answer);
        booking->other_article += booked.answer == WQ_DONE && !booked.agreed;
        if (booked.answer == WQ_DONE && !print_parts(stdout, &record))
            booking->parts_untold++;
        again = tally.refused > before ? retold_next(&booking->refused) : NULL;
        if (again != NULL)
            print_answer(again, input->name, number, &record, &booked, book);
    }
    return tally;
}

void warn_of_no_roster(const struct book_file *file, const struct book *book)
{
    if (book->roster->name == NULL)
        complain(file->files.paths[OWN_BOOK], "no roster was named (--roster), so nothing is "
                 "refused for a school or a ceiling");
}

int is_left_out(const struct book_file *file, const char *book, const char *name,
                const char *digest, const struct left_out_words *words)
{
    const char *line = history_of_file(&file->history, book, digest);
    char note[NOTE_ROOM];
    if (line == NULL)
        return 0;
    snprintf(note, sizeof note, "left out: these bytes were %s at %.*s; --again %s", words->done,
             WHEN_WIDTH, line, words->again);
    complain(name, note);
    return 1;
}

/* Books one file. `saved` is the book before it and becomes the book after it. */
static int book_one(struct booking *booking, struct book_file *file, struct book *book,
                    struct input *input, struct saved *saved)
{
    char from[DIGEST_ROOM];
    struct logged_file logged = {input->name, input->digest, book->roster->digest, {0, 0, 0}};
    logged.tally = book_records(booking, book, input);
    strcpy(from, saved->digest);
    add_tally(&booking->all, &logged.tally);
    return book_file_save_bytes(file, book, saved) &&
           history_add_file(&file->history, from, saved->digest, &logged);
}

/* Books one file, or leaves it out. */
static int book_or_leave(struct booking *booking, struct book_file *file, struct book *book,
                         struct input *input, struct saved *saved)
{
    static const struct left_out_words words = {"booked", "books them once more"};
    if (booking->again || !is_left_out(file, saved->digest, input->name, input->digest, &words))
        return book_one(booking, file, book, input, saved);
    booking->left_out++;
    return 1;
}

int booking_run(struct booking *booking, struct book_file *file, struct book *book,
                struct input *inputs, int count, struct saved *saved)
{
    if (!retold_begin(&booking->refused))
        return 0;
    if (count > 0)
        warn_of_no_roster(file, book);
    *saved = file->loaded;
    for (int i = 0; i < count; i++)
        if (!book_or_leave(booking, file, book, &inputs[i], saved))
            return 0;
    return retold_end(&booking->refused);
}

void booking_print_tally(const struct booking *booking)
{
    printf("records: %lu booked, %lu with nothing to book, %lu refused\n", booking->all.booked,
           booking->all.no_need, booking->all.refused);
    if (booking->other_article > 0)
        printf("booked under another article than the order's: %lu\n", booking->other_article);
    if (booking->parts_untold > 0)
        printf("bundles booked whose parts cannot be told: %lu\n", booking->parts_untold);
    if (booking->left_out > 0)
        printf("files booked before, and left out: %lu\n", booking->left_out);
}
