/* A run that makes orders of wishes. */
#define _XOPEN_SOURCE 700

#include "ordering.h"
#include "booking.h"
#include "out_files.h"
#include "text.h"
#include "wish_record.h"
#include "words.h"

#include <stdlib.h>
#include <string.h>
#include <time.h>

struct ordering {
    struct book_file *file;
    struct book book;
    struct wish_list list;
    struct out_files out;
    struct retold refused;      /* wishes that are told again at the end */
    struct tally tally;
    char today[WQ_DATE_WIDTH + 1];
    int left_out;               /* these wishes were ordered before */
    int late;                   /* orders of an earlier run were put out */
    struct saved saved;         /* the book with the orders */
};

/* The day at the desk. */
static int find_today(struct ordering *ordering)
{
    time_t now = time(NULL);
    const struct tm *parts = localtime(&now);
    if (parts != NULL && strftime(ordering->today, sizeof ordering->today, "%Y%m%d", parts) > 0)
        return 1;
    complain("today", "the system does not tell the date");
    return 0;
}

/* Books the record of a wish, and prints what came of it. */
static int book_order(struct ordering *ordering, const struct order *order, FILE *to,
                      int *accepted)
{
    struct record record = {order->bytes, order->length};
    wq_booked booked = book_record(&ordering->book, &record);
    print_outcome(to, &record, &booked, &ordering->book);
    print_column_of(to, booked.answer);
    *accepted = booked.answer == WQ_DONE;
    return !*accepted || out_files_add(&ordering->out, &record);
}

/* Orders one wish, and prints what came of it. Gives 0, and has said why, where the run cannot
   go on. */
static int order_wish(struct ordering *ordering, const struct wish *wish, FILE *to,
                      int *accepted)
{
    struct order order;
    switch (wish_record(&ordering->list, wish, ordering->today, &order, to)) {
    case WISH_REFUSED:
        return 1;
    case WISH_WRITTEN:
        return book_order(ordering, &order, to, accepted);
    default:
        complain(ordering->list.name, "a record does not read back as it was written");
        return 0;
    }
}

/* One line for a wish, on standard output and, where it is refused, among what is told again. */
static void tell_wish(struct ordering *ordering, const struct wish *wish,
                      int accepted, const char *told)
{
    FILE *streams[] = {stdout, accepted ? NULL : retold_next(&ordering->refused)};
    for (size_t i = 0; i < sizeof streams / sizeof streams[0] && streams[i] != NULL; i++) {
        print_name(streams[i], ordering->list.name);
        fprintf(streams[i], ":%lu %s%s\n", wish->line, accepted ? "" : "refused: ", told);
    }
}

/* Orders one wish, tells it and counts it. */
static int take_wish(struct ordering *ordering, const struct wish *wish)
{
    char *told = NULL;
    size_t length = 0;
    FILE *to = open_memstream(&told, &length);
    int accepted = 0, kept, done = to != NULL && order_wish(ordering, wish, to, &accepted);
    kept = to != NULL && fclose(to) == 0;
    if (!kept)
        complain("memory", "there is not enough");
    else if (done)
        tell_wish(ordering, wish, accepted, told);
    ordering->tally.booked += accepted != 0;
    ordering->tally.refused += accepted == 0;
    free(told);
    return done && kept;
}

/* Orders all wishes into the book in memory. */
static int take_wishes(struct ordering *ordering)
{
    struct wish wish;
    warn_of_no_roster(ordering->file, &ordering->book);
    while (wish_list_next(&ordering->list, &wish))
        if (!take_wish(ordering, &wish))
            return 0;
    return retold_end(&ordering->refused) &&
           book_file_save_bytes(ordering->file, &ordering->book, &ordering->saved);
}

/* Adds to the log what this run did: the wishes, and where their orders wait. */
static int log_orders(struct ordering *ordering)
{
    struct history *history = &ordering->file->history;
    const char *to = ordering->saved.digest;
    struct logged_file logged = {ordering->list.name, ordering->list.digest,
                                 ordering->book.roster->digest, ordering->tally};
    return history_add_file(history, ordering->file->loaded.digest, to, &logged) &&
           (ordering->out.count == 0 ||
            history_add_waiting(history, to, &ordering->out.waiting));
}

/* Adds to the log that the orders of a run are out, which nothing else changes. */
static int log_out(struct book_file *file, const char *book, const char *run)
{
    return history_add_out(&file->history, book, run) &&
           history_write_log(&file->history, &file->files) &&
           own_files_take(&file->files) == TAKE_DONE;
}

/* Puts out the orders of this run, now that the book has them. */
static int put_out(struct ordering *ordering)
{
    struct out_files *out = &ordering->out;
    size_t count = 0;
    if (out->count == 0)
        return 1;
    if (!out_files_put(out->directory, &out->waiting, &ordering->book, &count))
        return 0;
    if (count == out->count)
        return log_out(ordering->file, ordering->saved.digest, out->waiting.run);
    complain(out->name, "not all files of orders are there any more");
    return 0;
}

/* Puts out what waits of an earlier run, which was cut off after its book was in place. That
   book has to be on the disk first. */
static int put_earlier(struct ordering *ordering)
{
    struct book_file *file = ordering->file;
    struct waiting waiting;
    size_t count = 0;
    int done = history_waiting(&file->history, file->loaded.digest, &waiting);
    if (done && waiting.run[0] != '\0') {
        ordering->late = 1;
        complain(waiting.directory, "orders of an earlier run wait here, and are put out first");
        done = own_files_sync(&file->files) &&
               out_files_put_late(&waiting, &ordering->book, &count) &&
               log_out(file, file->loaded.digest, waiting.run);
        if (done && count == 0)
            complain(waiting.directory, "none is left here that waits: all had been put out");
    }
    free(waiting.directory);
    return done;
}

/* Locks and loads the book, and orders the wishes in memory; nothing is saved yet. */
static int prepare(struct ordering *ordering, const struct request *request)
{
    static const struct left_out_words words = {"ordered", "orders what the book does not have"};
    struct book_file *file = ordering->file;
    if (!retold_begin(&ordering->refused) || !find_today(ordering) || !book_file_lock(file) ||
        !book_file_load(file, &ordering->book) || !put_earlier(ordering))
        return 0;
    ordering->left_out = !request->again && is_left_out(file, file->loaded.digest,
                                                        ordering->list.name,
                                                        ordering->list.digest, &words);
    return ordering->left_out || take_wishes(ordering);
}

static void print_tally(const struct ordering *ordering)
{
    printf("wishes: %lu ordered, %lu refused\n", ordering->tally.booked,
           ordering->tally.refused);
}

/* Saves the book and puts out its orders. */
static enum exit_code save_and_put(struct ordering *ordering)
{
    enum take_result taken;
    if (!output_is_out() ||
        (ordering->out.count > 0 && !out_files_wait(&ordering->out, ordering->saved.digest)) ||
        !log_orders(ordering))
        return NOT_SAVED;
    taken = book_file_save(ordering->file, &ordering->saved);
    if (taken == TAKE_FAILED)
        return NOT_SAVED;
    out_files_keep(&ordering->out);
    print_tally(ordering);
    if (taken == TAKE_DONE && put_out(ordering))
        return ALL_DONE;
    if (ordering->out.count > 0)
        complain(ordering->out.name, "orders may wait here that are not put out; the same "
                 "command again puts them out");
    return TROUBLE_AFTER_SAVE;
}

/* The exit code of a run in which nothing failed. */
static enum exit_code code_of(const struct ordering *ordering)
{
    return ordering->tally.refused > 0 || ordering->left_out || ordering->late ||
           ordering->list.doubtful || roster_is_doubtful(ordering->book.roster)
           ? WORTH_A_LOOK : ALL_DONE;
}

/* The last words of a run. */
static enum exit_code end_order(struct ordering *ordering, enum exit_code code)
{
    const char *path = ordering->file->files.paths[OWN_BOOK];
    if (code == NOT_SAVED) {
        complain(path, "nothing was saved, and nothing new was ordered");
        printf("nothing was saved: the book stands as it was before this run\n");
        fflush(stdout);
        return code;
    }
    retold_print(&ordering->refused, "wishes");
    warn_of_full_rooms(path, &ordering->book);
    if (!output_is_out())
        code = TROUBLE_AFTER_SAVE;
    if (code == TROUBLE_AFTER_SAVE)
        complain(path, "the book is saved");
    return code == ALL_DONE ? code_of(ordering) : code;
}

enum exit_code run_order(struct book_file *file, const struct request *request,
                         const struct roster *roster)
{
    static struct ordering ordering;
    enum exit_code code = NOT_SAVED;
    ordering.file = file;
    ordering.book.roster = roster;
    ordering.out.directory = -1;
    if (!out_files_open(&ordering.out, request->out) ||
        !wish_list_read(&ordering.list, request->names[0], &file->files)) {
        complain(request->book, "nothing was done");
    } else {
        if (prepare(&ordering, request))
            code = ordering.left_out ? ALL_DONE : save_and_put(&ordering);
        code = end_order(&ordering, code);
    }
    retold_leave(&ordering.refused);
    wish_list_leave(&ordering.list);
    out_files_leave(&ordering.out);
    return code;
}

int warn_of_waiting(const struct book_file *file)
{
    struct waiting waiting;
    int some = history_waiting(&file->history, file->loaded.digest, &waiting) &&
               waiting.run[0] != '\0';
    if (some)
        complain(waiting.directory, "orders of this book wait here and are not put out yet; "
                 PROGRAM " order puts them out");
    free(waiting.directory);
    return some;
}
