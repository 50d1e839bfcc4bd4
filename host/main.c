/* wizqamul-host: makes orders of wishes, books files of records, and lists what is still open.
 *
 *   wizqamul-host order [OPTION..] BOOK WISHES OUT   an order of each wish, booked and put out
 *   wizqamul-host book [OPTION..] BOOK FILE..   books the records of each FILE, saves, lists
 *   wizqamul-host list BOOK [OPTION..]     books nothing and lists; it writes and locks nothing
 *   wizqamul-host --to-new BOOK OUT        makes of BOOK, of the old form, OUT of the new form
 *   wizqamul-host --to-old BOOK OUT        and back, where no message would be lost
 *
 * Without a word it books, or lists where no FILE is named, and says so. A book that is named
 * as one of the words is written ./book.
 *
 * BOOK is a file that holds a saved book, of the old form or the new; it is saved in the new
 * one. `-` as FILE or WISHES is standard input. Nothing is booked unless every FILE was read to
 * its end, and nothing is saved unless every answer was printed. A FILE whose bytes were booked
 * into this book before is named and left out. Every record meets the roster; without one the
 * program says so, and refuses nothing for it.
 *
 * Options:
 *   --new             makes a new book, with or without a FILE; there must be none yet
 *   --accept-book     takes a book that was not saved here as it stands, now and from now on
 *   --again           books a FILE, or orders WISHES, whose bytes were taken before
 *   --roster ROSTER   books for the schools of this file alone (see roster.h), up to their
 *                     ceilings, and lists open copies against them
 *   --open, --school A, --supplier A, --by school|supplier, --csv
 *                     which lines are listed, and how (see chosen.h)
 * The two moves stand alone: no option goes with them. They leave BOOK and what stands beside it
 * as they are, and make a book OUT that is not there yet (see moving.h).
 *
 * Exit codes:
 *   0  done; each record was booked, or needs no booking (answers 13 and 17)
 *   1  done and saved, but somebody should look: a record or a wish was refused, a FILE or
 *      WISHES left out since it was taken before, the roster names an account twice or no
 *      school at all, no line has the account that was asked for, or orders wait in OUT
 *   2  wrong use, or trouble with a file; the book stands as it was before the run, a move made
 *      no OUT, and no order was put out that the book does not have
 *   3  the book is saved, but what comes after that went wrong (see standard error); orders
 *      that wait are put out by the next run of order
 *
 * Beside BOOK stand BOOK.old (the book before the last run that changed it), BOOK.digests,
 * BOOK.log (see history.h) and BOOK.lock. A killed run may leave a file .wizqamul-new-* there,
 * or .wizqamul-wait-* in OUT (see out_files.h).
 */
#define _XOPEN_SOURCE 700

#include "arguments.h"
#include "booking.h"
#include "ordering.h"
#include "records.h"
#include "run.h"
#include "text.h"

#include <signal.h>
#include <stdlib.h>
#include <string.h>

/* Reads all files before anything is booked; returns how many it could read. */
static int read_all(struct input *inputs, const struct request *request,
                    const struct own_files *own)
{
    size_t left = MOST_INPUT;
    int done = 0;
    while (done < request->count && input_read(&inputs[done], request->names[done], own, &left))
        done++;
    return done;
}

/* The exit code of a run in which nothing failed. */
static enum exit_code code_of(const struct booking *booking, const struct roster *roster)
{
    return booking->all.refused + booking->left_out > 0 || roster_is_doubtful(roster)
           ? WORTH_A_LOOK : ALL_DONE;
}

/* Locks and loads the book, books all files, saves. */
static enum exit_code book_all(struct book_file *file, struct book *book, struct input *inputs,
                               int count, struct booking *booking)
{
    static struct saved saved;
    enum take_result taken;
    if (!book_file_lock(file) || !book_file_load(file, book) ||
        !booking_run(booking, file, book, inputs, count, &saved) || !output_is_out())
        return NOT_SAVED;
    taken = book_file_save(file, &saved);
    if (taken == TAKE_FAILED)
        return NOT_SAVED;
    booking_print_tally(booking);
    if (taken == TAKE_UNCERTAIN)
        return TROUBLE_AFTER_SAVE;
    return code_of(booking, book->roster);
}

/* The last word of a run that failed, on both streams. */
static enum exit_code end_unsaved(const struct book_file *file)
{
    if (file->intent.write) {
        complain(file->files.paths[OWN_BOOK], "nothing was saved");
        printf("nothing was saved: the book stands as it was before this run\n");
    }
    fflush(stdout);
    return NOT_SAVED;
}

/* Lists the book; gives whether somebody should look, which is said on standard error. */
static int list_book(const struct book_file *file, const struct book *book,
                     const struct choice *choice)
{
    int waits = warn_of_waiting(file);
    if (print_listing(book, choice) > 0)
        return waits;
    return warn_of_no_line(file->files.paths[OWN_BOOK], choice) || waits;
}

/* The run with the book's names found and all files read. */
static enum exit_code run(struct book_file *file, struct input *inputs,
                          const struct request *request, const struct roster *roster)
{
    static struct book book;
    struct booking booking;
    enum exit_code code;
    memset(&booking, 0, sizeof booking);
    booking.again = request->again;
    book.roster = roster;
    if (file->intent.write)
        code = book_all(file, &book, inputs, request->count, &booking);
    else
        code = book_file_load(file, &book) ? code_of(&booking, roster) : NOT_SAVED;
    if (code == NOT_SAVED) {
        retold_leave(&booking.refused);
        return end_unsaved(file);
    }
    if (list_book(file, &book, &request->choice) && code == ALL_DONE)
        code = WORTH_A_LOOK;
    retold_print(&booking.refused, "records");
    retold_leave(&booking.refused);
    warn_of_full_rooms(file->files.paths[OWN_BOOK], &book);
    if (!output_is_out())
        code = file->intent.write ? TROUBLE_AFTER_SAVE : NOT_SAVED;
    if (code == TROUBLE_AFTER_SAVE)
        complain(file->files.paths[OWN_BOOK], "the book is saved");
    return code;
}

/* Reads the files and runs. */
static enum exit_code read_and_run(struct book_file *file, const struct request *request,
                                   const struct roster *roster)
{
    struct input *inputs = calloc((size_t)request->count + 1, sizeof *inputs);
    enum exit_code code = NOT_SAVED;
    int count;
    if (inputs == NULL) {
        complain("memory", "there is not enough");
        return NOT_SAVED;
    }
    count = read_all(inputs, request, &file->files);
    if (count == request->count)
        code = run(file, inputs, request, roster);
    else
        complain(request->book, "nothing was booked, since not every file could be read");
    for (int i = 0; i < request->count; i++)
        input_leave(&inputs[i]);
    free(inputs);
    return code;
}

/* The roster comes first: where it is wrong, nothing else is done. */
static enum exit_code run_with_roster(struct book_file *file, const struct request *request)
{
    static struct roster roster;
    if (request->roster != NULL && !roster_read(&roster, request->roster, &file->files)) {
        complain(request->book, "nothing was done, since the roster cannot be used");
        return NOT_SAVED;
    }
    return request->command == ORDER_WISHES ? run_order(file, request, &roster)
                                            : read_and_run(file, request, &roster);
}

/* The last word of a move, on standard output; of one that failed on standard error too. */
static enum exit_code end_move(const struct moving *moving, const struct request *request,
                               enum take_result taken)
{
    enum exit_code code = taken == TAKE_DONE ? ALL_DONE : TROUBLE_AFTER_SAVE;
    if (taken == TAKE_FAILED) {
        complain(request->out, "nothing was written");
        printf("nothing was written: the book stands as it was before this run\n");
        fflush(stdout);
        return NOT_SAVED;
    }
    printf("moved to the %s form: ", request->move->form);
    print_name(stdout, request->out);
    printf(", used: %zu of %d lines, %zu of %d slips\n", moving->book.used[WQ_USED_LINES],
           WQ_MOST_LINES, moving->book.used[WQ_USED_SLIPS], WQ_MOST_SLIPS);
    if (!output_is_out())
        code = TROUBLE_AFTER_SAVE;
    if (code == TROUBLE_AFTER_SAVE)
        complain(request->out, "the book is saved");
    return code;
}

/* Moves a book to the other form. Of OUT nothing is said on a stream that is the book. */
static enum exit_code run_move(const struct request *request)
{
    static struct moving moving;
    enum exit_code code = NOT_SAVED;
    if (moving_find_book(&moving, request->book) &&
        streams_are_others(&moving.from.files, request->book) &&
        moving_find_out(&moving, request->out) &&
        streams_are_others(&moving.to.files, request->out))
        code = end_move(&moving, request, moving_run(&moving, request->move));
    moving_leave(&moving);
    return code;
}

/* The form without a word still works. It is said where no stream is a file of the book. */
static void say_old_form(const struct request *request)
{
    complain(request->book, request->command == LIST_BOOK
             ? "no word says what to do, so it is listed; better say " PROGRAM " list"
             : "no word says what to do, so it is booked; better say " PROGRAM " book");
}

/* Orders, books or lists. */
static enum exit_code run_book(const struct request *request)
{
    static struct book_file file;
    enum exit_code code = NOT_SAVED;
    if (book_file_find(&file, request->book, &request->intent) &&
        streams_are_others(&file.files, request->book)) {
        if (request->without_word)
            say_old_form(request);
        code = run_with_roster(&file, request);
    }
    book_file_leave(&file);
    return code;
}

int main(int argument_count, char **arguments)
{
    struct request request;
    if (!streams_are_open())
        return NOT_SAVED;
    if (!take_arguments(&request, argument_count, arguments)) {
        print_usage(stderr);
        return NOT_SAVED;
    }
    signal(SIGPIPE, SIG_IGN);       /* a failed write is an error that we report, */
    signal(SIGXFSZ, SIG_IGN);       /* and not the end of the program */
    if (request.command == SHOW_HELP) {
        print_usage(stdout);
        return output_is_out() ? ALL_DONE : NOT_SAVED;
    }
    return request.command == MOVE_BOOK ? run_move(&request) : run_book(&request);
}
