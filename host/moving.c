/* Moving a book to the other form. */
#define _XOPEN_SOURCE 700

#include "moving.h"
#include "text.h"
#include "words.h"

#include <stdio.h>
#include <string.h>

enum { NOTE_ROOM = 4 * ACCOUNT_ROOM };

static const struct move moves[] = {
    {"--to-new", wq_to_new, "new",
     "answer 22: this book is of the new form already; --to-old moves it to the old one"},
    {"--to-old", wq_to_old, "old",
     "answer 22: this book is of the old form already; --to-new moves it to the new one"}
};

const struct move *move_named(const char *option)
{
    for (size_t i = 0; i < sizeof moves / sizeof moves[0]; i++)
        if (strcmp(option, moves[i].option) == 0)
            return &moves[i];
    return NULL;
}

/* A file that is there is never written over, least of all the book that is read. */
static int is_free(const struct own_files *own, const char *out)
{
    struct stat status;
    const char *mine = NULL;
    if (lstat(out, &status) != 0)
        return 1;
    if (stat(out, &status) == 0)
        mine = own_files_which(own, &status);
    if (mine == own->paths[OWN_BOOK])
        complain(out, "this is the book that is read, which is never written over");
    else if (mine != NULL)
        complain(out, "this file belongs to the book that is read");
    else
        complain(out, "there is such a file already; a move makes a book that is not there");
    return 0;
}

/* Neither book may need a name that is needed for the other. */
static int names_are_apart(const struct moving *moving, const char *out)
{
    int shared = 0;
    for (int i = 0; i < OWN_COUNT; i++)
        for (int j = 0; j < OWN_COUNT; j++)
            shared |= strcmp(moving->from.files.paths[i], moving->to.files.paths[j]) == 0;
    if (shared)
        complain(out, "the files of this book would have names that the book that is read needs");
    return !shared;
}

int moving_find_book(struct moving *moving, const char *book)
{
    static const struct intent read_only = {0, 0, 0};
    moving->to.lock = -1;
    return book_file_find(&moving->from, book, &read_only);
}

int moving_find_out(struct moving *moving, const char *out)
{
    static const struct intent make_new = {1, 0, 1};
    return is_free(&moving->from.files, out) && book_file_find(&moving->to, out, &make_new) &&
           names_are_apart(moving, out);
}

/* Names a line whose message the old form has no place for; gives 1 where it is one. */
static unsigned long complain_of_message(const char *path, const struct book *book,
                                         const uint8_t *line)
{
    char school[ACCOUNT_ROOM], supplier[ACCOUNT_ROOM], reference[TEXT_ROOM], note[NOTE_ROOM];
    unsigned message = (unsigned)book_figures(book, line).message;
    if (message > WQ_MOST_MESSAGE)
        return 0;
    text_with_qualifier(line + WQ_LINE_SCHOOL, WQ_ADDRESS_WIDTH, school);
    text_with_qualifier(line + WQ_LINE_SUPPLIER, WQ_ADDRESS_WIDTH, supplier);
    text_of(line + WQ_LINE_REFERENCE, WQ_REFERENCE_WIDTH, reference);
    snprintf(note, sizeof note, "message %03u would be lost: school %s, supplier %s, reference %s",
             message, school, supplier, reference);
    complain(path, note);
    return 1;
}

/* Names all lines that would lose their message, and says what can be done. */
static void complain_of_messages(const char *path, const struct book *book)
{
    unsigned long count = 0;
    char note[NOTE_ROOM];
    for (size_t i = 0; i < book->used[WQ_USED_LINES]; i++)
        count += complain_of_message(path, book, book->lines + i * WQ_LINE_WIDTH);
    snprintf(note, sizeof note, "answer 28: %s (lines: %lu); keep it in the new form, or move a "
             "book from before these reports", words_for(WQ_MESSAGE_LOST), count);
    complain(path, note);
}

/* Moves the bytes. The book was loaded, so it is a valid one, and there is room. */
static int move_bytes(struct moving *moving, const struct move *move)
{
    const char *path = moving->from.files.paths[OWN_BOOK];
    const struct saved *loaded = &moving->from.loaded;
    struct saved *moved = &moving->moved;
    wq_saved result = move->call(loaded->bytes, loaded->length, moved->bytes, sizeof moved->bytes);
    if (result.answer == WQ_SAVE_INVALID)
        complain(path, move->already);
    else if (result.answer == WQ_MESSAGE_LOST)
        complain_of_messages(path, &moving->book);
    else if (result.answer != WQ_DONE)
        complain(path, words_for(result.answer));
    moved->length = (size_t)result.length;
    digest_of(moved->bytes, moved->length, moved->digest);
    return result.answer == WQ_DONE;
}

enum take_result moving_run(struct moving *moving, const struct move *move)
{
    if (!book_file_load(&moving->from, &moving->book) || !move_bytes(moving, move))
        return TAKE_FAILED;
    moving->to.files.rights = moving->from.files.rights;
    if (!book_file_lock(&moving->to) ||
        !book_file_begin_moved(&moving->to, &moving->from, &moving->moved))
        return TAKE_FAILED;
    return book_file_save(&moving->to, &moving->moved);
}

void moving_leave(struct moving *moving)
{
    book_file_leave(&moving->from);
    book_file_leave(&moving->to);
}
