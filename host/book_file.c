/* Finding, locking, loading and saving the file of a book. */
#define _XOPEN_SOURCE 700

#include "book_file.h"
#include "text.h"
#include "words.h"

#include <errno.h>
#include <fcntl.h>
#include <stdio.h>
#include <stdlib.h>
#include <string.h>
#include <unistd.h>

enum {
    MODE_BITS = 07777,
    WRITE_BITS = 0222,
    NOTE_ROOM = 6 * ACCOUNT_ROOM
};

/* The path of a book that is not there yet: its directory has to be. */
static char *path_in_directory(const char *name)
{
    const char *slash = strrchr(name, '/');
    const char *last = slash == NULL ? name : slash + 1;
    size_t length = (size_t)(last - name);
    char *asked = malloc(length + 2), *real = NULL, *path = NULL;
    struct stat status;
    if (asked != NULL && *last != '\0' && lstat(name, &status) != 0) {
        snprintf(asked, length + 2, "%.*s", (int)length, length == 0 ? "" : name);
        real = realpath(length == 0 ? "." : asked, NULL);
    } else if (asked != NULL) {
        errno = ENOENT;         /* no name, or a link to nothing */
    }
    if (real != NULL)
        path = malloc(strlen(real) + strlen(last) + 2);
    if (path != NULL)
        sprintf(path, "%s/%s", real, last);
    free(asked);
    free(real);
    return path;
}

/* All files of a book have the book's rights. */
static void take_rights(struct rights *rights, const struct stat *status)
{
    rights->given = 1;
    rights->owner = status->st_uid;
    rights->group = status->st_gid;
    rights->mode = status->st_mode & MODE_BITS;
}

/* Why a book that is there cannot serve, or NULL. A run that writes asks for the right to
   write before it touches anything; where nobody has it, not even the superuser gets it. */
static const char *trouble_with(const struct intent *intent, const char *name,
                                const struct stat *status)
{
    if (!S_ISREG(status->st_mode))
        return "the book is not an ordinary file";
    if (intent->make_new)
        return "there is such a book already; --new makes a book that is not there";
    if (intent->write && ((status->st_mode & WRITE_BITS) == 0 || access(name, W_OK) != 0))
        return "the book is write-protected";
    return NULL;
}

/* What is known of the book before it is opened. A new book gets the rights that the umask
   leaves, as any new file does. */
static int judge_book(struct book_file *file, const char *name, int exists)
{
    struct stat status;
    const char *trouble = NULL;
    file->files.rights = rights_of_umask();
    if (!exists && !file->intent.make_new)
        trouble = "there is no such book; --new makes a new one";
    if (exists && stat(name, &status) != 0) {
        complain_system(name, "cannot look at the book");
        return 0;
    }
    if (exists) {
        trouble = trouble_with(&file->intent, name, &status);
        take_rights(&file->files.rights, &status);
    }
    if (trouble != NULL)
        complain(name, trouble);
    return trouble == NULL;
}

/* Follows symbolic links, so that a new book replaces the file and not the link, and so
   that two names of one book share one lock. */
int book_file_find(struct book_file *file, const char *name, const struct intent *intent)
{
    char *path = realpath(name, NULL);
    int exists = path != NULL, named;
    memset(file, 0, sizeof *file);
    file->lock = -1;
    file->intent = *intent;
    if (path == NULL && errno == ENOENT)
        path = path_in_directory(name);
    if (path == NULL) {
        complain_system(name, "cannot find the book or its directory");
        return 0;
    }
    file->files.book_is_new = intent->make_new;
    named = own_files_name(&file->files, path);
    free(path);
    if (!named)
        complain(name, "out of memory");
    return named && judge_book(file, name, exists);
}

/* Two runs that book must not meet: the later one would undo the earlier one's work. The
   lock file stays; the system gives the lock back when the run ends, however it ends. */
int book_file_lock(struct book_file *file)
{
    const char *path = file->files.paths[OWN_LOCK];
    struct flock whole;
    struct stat status;
    file->lock = own_files_open_lock(&file->files);
    if (file->lock < 0 || fstat(file->lock, &status) != 0) {
        complain_system(path, "cannot open the lock file");
        return 0;
    }
    if (!S_ISREG(status.st_mode)) {
        complain(path, "the lock file is not an ordinary file");
        return 0;
    }
    memset(&whole, 0, sizeof whole);
    whole.l_type = F_WRLCK;
    whole.l_whence = SEEK_SET;
    if (fcntl(file->lock, F_SETLK, &whole) == 0)
        return 1;
    if (errno == EACCES || errno == EAGAIN)
        complain(file->files.paths[OWN_BOOK],
                 "another run is booking into this book; try again later");
    else
        complain_system(path, "cannot lock");
    return 0;
}

/* What has to be right about the file before its bytes are looked at. A run that writes wants
   a book that has no second name: a new book would take only one of the two. */
static int judge_file(struct book_file *file, const struct stat *status)
{
    const char *trouble = NULL;
    if (!S_ISREG(status->st_mode))
        trouble = "the book is not an ordinary file";
    else if (file->intent.write && status->st_nlink > 1)
        trouble = "the book has a second name (a hard link), which would keep the old book; "
                  "make a copy of its own for one of them";
    else if (status->st_size > LONGEST_SAVE)
        trouble = "no book is as long as this file; it is left untouched";
    if (trouble != NULL)
        complain(file->files.paths[OWN_BOOK], trouble);
    take_rights(&file->files.rights, status);
    return trouble == NULL;
}

/* Reads the bytes of a saved book. */
static int read_saved(const char *path, int from, struct saved *saved)
{
    struct bytes bytes;
    if (!whole_read(from, LONGEST_SAVE, &bytes)) {
        complain_system(path, "cannot read the book");
        return 0;
    }
    memcpy(saved->bytes, bytes.start, bytes.length);
    saved->length = bytes.length;
    digest_of(saved->bytes, saved->length, saved->digest);
    free(bytes.start);
    return 1;
}

/* Opens and reads the book. */
static int read_book(struct book_file *file)
{
    const char *path = file->files.paths[OWN_BOOK];
    int done, from = own_files_open(&file->files, OWN_BOOK);
    struct stat status;
    if (from < 0) {
        complain_system(path, "cannot open the book");
        return 0;
    }
    done = fstat(from, &status) == 0;
    if (!done)
        complain_system(path, "cannot look at the book");
    done = done && judge_file(file, &status) && read_saved(path, from, &file->loaded);
    close(from);
    return done;
}

/* The first bytes tell a file of records: no saved book begins with a letter. */
static int is_record_file(const struct saved *saved)
{
    static const char *const kinds[] = {WQ_KIND_ORDER, WQ_KIND_DELIVERY, WQ_KIND_REPORT};
    int found = 0;
    for (size_t i = 0; i < sizeof kinds / sizeof kinds[0]; i++)
        found |= saved->length >= WQ_KIND_WIDTH &&
                 memcmp(saved->bytes, kinds[i], WQ_KIND_WIDTH) == 0;
    return found;
}

/* Whether the book is one that was saved here, or is taken on purpose. */
static int judge_digest(struct book_file *file)
{
    const char *path = file->files.paths[OWN_BOOK];
    if (is_record_file(&file->loaded)) {
        complain(path, "this is a file of records and not a book; the book comes first");
        return 0;
    }
    if (history_knows_book(&file->history, file->loaded.digest))
        return 1;
    if (file->intent.accept) {
        complain(path, "this book was not saved here as it stands; it is taken on purpose");
        return 1;
    }
    complain(path, file->history.digests.length == 0
             ? "there are no digests beside this book that tell whether it is whole; "
               "--accept-book takes it as it is"
             : "this is none of the books that were saved here: it is damaged, or was brought "
               "from elsewhere; --accept-book takes it as it is");
    return 0;
}

int saved_is_old(const struct saved *saved)
{
    return saved->length > 0 && saved->bytes[0] == WQ_SAVE_OLD_LINE;
}

/* How many whole lines of the old form stand at the front of a saved book, valid or not. */
static size_t count_old_lines(const struct saved *saved)
{
    size_t count = 0;
    while ((count + 1) * WQ_SAVE_OLD_LINE_WIDTH <= saved->length &&
           saved->bytes[count * WQ_SAVE_OLD_LINE_WIDTH] == WQ_SAVE_OLD_LINE)
        count++;
    return count;
}

/* A saved line of the old form behind its byte of kind. */
static const uint8_t *old_line_at(const struct saved *saved, size_t index)
{
    return saved->bytes + index * WQ_SAVE_OLD_LINE_WIDTH + 1;
}

/* Names two saved lines that share a key. */
static void complain_of_shared(const char *path, const uint8_t *first, const uint8_t *second)
{
    char school[ACCOUNT_ROOM], supplier[ACCOUNT_ROOM], reference[TEXT_ROOM];
    char one[ACCOUNT_ROOM], other[ACCOUNT_ROOM], note[NOTE_ROOM];
    text_with_qualifier(first + WQ_LINE_SCHOOL, WQ_ADDRESS_WIDTH, school);
    text_with_qualifier(first + WQ_LINE_SUPPLIER, WQ_ADDRESS_WIDTH, supplier);
    text_of(first + WQ_LINE_REFERENCE, WQ_REFERENCE_WIDTH, reference);
    text_with_qualifier(first + WQ_LINE_ARTICLE, WQ_ARTICLE_WIDTH, one);
    text_with_qualifier(second + WQ_LINE_ARTICLE, WQ_ARTICLE_WIDTH, other);
    snprintf(note, sizeof note, "reference %s of school %s and supplier %s stands in this book "
             "for %s and for %s", reference, school, supplier, one, other);
    complain(path, note);
}

/* Tells why a book is no valid save, as far as that is easily seen. Two orders could share
   school, supplier and reference as long as the article was a part of a line's key, so a book
   of that time, which is of the old form, may be refused though nothing happened to it. */
static void complain_of_invalid(const char *path, const struct saved *saved)
{
    size_t count = count_old_lines(saved), shared = 0;
    for (size_t i = 0; i < count; i++) {
        size_t first = 0;
        while (memcmp(old_line_at(saved, first), old_line_at(saved, i), WQ_LINE_KEY_WIDTH) != 0)
            first++;
        if (first == i)
            continue;
        complain_of_shared(path, old_line_at(saved, first), old_line_at(saved, i));
        shared++;
    }
    complain(path, shared == 0
             ? "answer 22: the book is damaged; it is left untouched"
             : "answer 22: the book is damaged, or was saved when two orders could share "
               "school, supplier and reference; it is left untouched");
}

/* Hands the file's bytes to the library and tells what a refusal means. */
static int load_bytes(const struct book_file *file, struct book *book)
{
    const char *path = file->files.paths[OWN_BOOK];
    wq_loaded loaded = wq_load(file->loaded.bytes, file->loaded.length, book->lines,
                               sizeof book->lines, book->slips, sizeof book->slips, book->used);
    if (loaded.answer == WQ_SAVE_INVALID)
        complain_of_invalid(path, &file->loaded);
    else if (loaded.answer == WQ_TOO_SMALL)
        complain(path, "answer 23: the book has more than 512 lines or 1024 slips; "
                       "it is left untouched");
    else if (loaded.answer != WQ_DONE)
        complain(path, words_for(loaded.answer));
    return loaded.answer == WQ_DONE;
}

/* BOOK.old is replaced at the next save, so it has to be a book that was saved here. */
static int judge_old(const struct book_file *file)
{
    static struct saved old;
    const char *path = file->files.paths[OWN_OLD];
    int from = own_files_open(&file->files, OWN_OLD), read;
    if (from < 0 && errno == ENOENT)
        return 1;
    if (from < 0) {
        complain_system(path, "cannot open");
        return 0;
    }
    read = read_saved(path, from, &old);
    close(from);
    if (read && !history_knows_book(&file->history, old.digest)) {
        complain(path, "this is not a book that was saved here, and the name is needed for "
                       "the book before the last run; move it away");
        read = 0;
    }
    return read;
}

/* A book that is taken on purpose is known from now on. */
static int accept_book(struct book_file *file)
{
    if (!file->intent.accept || history_knows_book(&file->history, file->loaded.digest))
        return 1;
    return history_add_digest(&file->history, file->loaded.digest) &&
           history_add_accepted(&file->history, file->loaded.digest) &&
           history_write_digests(&file->history, &file->files) &&
           history_write_log(&file->history, &file->files) &&
           own_files_take(&file->files) == TAKE_DONE;
}

/* The name of a new book has to be free still, now that it is locked; what stands beside it
   may be of an earlier book of this name. */
static int begin_book(struct book_file *file)
{
    struct stat status;
    if (lstat(file->files.paths[OWN_BOOK], &status) == 0) {
        complain(file->files.paths[OWN_BOOK], "somebody else made this book just now");
        return 0;
    }
    return history_read(&file->history, &file->files) && judge_old(file);
}

/* A new book is empty, and its past begins with this run. */
static int begin_new(struct book_file *file, struct book *book)
{
    return begin_book(file) && book_file_save_bytes(file, book, &file->loaded) &&
           history_add_new(&file->history, file->loaded.digest);
}

int book_file_begin_moved(struct book_file *file, const struct book_file *from,
                          const struct saved *saved)
{
    return begin_book(file) && history_add_past(&file->history, &from->history) &&
           history_add_moved(&file->history, from->loaded.digest, saved->digest);
}

/* The book is read before the digests: its own stands there before it takes its name. */
int book_file_load(struct book_file *file, struct book *book)
{
    book->used[WQ_USED_LINES] = 0;
    book->used[WQ_USED_SLIPS] = 0;
    if (file->intent.make_new)
        return begin_new(file, book);
    if (!read_book(file) || !history_read(&file->history, &file->files) ||
        !judge_digest(file) || !load_bytes(file, book))
        return 0;
    if (!file->intent.write)
        return 1;
    if (!judge_old(file) || !accept_book(file))
        return 0;
    history_judge(&file->history, &file->files, file->loaded.digest);
    return 1;
}

int book_file_save_bytes(const struct book_file *file, const struct book *book,
                         struct saved *saved)
{
    wq_saved result = wq_save(book->lines, sizeof book->lines, book->slips, sizeof book->slips,
                              book->used, saved->bytes, sizeof saved->bytes);
    if (result.answer != WQ_DONE) {
        complain(file->files.paths[OWN_BOOK], words_for(result.answer));
        return 0;
    }
    saved->length = (size_t)result.length;
    digest_of(saved->bytes, saved->length, saved->digest);
    return 1;
}

/* Writes all new files; none has taken its name yet. A book whose saved bytes did not change
   stays, and so does the one before it. */
static int write_all(struct book_file *file, const struct saved *saved)
{
    struct own_files *files = &file->files;
    if (!history_write_log(&file->history, files))
        return 0;
    if (!file->intent.make_new && strcmp(saved->digest, file->loaded.digest) == 0)
        return 1;
    if (!file->intent.make_new &&
        !own_files_write(files, OWN_OLD, file->loaded.bytes, file->loaded.length))
        return 0;
    return history_add_digest(&file->history, saved->digest) &&
           history_write_digests(&file->history, files) &&
           own_files_write(files, OWN_BOOK, saved->bytes, saved->length);
}

enum take_result book_file_save(struct book_file *file, const struct saved *saved)
{
    enum take_result result = TAKE_FAILED;
    if (write_all(file, saved))
        result = own_files_take(&file->files);
    if (result == TAKE_FAILED)
        return result;
    if (file->intent.make_new)
        complain(file->files.paths[OWN_BOOK], "a new book was made");
    else if (saved_is_old(&file->loaded) && !saved_is_old(saved))
        complain(file->files.paths[OWN_BOOK], "the book was of the old form and is now of the "
                 "new one, which keeps messages");
    return result;
}

void book_file_leave(struct book_file *file)
{
    own_files_leave(&file->files);
    history_leave(&file->history);
    if (file->lock >= 0)
        close(file->lock);
}
