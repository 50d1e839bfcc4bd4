/* Writing the suppliers' files, and putting them out. */
#define _XOPEN_SOURCE 700

#include "out_files.h"
#include "text.h"

#include <dirent.h>
#include <errno.h>
#include <fcntl.h>
#include <stdlib.h>
#include <string.h>
#include <time.h>
#include <unistd.h>

enum {
    SUPPLIER_AT = WQ_KIND_WIDTH + ACCOUNT_WIDTH,    /* in an order */
    MARK_ROOM = 160,            /* what a run is told apart by, as text */
    MOST_FILE = WQ_MOST_LINES * (WQ_MOST_RECORD + 2),
    DIGITS_AT = sizeof WAIT_HEAD + RUN_DIGITS,      /* in the name of a file that waits */
    OWN_NAME_AT = DIGITS_AT + FILE_DIGITS + 1
};

static int lacks_memory(void)
{
    complain("memory", "there is not enough");
    return 0;
}

/* Opens a directory that is there. */
static int open_out(const char *path)
{
    return open(path, O_RDONLY | O_DIRECTORY | O_CLOEXEC);
}

int out_files_open(struct out_files *out, const char *name)
{
    memset(out, 0, sizeof *out);
    out->name = name;
    out->directory = open_out(name);
    if (out->directory >= 0)
        out->waiting.directory = realpath(name, NULL);
    if (out->waiting.directory == NULL)
        complain_system(name, "cannot open the directory for the orders");
    return out->waiting.directory != NULL;
}

/* The file of a supplier; a new one where there is none yet, NULL without memory. */
static struct out_file *file_for(struct out_files *out, const uint8_t *account)
{
    struct out_file *file = out->files;
    while (file < out->files + out->count && memcmp(file->account, account, ACCOUNT_WIDTH) != 0)
        file++;
    if (file < out->files + out->count)
        return file;
    memcpy(file->account, account, ACCOUNT_WIDTH);
    file->stream = open_memstream(&file->text, &file->length);
    if (file->stream == NULL)
        return NULL;
    out->count++;
    return file;
}

int out_files_add(struct out_files *out, const struct record *order)
{
    struct out_file *file = file_for(out, order->bytes + SUPPLIER_AT);
    if (file == NULL)
        return lacks_memory();
    fwrite(order->bytes, 1, order->length, file->stream);
    fputs("\r\n", file->stream);
    return fflush(file->stream) == 0 || lacks_memory();
}

/* No two runs have the same mark, so what one left is never taken for what another left. */
static void mark_run(struct out_files *out, const char *book)
{
    char mark[MARK_ROOM], digest[DIGEST_ROOM];
    struct timespec now = {0, 0};
    clock_gettime(CLOCK_REALTIME, &now);
    snprintf(mark, sizeof mark, "%lld %ld %ld %s", (long long)now.tv_sec, now.tv_nsec,
             (long)getpid(), book);
    digest_of((const uint8_t *)mark, strlen(mark), digest);
    snprintf(out->waiting.run, RUN_ROOM, "%.*s", RUN_DIGITS, digest);
}

/* Addresses hold no blanks but at their end, and nothing that is special in a name. */
static void name_file(const struct out_files *out, struct out_file *file, const char *book)
{
    const char *account = (const char *)file->account;
    char digest[DIGEST_ROOM];
    int letters = WQ_ADDRESS_WIDTH;
    while (letters > 0 && account[letters - 1] == ' ')
        letters--;
    snprintf(file->name, sizeof file->name, "%.*s-%.*s-%.*s.bwa", letters, account,
             WQ_QUALIFIER_WIDTH, account + WQ_ADDRESS_WIDTH, BOOK_DIGITS, book);
    digest_of((const uint8_t *)file->text, file->length, digest);
    snprintf(file->wait, sizeof file->wait, WAIT_HEAD "%s-%.*s-%s", out->waiting.run, FILE_DIGITS,
             digest, file->name);
}

/* A file of this name has these orders already: the book was taken back since, or is a copy. */
static int is_free(const struct out_files *out, const char *name)
{
    struct stat status;
    int there = fstatat(out->directory, name, &status, AT_SYMLINK_NOFOLLOW) == 0;
    if (!there && errno == ENOENT)
        return 1;
    if (there)
        complain(name, "there is such a file already: these orders were put out before, by this "
                 "book or one like it; where it was not sent, move it away");
    else
        complain_system(name, "cannot see whether there is such a file of orders");
    return 0;
}

/* Writes one file, which waits then. */
static int write_file(const struct out_files *out, struct out_file *file)
{
    struct rights rights = rights_of_umask();
    int to = fresh_open(out->directory, file->wait);
    if (to < 0) {
        complain_system(out->name, "cannot make a new file");
        return 0;
    }
    file->waits = 1;
    if (fresh_fill(to, &rights, (const uint8_t *)file->text, file->length))
        return 1;
    complain_system(out->name, "cannot write a file of orders");
    return 0;
}

int out_files_wait(struct out_files *out, const char *book)
{
    mark_run(out, book);
    for (size_t i = 0; i < out->count; i++) {
        struct out_file *file = &out->files[i];
        name_file(out, file, book);
        if (!is_free(out, file->name) || !write_file(out, file))
            return 0;
    }
    return directory_sync(out->directory, out->name);
}

void out_files_keep(struct out_files *out)
{
    for (size_t i = 0; i < out->count; i++)
        out->files[i].waits = 0;
}

/* Names of files that wait. They are collected before the first of them changes. */
struct names { char **start; size_t count; };

static void leave_names(struct names *names)
{
    for (size_t i = 0; i < names->count; i++)
        free(names->start[i]);
    free(names->start);
}

/* Adds a name; 0 with errno set without memory. */
static int add_name(struct names *names, const char *name)
{
    char **start = realloc(names->start, (names->count + 1) * sizeof *start);
    if (start == NULL)
        return 0;
    names->start = start;
    start[names->count] = strdup(name);
    return start[names->count] != NULL && ++names->count > 0;
}

/* Collects the names in a directory that begin with a head; 0 with errno set. */
static int collect(DIR *listed, const char *head, struct names *names)
{
    const struct dirent *entry;
    errno = 0;
    while ((entry = readdir(listed)) != NULL) {
        if (strncmp(entry->d_name, head, strlen(head)) == 0 && !add_name(names, entry->d_name))
            return 0;
        errno = 0;
    }
    return errno == 0;
}

/* The own name of a file that waits; an empty one where its name is too short to have one. */
static const char *own_name(const char *wait)
{
    size_t length = strlen(wait);
    return wait + (length < OWN_NAME_AT ? length : OWN_NAME_AT);
}

static int compare_names(const void *one, const void *other)
{
    return strcmp(own_name(*(char *const *)one), own_name(*(char *const *)other));
}

/* The names of all files that wait of a run, in the order of their own names; returns 0, and has
   said why, where it cannot. */
static int find_waiting(int directory, const struct waiting *waiting, const char *head,
                        struct names *names)
{
    int open = openat(directory, ".", O_RDONLY | O_DIRECTORY | O_CLOEXEC);
    DIR *listed = open < 0 ? NULL : fdopendir(open);
    int found = listed != NULL && collect(listed, head, names);
    if (!found)
        complain_system(waiting->directory, "cannot look for the orders that wait");
    if (listed != NULL)
        closedir(listed);
    else if (open >= 0)
        close(open);
    if (names->count > 0)
        qsort(names->start, names->count, sizeof *names->start, compare_names);
    return found;
}

/* Reads a file that waits; returns 0, and has said why, where it cannot. */
static int read_waiting(int directory, const char *wait, struct input *input)
{
    int from = openat(directory, wait, O_RDONLY | O_NOFOLLOW | O_NONBLOCK | O_CLOEXEC);
    int done;
    memset(input, 0, sizeof *input);
    done = from >= 0 && whole_read(from, MOST_FILE, &input->bytes);
    if (!done)
        complain_system(wait, "cannot read this file of orders that waits");
    if (from >= 0)
        close(from);
    return done;
}

/* Whether the book has every order of a file that waits; gives how many they are. */
static int book_has_orders(struct input *input, const char *wait, const struct book *book,
                           unsigned long *orders)
{
    struct record order;
    for (*orders = 0; input_next(input, &order); ++*orders) {
        if (book_has_order(book, &order))
            continue;
        complain(wait, "this file waits with an order that the book does not have, so it is not "
                 "put out; move it away");
        return 0;
    }
    return 1;
}

/* Whether a file that waits is as it was written, as the digits in its name tell: no order is
   lost. */
static int is_as_written(const struct input *input, const char *wait)
{
    char digest[DIGEST_ROOM];
    digest_of(input->bytes.start, input->bytes.length, digest);
    if (*own_name(wait) != '\0' && strncmp(digest, wait + DIGITS_AT, FILE_DIGITS) == 0)
        return 1;
    complain(wait, "this file of orders waits and is not as it was written, so it is not put out");
    return 0;
}

/* Whether a file that waits may be put out. */
static int may_be_put(int directory, const char *wait, const struct book *book,
                      unsigned long *orders)
{
    struct input input;
    int fine = read_waiting(directory, wait, &input) &&
               book_has_orders(&input, wait, book, orders) && is_as_written(&input, wait);
    input_leave(&input);
    return fine;
}

/* Whether two names are those of one file: a run was killed while it had both. */
static int is_same(int directory, const char *one, const char *other)
{
    struct stat first, second;
    return fstatat(directory, one, &first, AT_SYMLINK_NOFOLLOW) == 0 &&
           fstatat(directory, other, &second, AT_SYMLINK_NOFOLLOW) == 0 &&
           first.st_dev == second.st_dev && first.st_ino == second.st_ino;
}

/* A file that waits takes its own name. */
static int take_own_name(int directory, const char *wait, const char *name)
{
    if (fresh_take_free(directory, wait, name))
        return 1;
    if (errno == EEXIST && is_same(directory, wait, name) && unlinkat(directory, wait, 0) == 0)
        return 1;
    complain_system(name, "cannot put out this file of orders, which waits");
    return 0;
}

/* Puts out one file. */
static int put_file(int directory, const struct waiting *waiting, const char *wait,
                    const struct book *book)
{
    const char *name = own_name(wait);
    unsigned long orders;
    if (!may_be_put(directory, wait, book, &orders) || !take_own_name(directory, wait, name))
        return 0;
    print_name(stdout, waiting->directory);
    printf("/%s: %lu order%s put out\n", name, orders, orders == 1 ? "" : "s");
    return 1;
}

int out_files_put(int directory, const struct waiting *waiting, const struct book *book,
                  size_t *count)
{
    char head[WAIT_NAME_ROOM];
    struct names names = {NULL, 0};
    int put;
    snprintf(head, sizeof head, WAIT_HEAD "%s-", waiting->run);
    put = find_waiting(directory, waiting, head, &names);
    for (size_t i = 0; put && i < names.count; i++)
        put = put_file(directory, waiting, names.start[i], book);
    *count = names.count;
    leave_names(&names);
    return put && directory_sync(directory, waiting->directory);
}

int out_files_put_late(const struct waiting *waiting, const struct book *book, size_t *count)
{
    int directory = open_out(waiting->directory), put;
    if (directory < 0) {
        complain_system(waiting->directory, "orders of an earlier run wait in this directory, "
                        "which cannot be opened");
        return 0;
    }
    put = out_files_put(directory, waiting, book, count);
    close(directory);
    return put;
}

void out_files_leave(struct out_files *out)
{
    for (size_t i = 0; i < out->count; i++) {
        struct out_file *file = &out->files[i];
        if (file->waits)
            unlinkat(out->directory, file->wait, 0);
        fclose(file->stream);
        free(file->text);
    }
    if (out->directory >= 0)
        close(out->directory);
    free(out->waiting.directory);
}
