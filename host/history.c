/* Reading and adding to the digests and the log of a book. */
#define _XOPEN_SOURCE 700

#include "history.h"
#include "text.h"

#include <errno.h>
#include <stdio.h>
#include <stdlib.h>
#include <string.h>
#include <time.h>
#include <unistd.h>

#define DIGESTS_HEAD "# wizqamul-host: digests (SHA-256) of the books saved under this name.\n"
#define LOG_HEAD "# wizqamul-host: files booked into this book. Lines are added, never changed.\n"
#define FROM_NEW "new"
#define FROM_ANY "any"
#define WAIT_IN "wait in "

enum {
    MOST_TEXT = 1 << 28,        /* no text beside a book grows as long as this */
    WHEN_DIGITS = 20,           /* 2024-02-26T08:15:00Z */
    SHORT_DIGITS = 16,          /* digits by which the log names a book */
    SHORT_ROOM = SHORT_DIGITS + 1
};

/* Bytes 0 would end a text before its end; damage must not hide the lines behind it. */
static void blank_zeros(struct bytes *text)
{
    for (size_t i = 0; i < text->length; i++)
        if (text->start[i] == '\0')
            text->start[i] = ' ';
}

/* Reads one of the texts; a missing one has no bytes. */
static int read_text(const struct own_files *files, enum own which, const char *head,
                     struct bytes *text)
{
    int from = own_files_open(files, which), done;
    struct stat status;
    if (from < 0 && errno == ENOENT)
        return 1;
    done = from >= 0 && fstat(from, &status) == 0;
    if (done && !S_ISREG(status.st_mode)) {
        complain(files->paths[which], "this is not an ordinary file");
        close(from);
        return 0;
    }
    done = done && whole_read(from, MOST_TEXT, text);
    if (!done)
        complain_system(files->paths[which], "cannot read");
    if (from >= 0)
        close(from);
    if (done)
        blank_zeros(text);
    if (done && strncmp((const char *)text->start, head, strlen(head)) != 0) {
        complain(files->paths[which], "this is not a file of " PROGRAM
                 ", which needs the name; move it away");
        done = 0;
    }
    return done;
}

int history_read(struct history *history, const struct own_files *files)
{
    if (!read_text(files, OWN_DIGESTS, DIGESTS_HEAD, &history->digests) ||
        !read_text(files, OWN_LOG, LOG_HEAD, &history->log))
        return 0;
    history->log_kept = history->log.length;
    return 1;
}

/* The line after this one, or NULL. */
static const char *line_below(const char *line)
{
    const char *end = strchr(line, '\n');
    return end == NULL || end[1] == '\0' ? NULL : end + 1;
}

/* The line before this one, or NULL; `line` may be the end of the text. */
static const char *line_above(const char *text, const char *line)
{
    if (line == text)
        return NULL;
    for (line--; line > text && line[-1] != '\n'; line--)
        ;
    return line;
}

int history_knows_book(const struct history *history, const char *digest)
{
    const char *line = (const char *)history->digests.start;
    while (line != NULL && strncmp(line, digest, DIGEST_DIGITS) != 0)
        line = line_below(line);
    return line != NULL;
}

/* A line of the log: the books before and after, and the file, which is empty for none. */
struct entry { char from[SHORT_ROOM], to[SHORT_ROOM], file[DIGEST_ROOM]; };

static int read_entry(const char *line, struct entry *entry)
{
    entry->file[0] = '\0';
    return sscanf(line, "%*20s from %16s to %16[0-9a-f]: file %64[0-9a-f],", entry->from,
                  entry->to, entry->file) >= 2;
}

/* A walk up the log along the trail of the book at hand. */
struct trail {
    const char *text;
    const char *line;           /* the line met last, or NULL behind the last one */
    struct entry entry;         /* what it says */
    char wanted[SHORT_ROOM];    /* the book that the next line has to lead to */
    int strays;                 /* whether the last line of the log is not on the trail */
};

/* Gives the next line on the trail; 0 at the beginning of the book or of the log. */
static int go_up(struct trail *trail)
{
    int met = 0;
    if (strcmp(trail->wanted, FROM_NEW) == 0)
        return 0;
    while (trail->line != NULL && !met) {
        int last = *trail->line == '\0';
        trail->line = line_above(trail->text, trail->line);
        if (trail->line == NULL)
            break;
        met = read_entry(trail->line, &trail->entry) &&
              (strcmp(trail->wanted, FROM_ANY) == 0 || strcmp(trail->wanted, trail->entry.to) == 0);
        trail->strays |= last && !met;
    }
    if (met)
        strcpy(trail->wanted, trail->entry.from);
    return met;
}

/* A trail begins behind the last line. */
static struct trail trail_of(const struct history *history, const char *book)
{
    struct trail trail = {(const char *)history->log.start, NULL, {"", "", ""}, "", 0};
    strncat(trail.wanted, book, SHORT_DIGITS);
    if (trail.text != NULL)
        trail.line = trail.text + history->log.length;
    return trail;
}

const char *history_of_file(const struct history *history, const char *book, const char *file)
{
    struct trail trail = trail_of(history, book);
    while (go_up(&trail))
        if (strcmp(trail.entry.file, file) == 0)
            return trail.line;
    return NULL;
}

void history_judge(const struct history *history, const struct own_files *files,
                   const char *book)
{
    struct trail trail = trail_of(history, book);
    while (go_up(&trail))
        ;
    if (strcmp(trail.wanted, FROM_NEW) != 0 && strcmp(trail.wanted, FROM_ANY) != 0)
        complain(files->paths[OWN_LOG], "it does not tell this book's whole past, so a file "
                 "that was booked before may not be known");
    if (trail.strays)
        complain(files->paths[OWN_LOG], "its last lines are of a run that broke off, or of a "
                 "book that was taken back; they do not count for this book");
}

/* What a line says of orders: where it goes on behind the run, or NULL. */
static const char *orders_of(const char *line, char run[RUN_ROOM])
{
    int end = 0;
    sscanf(line, "%*20s from %*16s to %*16[0-9a-f]: orders %16[0-9a-f] %n", run, &end);
    return end == 0 ? NULL : line + end;
}

int history_waiting(const struct history *history, const char *book, struct waiting *waiting)
{
    struct trail trail = trail_of(history, book);
    const char *rest = NULL;
    waiting->directory = NULL;
    while (rest == NULL && go_up(&trail))
        rest = orders_of(trail.line, waiting->run);
    if (rest == NULL || strncmp(rest, WAIT_IN, strlen(WAIT_IN)) != 0) {
        waiting->run[0] = '\0';
        return 1;
    }
    rest += strlen(WAIT_IN);
    waiting->directory = name_printed(rest, strcspn(rest, "\n"));
    if (waiting->directory == NULL)
        complain("memory", "there is not enough");
    return waiting->directory != NULL;
}

/* What is added to a text is printed into memory first. */
struct addition { FILE *stream; char *start; size_t length; };

static int begin(struct addition *addition, const struct bytes *text, const char *head)
{
    addition->start = NULL;
    addition->stream = open_memstream(&addition->start, &addition->length);
    if (addition->stream == NULL) {
        complain_system("memory", "cannot add to the log");
        return 0;
    }
    if (text->length == 0)
        fputs(head, addition->stream);
    else if (text->start[text->length - 1] != '\n')
        fputc('\n', addition->stream);
    return 1;
}

/* The time of the run, as both texts have it. */
static void put_when(FILE *to)
{
    char when[WHEN_DIGITS + 1] = "";
    time_t now = time(NULL);
    const struct tm *parts = gmtime(&now);
    if (parts == NULL || strftime(when, sizeof when, "%Y-%m-%dT%H:%M:%SZ", parts) == 0)
        strcpy(when, "-");
    fputs(when, to);
}

/* Joins what was printed to the text. */
static int end(struct addition *addition, struct bytes *text)
{
    int fine = !ferror(addition->stream);
    uint8_t *start = NULL;
    if (fclose(addition->stream) == 0 && fine)
        start = realloc(text->start, text->length + addition->length + 1);
    if (start != NULL) {
        memcpy(start + text->length, addition->start, addition->length + 1);
        text->start = start;
        text->length += addition->length;
    }
    free(addition->start);
    if (start == NULL)
        complain("memory", "there is not enough");
    return start != NULL;
}

int history_add_digest(struct history *history, const char *digest)
{
    struct addition addition;
    if (!begin(&addition, &history->digests, DIGESTS_HEAD))
        return 0;
    fprintf(addition.stream, "%s ", digest);
    put_when(addition.stream);
    fputc('\n', addition.stream);
    return end(&addition, &history->digests);
}

/* The beginning of a line of the log. */
static int begin_entry(struct addition *addition, const struct history *history,
                       const char *from, const char *to)
{
    if (!begin(addition, &history->log, LOG_HEAD))
        return 0;
    put_when(addition->stream);
    fprintf(addition->stream, " from %.*s to %.*s: ", SHORT_DIGITS, from, SHORT_DIGITS, to);
    return 1;
}

/* A line of the log that says a few words. */
static int add_words(struct history *history, const char *from, const char *to, const char *words)
{
    struct addition addition;
    if (!begin_entry(&addition, history, from, to))
        return 0;
    fprintf(addition.stream, "%s\n", words);
    return end(&addition, &history->log);
}

int history_add_new(struct history *history, const char *to)
{
    return add_words(history, FROM_NEW, to, "a new book");
}

int history_add_accepted(struct history *history, const char *to)
{
    return add_words(history, FROM_ANY, to, "a book taken on purpose");
}

int history_add_moved(struct history *history, const char *from, const char *to)
{
    return add_words(history, from, to, "a book moved to the other form");
}

int history_add_out(struct history *history, const char *book, const char *run)
{
    char words[RUN_ROOM + sizeof "orders  are out"];
    snprintf(words, sizeof words, "orders %s are out", run);
    return add_words(history, book, book, words);
}

int history_add_past(struct history *history, const struct history *other)
{
    struct addition addition;
    size_t head = strlen(LOG_HEAD);
    if (other->log.length == 0)
        return 1;
    if (!begin(&addition, &history->log, LOG_HEAD))
        return 0;
    fwrite(other->log.start + head, 1, other->log.length - head, addition.stream);
    return end(&addition, &history->log);
}

int history_add_file(struct history *history, const char *from, const char *to,
                     const struct logged_file *file)
{
    struct addition addition;
    const struct tally *tally = &file->tally;
    if (!begin_entry(&addition, history, from, to))
        return 0;
    fprintf(addition.stream, "file %s, %lu booked, %lu with nothing to book, %lu refused, %s%.*s: ",
            file->digest, tally->booked, tally->no_need, tally->refused,
            file->roster[0] == '\0' ? "no roster" : "roster ", SHORT_DIGITS, file->roster);
    print_name(addition.stream, file->name);
    fputc('\n', addition.stream);
    return end(&addition, &history->log);
}

int history_add_waiting(struct history *history, const char *book, const struct waiting *waiting)
{
    struct addition addition;
    if (!begin_entry(&addition, history, book, book))
        return 0;
    fprintf(addition.stream, "orders %s " WAIT_IN, waiting->run);
    print_name(addition.stream, waiting->directory);
    fputc('\n', addition.stream);
    return end(&addition, &history->log);
}

int history_write_digests(const struct history *history, struct own_files *files)
{
    return own_files_write(files, OWN_DIGESTS, history->digests.start, history->digests.length);
}

int history_write_log(struct history *history, struct own_files *files)
{
    size_t length = history->log.length;
    if (length == history->log_kept)
        return 1;
    history->log_kept = length;
    return own_files_write(files, OWN_LOG, history->log.start, length);
}

void history_leave(struct history *history)
{
    free(history->digests.start);
    free(history->log.start);
}
