/* Reading files and cutting them into records. */
#define _XOPEN_SOURCE 700

#include "records.h"
#include "text.h"

#include <errno.h>
#include <fcntl.h>
#include <stdlib.h>
#include <string.h>
#include <unistd.h>

enum { END_WIDTH = 2 };         /* CR LF */

/* What cannot be read as records is refused before anything is booked. */
static int judge_input(const char *name, int from, const struct own_files *own)
{
    struct stat status;
    const char *mine;
    if (fstat(from, &status) != 0) {
        complain_system(name, "cannot look at the file");
        return 0;
    }
    if (S_ISDIR(status.st_mode)) {
        complain(name, "cannot read: it is a directory");
        return 0;
    }
    mine = own_files_which(own, &status);
    if (mine == NULL)
        return 1;
    complain(name, "this is the book or a file that belongs to it, so it is not read:");
    complain(mine, "is the same file");
    return 0;
}

/* Reads what is open. */
static int read_open(struct input *input, int from, const struct own_files *own, size_t *left)
{
    if (!judge_input(input->name, from, own))
        return 0;
    if (!whole_read(from, *left, &input->bytes)) {
        complain_system(input->name, "cannot read to the end");
        return 0;
    }
    *left -= input->bytes.length;
    digest_of(input->bytes.start, input->bytes.length, input->digest);
    return 1;
}

int input_read(struct input *input, const char *name, const struct own_files *own, size_t *left)
{
    int standard = strcmp(name, "-") == 0, done;
    int from = standard ? STDIN_FILENO : open(name, O_RDONLY | O_CLOEXEC);
    memset(input, 0, sizeof *input);
    input->name = name;
    if (from < 0) {
        complain_system(name, "cannot open");
        return 0;
    }
    done = read_open(input, from, own, left);
    if (!standard)
        close(from);
    return done;
}

/* Where the next CR LF stands from a place on, or the end of the file. */
static size_t next_end(const struct bytes *bytes, size_t from)
{
    while (from < bytes->length &&
           !(bytes->start[from] == '\r' && bytes->start[from + 1] == '\n'))
        from++;
    return from;
}

int input_next(struct input *input, struct record *record)
{
    size_t end = next_end(&input->bytes, input->at);
    if (input->at >= input->bytes.length)
        return 0;
    record->bytes = input->bytes.start + input->at;
    record->length = end - input->at;
    input->at = end + END_WIDTH;
    return 1;
}

int input_lacks_ends(const struct input *input)
{
    return input->bytes.length > 0 &&
           next_end(&input->bytes, 0) == input->bytes.length;
}

void input_leave(struct input *input)
{
    free(input->bytes.start);
}

const uint8_t *record_school(const struct record *record)
{
    size_t place = WQ_KIND_WIDTH;
    if (record->length == 0 || record->bytes[0] != WQ_KIND_ORDER[0])
        place += ACCOUNT_WIDTH;
    return record->length < place + ACCOUNT_WIDTH ? NULL : record->bytes + place;
}
