/* Reading and writing whole files. */
#define _XOPEN_SOURCE 700

#include "whole.h"

#include <errno.h>
#include <stdlib.h>
#include <unistd.h>

enum { FIRST_ROOM = 1 << 16 };

/* Twice the room, but not more than is needed to see that a file is too long. */
static int grow(struct bytes *bytes, size_t *room, size_t most)
{
    size_t wanted = *room == 0 ? FIRST_ROOM : 2 * *room;
    uint8_t *start;
    if (wanted > most + 2)
        wanted = most + 2;
    start = realloc(bytes->start, wanted);
    if (start == NULL)
        return 0;
    bytes->start = start;
    *room = wanted;
    return 1;
}

/* Reads on until the end, an error, or more than `most` bytes. */
static int read_on(int from, size_t most, struct bytes *bytes)
{
    size_t room = 0;
    for (;;) {
        ssize_t count;
        if (bytes->length > most) {
            errno = EFBIG;
            return 0;
        }
        if (bytes->length + 1 >= room && !grow(bytes, &room, most))
            return 0;
        count = read(from, bytes->start + bytes->length, room - 1 - bytes->length);
        if (count < 0 && errno != EINTR)
            return 0;
        if (count > 0)
            bytes->length += (size_t)count;
        if (count == 0)
            return 1;
    }
}

int whole_read(int from, size_t most, struct bytes *bytes)
{
    bytes->start = NULL;
    bytes->length = 0;
    if (!read_on(from, most, bytes)) {
        int reason = errno;
        free(bytes->start);
        bytes->start = NULL;
        bytes->length = 0;
        errno = reason;
        return 0;
    }
    bytes->start[bytes->length] = '\0';
    return 1;
}

/* A write of nothing is no progress, and is taken as an error. */
int whole_write(int to, const uint8_t *bytes, size_t length)
{
    while (length > 0) {
        ssize_t count = write(to, bytes, length);
        if (count < 0 && errno == EINTR)
            continue;
        if (count == 0)
            errno = EIO;
        if (count <= 0)
            return 0;
        bytes += count;
        length -= (size_t)count;
    }
    return 1;
}
