/* Files that are read and written whole. */
#ifndef WHOLE_H
#define WHOLE_H

#include <stddef.h>
#include <stdint.h>

/* Bytes in memory that free() gives back; a byte 0 stands behind them, uncounted. */
struct bytes {
    uint8_t *start;
    size_t length;
};

/* Reads up to the end. Returns 0, with errno set (EFBIG where there are more than `most`
   bytes), and gives no bytes, where that fails. */
int whole_read(int from, size_t most, struct bytes *bytes);

/* Writes all bytes; returns 0, with errno set, where that fails. */
int whole_write(int to, const uint8_t *bytes, size_t length);

#endif
