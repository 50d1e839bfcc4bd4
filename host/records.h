/* Files of records: each record ends with CR LF. */
#ifndef RECORDS_H
#define RECORDS_H

#include "digest.h"
#include "own_files.h"
#include "wizqamul.h"

/* A file that was read whole, and how far it was cut into records. */
struct input {
    const char *name;
    struct bytes bytes;
    size_t at;                  /* where the next record starts */
    char digest[DIGEST_ROOM];
};

/* A record is a part of its file, without its CR LF. */
struct record {
    const uint8_t *bytes;
    size_t length;
};

/* An account: an address and the qualifier behind it. */
enum { ACCOUNT_WIDTH = WQ_ADDRESS_WIDTH + WQ_QUALIFIER_WIDTH };

/* All files of a run together hold at most this many bytes. */
enum { MOST_INPUT = 1 << 26 };

/* Reads a file whole; `-` is standard input. Files of the book itself are refused. Takes
   what it reads from `*left`. Returns 0, and has said why, where it cannot. */
int input_read(struct input *input, const char *name, const struct own_files *own, size_t *left);

/* Gives the next record; 0 at the end. Bytes after the last CR LF are one more record; a
   lone CR or LF is a byte of the record. */
int input_next(struct input *input, struct record *record);

/* Whether the file holds bytes, but no CR LF at all. */
int input_lacks_ends(const struct input *input);

void input_leave(struct input *input);

/* The account of the school in a record of known kind: the sender of an order, else the
   recipient. NULL where the record is too short to have one. */
const uint8_t *record_school(const struct record *record);

#endif
