/* Lends the same memory to both implementations, with guards around every piece, and
   compares answers, values and every lent byte. */
#ifndef LENDING_H
#define LENDING_H

#include "inputs.h"

enum call {
    CHECK, WRITE, PARTS, WRITE_PARTS, BOOK, LINE, SAVE, LOAD, TO_NEW, TO_OLD, ACCOUNT, CALL_COUNT
};

/* So many calls in a row meet every guard there is, also in every second or third of them: it is
   a prime. */
enum { ANSWER_COUNT = 29, KEY_PARTS = 5, MOST_TABLE = 66000, EVERY_GUARD = 19 };

/* The calls so far, how often each answer of each call was seen, where we are (the
   round's seed and the number of the call in it), and what the last call gave: the place,
   the first value, where it was a booking, whether the articles agreed, and where a line was
   told, its figures and what its last report said. */
struct tally {
    uint64_t calls, seen[CALL_COUNT][ANSWER_COUNT], seed, call, place, value, agreed;
    struct figures figures;
    struct said said;
};

extern struct tally tally;
extern const char *const call_names[CALL_COUNT];

/* Each gives the answer both agree on. On success the lent memory of the caller (book,
   out) is what both left; a refusal must have changed nothing. A difference is printed
   and ends the program with 1. */
uint64_t both_check(const uint8_t *record, size_t length, size_t table_length);
uint64_t both_write(const struct sheet *sheet, size_t fixed_length, size_t table_length,
                    size_t contents_length, uint8_t *out, size_t out_length);
uint64_t both_parts(const uint8_t *record, size_t length, uint8_t *parts, size_t parts_length);
uint64_t both_write_parts(const struct bundle *bundle, uint8_t *out, size_t out_length);
uint64_t both_book(const uint8_t *record, size_t length, const struct roster *roster,
                   struct shelf *shelf);
uint64_t both_line(const uint8_t *const parts[KEY_PARTS], const size_t lengths[KEY_PARTS],
                   struct shelf *shelf);
uint64_t both_save(struct shelf *shelf, uint8_t *out, size_t out_length);
uint64_t both_load(const uint8_t *saved, size_t length, struct shelf *shelf);
uint64_t both_move(enum saved_form to, const uint8_t *saved, size_t length, uint8_t *out,
                   size_t out_length);
uint64_t both_account(const wq_school *schools, size_t count, const uint8_t *address,
                      size_t address_length, const uint8_t *qualifier,
                      size_t qualifier_length);

/* Ends the program with 1 where a fact about the answers does not hold. */
void insist(int holds, const char *fact);

/* samples.c: the documents' samples, with the expected values, for both; samples_saves.c: those of
   saves, which are among them. */
void run_samples(void);
void run_save_samples(void);

#endif
