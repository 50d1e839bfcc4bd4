/* Answers and records in words. */
#ifndef WORDS_H
#define WORDS_H

#include "book.h"
#include "records.h"

#include <stdio.h>

/* An answer number in words. */
const char *words_for(uint64_t answer);

/* The answer to a record, what the record is about, and what came of it. */
void print_outcome(FILE *to, const struct record *record, const wq_booked *booked,
                   const struct book *book);

/* One line for one record of a file: where it stands, and its outcome. */
void print_answer(FILE *to, const char *name, unsigned long number, const struct record *record,
                  const wq_booked *booked, const struct book *book);

#endif
