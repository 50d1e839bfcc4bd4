/* A second implementation of documents 01 and 02, written in C from the documents alone.
   Same parameters and results as the calls of wizqamul.h; no heap, no global state. */
#ifndef REFERENCE_H
#define REFERENCE_H

#include "../include/wizqamul.h"

wq_checked ref_check(const uint8_t *record, size_t record_length,
                     size_t *table, size_t table_length);

wq_written ref_write(const uint8_t *fixed, size_t fixed_length,
                     const size_t *table, size_t table_length, size_t fields,
                     const uint8_t *contents, size_t contents_length,
                     uint8_t *out, size_t out_length);

wq_parts_read ref_parts(const uint8_t *record, size_t record_length,
                        uint8_t *parts, size_t parts_length);

wq_written ref_write_parts(const uint8_t *fixed, size_t fixed_length,
                           const size_t *table, size_t table_length, size_t fields,
                           const uint8_t *contents, size_t contents_length,
                           const uint8_t *parts, size_t parts_length, size_t count,
                           uint8_t *out, size_t out_length);

wq_booked ref_book(const uint8_t *record, size_t record_length,
                   const uint8_t *roster, size_t roster_length,
                   uint8_t *lines, size_t lines_length,
                   uint8_t *slips, size_t slips_length, size_t *used);

wq_told ref_line(const uint8_t *school, size_t school_length,
                 const uint8_t *school_qualifier, size_t school_qualifier_length,
                 const uint8_t *supplier, size_t supplier_length,
                 const uint8_t *supplier_qualifier, size_t supplier_qualifier_length,
                 const uint8_t *reference, size_t reference_length,
                 const uint8_t *lines, size_t lines_length,
                 const uint8_t *slips, size_t slips_length, const size_t *used);

wq_saved ref_save(const uint8_t *lines, size_t lines_length,
                  const uint8_t *slips, size_t slips_length,
                  const size_t *used, uint8_t *out, size_t out_length);

wq_loaded ref_load(const uint8_t *saved, size_t saved_length,
                   uint8_t *lines, size_t lines_length,
                   uint8_t *slips, size_t slips_length, size_t *used);

wq_saved ref_to_new(const uint8_t *saved, size_t saved_length, uint8_t *out, size_t out_length);

wq_saved ref_to_old(const uint8_t *saved, size_t saved_length, uint8_t *out, size_t out_length);

wq_account_told ref_account(const wq_school *schools, size_t count,
                            const uint8_t *address, size_t address_length,
                            const uint8_t *qualifier, size_t qualifier_length);

#endif
