/* A log stored in strips and put back, for a host in C. Link target/staticlib/libstore.a, which `tools/staticlib.sh store` writes.

   The strips of a log stand in two buffers: a byte for each row after row 0, naming its processor; and the rows again, row 0 first,
   then all rows of processor 0, of 1, and so on, each in log order. For the rows see judge.h.

   Both functions give 0, or the number of the question that is answered no. A refusal leaves every place as it was, and places beyond
   those that are filled stay as they were, too. The buffers of a call may not overlap. A call reads and writes these and nothing
   else, and always returns. */
#ifndef STRIPS_H
#define STRIPS_H

#include <stddef.h>
#include <stdint.h>

/* The strips of a log of rows, into the first rows_length - 1 bytes and the first rows_length places for rows. A log without an order
   is stored like any other. It asks for 1 to 4,096 rows (9), which are well formed (10); then for as many places of both kinds (11). */
uint32_t store_strips(const uint64_t *rows, size_t rows_length, uint8_t *bytes, size_t bytes_length, uint64_t *strips,
                      size_t strips_length);

/* The log of such strips, into the first strips_length places. It asks whether bytes and rows match (16): one byte fewer than rows,
   and the bytes, sorted rising, are the processors of the rows after row 0, as these stand; bytes and rows of any length are read for
   that to their end. Of the log that it would give it asks for at most 4,096 rows (9), which are well formed (10), so that bytes above
   16 that match are 10; then for as many places (11). */
uint32_t restore_strips(const uint8_t *bytes, size_t bytes_length, const uint64_t *strips, size_t strips_length, uint64_t *log,
                        size_t log_length);

#endif
