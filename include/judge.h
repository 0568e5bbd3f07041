/* The judge, for a host in C. Link target/staticlib/libjudge.a, which `tools/staticlib.sh judge` writes. */
#ifndef JUDGE_H
#define JUDGE_H

#include <stddef.h>
#include <stdint.h>

/* A log as bytes, eight a row, most significant first. A read ends with its result (kind 4) or with a band (kind 6):
   of the low 32 bits the upper half is the lowest that the reading may be, the lower half the highest.
   0: its operations have an order. Otherwise the number of the question that is answered no:
   9 the length (1 to 4,096 whole rows), 10 rows that are not well formed, 12 no order.
   It reads the bytes and nothing else, writes nothing, and always returns. */
uint32_t judge_bytes(const uint8_t *bytes, size_t length);

/* A log of rows, and places for its order, which receive the begin rows of its operations, earliest-placed; places beyond stay as they were.
   The result: above, the number as for judge_bytes, or 11 if there are fewer places than begin rows; below, with 0 how many places were
   written, with 12 the begin row of the first read with which there is no order, else 0. A refused log leaves all places as they were.
   The two buffers may not overlap. */
uint64_t judge_rows(const uint64_t *rows, size_t rows_length, uint64_t *order, size_t order_length);

#endif
