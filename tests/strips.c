/* Logs stored in strips and put back, from C. A line has S, how many rows, and how many places for bytes and for strips, then the rows; or R, how
   many bytes and strips, and how many places for the log, then the bytes and the strips. For each it prints the number and all buffers, those
   that were read too, each with the place behind it. */
#include <inttypes.h>
#include <stdio.h>
#include <stdlib.h>

#include "lent.h"
#include "strips.h"

/* Bytes to lend, and one behind them. None is a processor's. */
static uint8_t *lent_bytes(size_t length)
{
    uint8_t *bytes = malloc(length + 1);
    if (bytes == NULL)
        abort();
    for (size_t i = 0; i <= length; i++)
        bytes[i] = 0xC0 | (i & 0x3F);
    return bytes;
}

static uint64_t next(void)
{
    uint64_t word;
    if (scanf("%" SCNx64, &word) != 1)
        abort();
    return word;
}

static uint64_t *words_in(size_t length)
{
    uint64_t *words = lent(length, 0xABAB000000000000);
    for (size_t i = 0; i < length; i++)
        words[i] = next();
    return words;
}

static uint8_t *bytes_in(size_t length)
{
    uint8_t *bytes = lent_bytes(length);
    for (size_t i = 0; i < length; i++)
        bytes[i] = (uint8_t)next();
    return bytes;
}

static void words_out(uint64_t *words, size_t length)
{
    for (size_t i = 0; i <= length; i++)
        printf(" %" PRIx64, words[i]);
    free(words);
}

static void bytes_out(uint8_t *bytes, size_t length)
{
    for (size_t i = 0; i <= length; i++)
        printf(" %x", bytes[i]);
    free(bytes);
}

static void store(size_t rows_length, size_t bytes_length, size_t strips_length)
{
    uint64_t *rows = words_in(rows_length), *strips = lent(strips_length, 0xCDCD000000000000);
    uint8_t *bytes = lent_bytes(bytes_length);
    printf("%" PRIx32, store_strips(rows, rows_length, bytes, bytes_length, strips, strips_length));
    words_out(rows, rows_length);
    bytes_out(bytes, bytes_length);
    words_out(strips, strips_length);
}

static void restore(size_t bytes_length, size_t strips_length, size_t log_length)
{
    uint8_t *bytes = bytes_in(bytes_length);
    uint64_t *strips = words_in(strips_length), *log = lent(log_length, 0xCDCD000000000000);
    printf("%" PRIx32, restore_strips(bytes, bytes_length, strips, strips_length, log, log_length));
    bytes_out(bytes, bytes_length);
    words_out(strips, strips_length);
    words_out(log, log_length);
}

int main(void)
{
    char what;
    size_t a, b, c;
    while (scanf(" %c %zu %zu %zu", &what, &a, &b, &c) == 4) {
        if (what == 'S')
            store(a, b, c);
        else
            restore(a, b, c);
        printf("\n");
    }
    return 0;
}
