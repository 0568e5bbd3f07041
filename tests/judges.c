/* Judges log files both ways: for each file named, a line with its number, and what is said of its rows with 4,096 places and with 3. Stops if
   a place is written that should not be. */
#include <stdio.h>
#include <stdlib.h>

#include "judge.h"

#define ROWS 4096
#define MARK 0xA5A5A5A5A5A5A5A5u

static uint8_t bytes[ROWS * 8 + 1];
static uint64_t rows[ROWS];
static uint64_t order[ROWS + 1];

static void judge_with(size_t count, size_t places) {
    for (size_t i = 0; i <= ROWS; i++) {
        order[i] = MARK;
    }
    uint64_t result = judge_rows(rows, count, order, places);
    unsigned number = (unsigned)(result >> 32), value = (unsigned)result;
    size_t written = number == 0 ? value : 0;
    for (size_t i = written; i <= ROWS; i++) {
        if (order[i] != MARK) {
            fprintf(stderr, "place %zu was written\n", i);
            exit(1);
        }
    }
    if (number == 0) {
        printf(", order");
        for (size_t i = 0; i < written; i++) {
            printf(" %llu", (unsigned long long)order[i]);
        }
    } else if (number == 12) {
        printf(", no order %u", value);
    } else {
        printf(", refused %u", number);
    }
}

int main(int count, char **names) {
    for (int i = 1; i < count; i++) {
        FILE *file = fopen(names[i], "rb");
        if (file == NULL) {
            perror(names[i]);
            return 1;
        }
        size_t length = fread(bytes, 1, sizeof bytes, file);
        fclose(file);
        for (size_t k = 0; k < length / 8; k++) {
            rows[k] = 0;
            for (size_t j = 0; j < 8; j++) {
                rows[k] = rows[k] << 8 | bytes[8 * k + j];
            }
        }
        printf("%u", (unsigned)judge_bytes(bytes, length));
        judge_with(length / 8, ROWS);
        judge_with(length / 8, 3);
        printf("\n");
    }
    return 0;
}
