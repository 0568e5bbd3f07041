/* Lists of calls of both registers, made from C. A line has eight numbers: 1 for the counted register or 0, the readers, the start reading, the
   fresh stamp, and how many cells, rows, calls and places for answers; then the calls. For each it prints the result and the buffers, table,
   log and answers, each with the word behind it. */
#include <inttypes.h>
#include <stdio.h>
#include <stdlib.h>

#include "lent.h"
#include "register.h"

static void show(uint64_t *words, size_t length)
{
    for (size_t i = 0; i <= length; i++)
        printf(" %" PRIx64, words[i]);
    free(words);
}

int main(void)
{
    unsigned counted;
    uint32_t n, start, fresh;
    size_t cells, rows, count, places;
    while (scanf("%u %" SCNu32 " %" SCNu32 " %" SCNu32 " %zu %zu %zu %zu", &counted, &n, &start, &fresh, &cells, &rows, &count, &places) == 8) {
        uint64_t *calls = lent(count, 0), *table = lent(cells, 0xABAB000000000000), *log = lent(rows, 0xCDCD000000000000);
        uint64_t *answers = lent(places, 0xEFEF000000000000), result;
        for (size_t i = 0; i < count; i++)
            if (scanf("%" SCNx64, &calls[i]) != 1)
                return 1;
        if (counted)
            result = counted_run(n, start, fresh, calls, count, table, cells, log, rows, answers, places);
        else
            result = register_run(n, start, calls, count, table, cells, log, rows, answers, places);
        printf("%" PRIx64, result);
        show(table, cells);
        show(log, rows);
        show(answers, places);
        printf("\n");
        free(calls);
    }
    return 0;
}
