/* Words to lend, and one behind them, each with a mark of its own. */
#ifndef LENT_H
#define LENT_H

#include <stdint.h>
#include <stdlib.h>

static uint64_t *lent(size_t length, uint64_t mark)
{
    uint64_t *words = malloc((length + 1) * sizeof *words);
    if (words == NULL)
        abort();
    for (size_t i = 0; i <= length; i++)
        words[i] = mark + i;
    return words;
}

#endif
