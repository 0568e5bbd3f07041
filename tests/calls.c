/* Calls of both registers, made from C one at a time over a kept state. A line has seven numbers: 1 for the counted register or 0, the
   readers, the start reading, the fresh stamp, and how many cells, rows and calls; then the calls as words, no begin of a read by processor 0
   among them. The state stands between two marks, and before set-up every byte of it is 1, which is no state in range. For each line it
   prints set-up's answer and every field of the state behind it; the calls' answers; what is open or retired at the end; the marks; the
   table and the log, each with the word behind it. */
#include <inttypes.h>
#include <stdio.h>
#include <stdlib.h>
#include <string.h>

#include "lent.h"
#include "register.h"

enum { READERS = 16 };

static struct {
    uint64_t before;
    struct register_state state;
    uint64_t behind;
} kept;

static uint64_t *table, *rows_lent;
static size_t cells, rows;

static void put(uint64_t word)
{
    printf(" %" PRIx64, word);
}

static void put_all(uint64_t *words, size_t length)
{
    for (size_t i = 0; i <= length; i++)
        put(words[i]);
    free(words);
}

static void put_reader(const struct register_reader *r)
{
    uint64_t fields[] = {r->retired, r->active, r->second, r->moved, r->stamp.cur, r->stamp.prev, r->look, r->agree, r->found, r->result};
    for (size_t i = 0; i < sizeof fields / sizeof *fields; i++)
        put(fields[i]);
}

static void put_state(const struct register_state *s)
{
    const struct register_head *h = &s->head;
    const struct register_writer *w = &s->writer;
    uint64_t fields[] = {h->counted,  h->opens,  h->n,         h->rows,       h->used, w->active, w->moved, w->value,
                         w->excluded, w->ticket, w->stamp.cur, w->stamp.prev, w->count};
    for (size_t i = 0; i < sizeof fields / sizeof *fields; i++)
        put(fields[i]);
    for (size_t i = 0; i < READERS; i++)
        put_reader(&s->readers[i]);
}

/* The open operations by number, the used rows; of the writer 1 if it is open; of each reader 2 if it is retired, 1 if it is open. */
static void put_standing(const struct register_state *s)
{
    put(s->head.opens);
    put(s->head.used);
    put(s->writer.active);
    for (size_t i = 0; i < READERS; i++)
        put(s->readers[i].retired ? 2 : s->readers[i].active);
}

static uint64_t set_up(unsigned counted, uint32_t n, uint32_t start, uint32_t fresh)
{
    if (counted)
        return counted_set_up(&kept.state, table, cells, rows_lent, rows, n, start, fresh);
    return register_set_up(&kept.state, table, cells, rows_lent, rows, n, start);
}

static uint64_t make(uint64_t call)
{
    uint32_t number = (uint32_t)call;
    switch (call >> 32) {
    case 1:
        return register_begin(&kept.state, table, cells, rows_lent, rows, 0, number);
    case 2:
        return register_begin(&kept.state, table, cells, rows_lent, rows, number, UINT32_MAX);
    case 3:
        return register_step(&kept.state, table, cells, rows_lent, rows, number);
    default:
        return register_retire(&kept.state, table, cells, rows_lent, rows, number);
    }
}

int main(void)
{
    unsigned counted;
    uint32_t n, start, fresh;
    size_t count;
    while (scanf("%u %" SCNu32 " %" SCNu32 " %" SCNu32 " %zu %zu %zu", &counted, &n, &start, &fresh, &cells, &rows, &count) == 7) {
        table = lent(cells, 0xABAB000000000000);
        rows_lent = lent(rows, 0xCDCD000000000000);
        memset(&kept, 1, sizeof kept);
        printf("%" PRIx64, set_up(counted, n, start, fresh));
        put_state(&kept.state);
        for (size_t i = 0; i < count; i++) {
            uint64_t call;
            if (scanf("%" SCNx64, &call) != 1)
                return 1;
            put(make(call));
        }
        put_standing(&kept.state);
        put(kept.before);
        put(kept.behind);
        put_all(table, cells);
        put_all(rows_lent, rows);
        printf("\n");
    }
    return 0;
}
