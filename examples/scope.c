/* What a scope shows of a register's table, for a host in C. From standard input: the readers and the start reading on the first line, and
   behind them the fresh stamp if it is to be the counted register; then a call a line, `W v`, `R i` or `S p`, as for the bench, or `U i`:
   reader i is unplugged. Each call is printed with its answer and, if a cell changed, the cell and its stamps; at the end all cells and the
   used rows of the log, in hexadecimal. A refused set-up is the whole print. A line that is none of these is named, and no call is made. */
#include <inttypes.h>
#include <stdbool.h>
#include <stdio.h>
#include <string.h>

#include "register.h"

enum { CELLS = 272, ROWS = 4096, CALLS = 4096, RETIRE = 4 };

static const char letters[] = "WRSU"; /* of the calls, by their number */

struct set {
    bool counted;
    uint32_t readers, start, fresh;
};

static uint64_t calls[CALLS], answers[CALLS], table[CELLS], before[CELLS], rows[ROWS];

/* Sets the register up and makes the first calls, so many. */
static uint64_t run(struct set s, size_t count)
{
    if (s.counted)
        return counted_run(s.readers, s.start, s.fresh, calls, count, table, CELLS, rows, ROWS, answers, CALLS);
    return register_run(s.readers, s.start, calls, count, table, CELLS, rows, ROWS, answers, CALLS);
}

/* Reads a decimal number of 32 bits and the character behind it; gives what follows, or NULL, also where at is NULL. */
static const char *number_in(const char *at, char end, uint32_t *number)
{
    const char *from = at;
    uint64_t value = 0;
    if (at == NULL)
        return NULL;
    while ('0' <= *at && *at <= '9' && value <= UINT32_MAX)
        value = value * 10 + (uint64_t)(*at++ - '0');
    *number = (uint32_t)value;
    return at == from || value > UINT32_MAX || *at != end ? NULL : at + 1;
}

/* The first line: whether it is one. */
static bool set_in(const char *line, struct set *s)
{
    const char *start = number_in(line, ' ', &s->readers);
    s->counted = number_in(start, '\n', &s->start) == NULL;
    return !s->counted || number_in(number_in(start, ' ', &s->start), '\n', &s->fresh) != NULL;
}

/* The call in a line as a word, or 0: above, 1 begins a write, 2 a read, 3 is a sub-step, 4 retires; below, the reading or the processor. */
static uint64_t call_in(const char *line)
{
    const char *found = strchr(letters, line[0]);
    uint32_t number;
    if (line[0] == '\0' || found == NULL || line[1] != ' ' || number_in(line + 2, '\n', &number) == NULL)
        return 0;
    return (uint64_t)(found - letters + 1) << 32 | number;
}

static void print_answer(uint64_t call, uint64_t answer)
{
    printf("%c %" PRIu32 ": ", letters[(call >> 32) - 1], (uint32_t)call);
    if (answer >> 32 != 0)
        printf("refused %" PRIu32, (uint32_t)(answer >> 32));
    else if ((uint32_t)answer != 0)
        printf("sub-step %" PRIu32, (uint32_t)answer);
    else
        printf(call >> 32 == RETIRE ? "retired" : "begun");
}

/* A stamp of the first register in the low 12 bits of a word: cur and prev, or none. */
static void print_stamp(const char *name, uint64_t word)
{
    unsigned cur = word >> 6 & 63, prev = word & 63;
    if (cur == 63 && prev == 63)
        printf(" %s none", name);
    else
        printf(" %s %u,%u", name, cur, prev);
}

/* The cell that changed, with its stamps. A call changes one at the most. */
static void print_changed(bool counted)
{
    for (size_t i = 0; i < CELLS; i++) {
        if (table[i] == before[i])
            continue;
        printf(", cell %zu %016" PRIX64, i, table[i]);
        if (counted) {
            printf(" stamp %" PRIu32, (uint32_t)table[i]);
        } else {
            print_stamp("stamp", table[i] >> 20);
            print_stamp("announced", table[i] >> 8);
        }
    }
    printf("\n");
}

static void print_words(const char *name, const uint64_t *words, size_t count)
{
    printf("%s", name);
    for (size_t i = 0; i < count; i++)
        printf(" %016" PRIX64, words[i]);
    printf("\n");
}

static int bad_line(size_t k)
{
    printf("bad line %zu\n", k);
    return 1;
}

int main(void)
{
    char line[80];
    struct set s;
    size_t count = 0, used = 0;
    if (fgets(line, sizeof line, stdin) == NULL || !set_in(line, &s))
        return bad_line(1);
    while (fgets(line, sizeof line, stdin) != NULL) {
        if (count == CALLS || (calls[count] = call_in(line)) == 0)
            return bad_line(count + 2);
        count++;
    }
    uint64_t result = run(s, 0);
    if (result >> 32 != 0) {
        printf("refused %" PRIu32 "\n", (uint32_t)(result >> 32));
        return 1;
    }
    for (size_t i = 0; i < count; i++) {
        memcpy(before, table, sizeof table);
        run(s, i + 1);
        print_answer(calls[i], answers[i]);
        print_changed(s.counted);
    }
    while (used < ROWS && rows[used] != 0)
        used++;
    print_words("cells", table, (size_t)s.readers * s.readers + (s.counted ? 0 : s.readers));
    print_words("rows", rows, used);
    return 0;
}
