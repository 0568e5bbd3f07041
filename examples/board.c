/* A board's main loop over a register of two readers, one call at a time: in each round the writer and both readers have a turn, and a
   reader that is idle looks again. From standard input: the start reading on the first line; then a line is a reading to write, or `U i`:
   reader i is unplugged. A line that is none of these is named, and so is a call that is refused; then the board goes no further. At the end the open
   operations are brought to their ends, the log is listed as by the bench, and the judge's number is told: 0 if it has an order. */
#include <inttypes.h>
#include <stdio.h>
#include <string.h>

#include "judge.h"
#include "register.h"

enum { READERS = 2, CELLS = READERS * READERS + READERS, ROWS = 200 };

static struct register_state state;
static uint64_t table[CELLS], rows[ROWS];

static uint32_t refusal_in(uint64_t answer)
{
    return (uint32_t)(answer >> 32);
}

/* Whether an answer is no refusal; one is printed. */
static bool accepted(const char *call, uint32_t number, uint64_t answer)
{
    if (refusal_in(answer) == 0)
        return true;
    printf("%s %" PRIu32 ": refused %" PRIu32 "\n", call, number, refusal_in(answer));
    return false;
}

static bool step(uint32_t p)
{
    return accepted("S", p, register_step(&state, table, CELLS, rows, ROWS, p));
}

static bool begin(uint32_t p, uint32_t value)
{
    return accepted(p == 0 ? "W" : "R", p == 0 ? value : p, register_begin(&state, table, CELLS, rows, ROWS, p, value));
}

/* A reader's turn: one that is not retired moves a word of its read; an idle one begins a read, if it may look again. */
static bool reader_turn(uint32_t p, bool again)
{
    const struct register_reader *r = &state.readers[p - 1];
    if (r->retired || (!r->active && !again))
        return true;
    return r->active ? step(p) : begin(p, 0);
}

/* Rounds: until the write has ended, or until nothing is open. */
static bool rounds(bool again)
{
    while (again ? state.writer.active : state.head.opens != 0) {
        if (state.writer.active && !step(0))
            return false;
        for (uint32_t p = 1; p <= READERS; p++)
            if (!reader_turn(p, again))
                return false;
    }
    return true;
}

/* A decimal number of 32 bits, up to the end of its line: whether it is one. */
static bool number_in(const char *at, uint32_t *number)
{
    uint64_t value = 0;
    const char *from = at;
    while ('0' <= *at && *at <= '9' && value <= UINT32_MAX)
        value = value * 10 + (uint64_t)(*at++ - '0');
    *number = (uint32_t)value;
    return at != from && value <= UINT32_MAX && strcmp(at, "\n") == 0;
}

/* What a line asks for: whether the board goes on. */
static bool run_line(const char *line, size_t k)
{
    uint32_t number;
    if (number_in(line, &number))
        return begin(0, number) && rounds(true);
    if (strncmp(line, "U ", 2) == 0 && number_in(line + 2, &number))
        return accepted("U", number, register_retire(&state, table, CELLS, rows, ROWS, number));
    printf("bad line %zu\n", k);
    return false;
}

static void print_row(size_t k, uint64_t row)
{
    unsigned kind = row >> 60, processor = row >> 52 & 255;
    uint32_t reading = (uint32_t)row;
    printf("%zu %c", k, "?WwRr?"[kind]);
    if (kind >= 3)
        printf(" %u", processor);
    if (kind == 1 || kind == 4)
        printf(" %" PRIu32, reading);
    printf("\n");
}

/* The log as bytes, most significant first, for the judge. */
static uint32_t judged(void)
{
    static uint8_t bytes[ROWS * 8];
    for (size_t i = 0; i < state.head.used * 8; i++)
        bytes[i] = (uint8_t)(rows[i / 8] >> (56 - i % 8 * 8));
    return judge_bytes(bytes, state.head.used * 8);
}

int main(void)
{
    char line[80];
    uint32_t start;
    size_t k = 1;
    if (fgets(line, sizeof line, stdin) == NULL || !number_in(line, &start)) {
        printf("bad line 1\n");
        return 1;
    }
    if (!accepted("set-up", READERS, register_set_up(&state, table, CELLS, rows, ROWS, READERS, start)))
        return 1;
    bool fine = true;
    while (fine && fgets(line, sizeof line, stdin) != NULL)
        fine = run_line(line, ++k);
    rounds(false);
    printf("readers %" PRIu32 " start %" PRIu32 "\n", state.head.n, (uint32_t)rows[0]);
    for (size_t i = 1; i < state.head.used; i++)
        print_row(i, rows[i]);
    printf("judged %" PRIu32 "\n", judged());
    return fine ? 0 : 1;
}
