/* The registers, for a host in C: one call at a time over a state that the host keeps, or a whole list of calls. Link
   target/staticlib/libentries.a for the first, target/staticlib/libhost.a for the second; `tools/staticlib.sh entries host`
   writes them.

   A register has one writer, processor 0, and readers 1 to n. Its table and its log are lent to every call, the same ones, and
   nothing else writes them meanwhile. The buffers of a call, and the state, do not overlap. Nothing else is read or written,
   places beyond what is told stay as they were, and every function returns.

   An answer is a word: above, the refusal number or 0; below, the sub-step's number or 0. A refused call alters nothing. */
#ifndef REGISTER_H
#define REGISTER_H

#include <stdbool.h>
#include <stddef.h>
#include <stdint.h>

/* ---- One call at a time */

/* A write's own ticket and that of the write before; (63, 63) where there is none. */
struct register_stamp {
    uint8_t cur;
    uint8_t prev;
};

struct register_head {
    bool counted;  /* whether it is the counted register */
    uint8_t opens; /* the open operations, those of retired readers left out */
    uint32_t n;    /* the readers */
    size_t rows;   /* the log's rows */
    size_t used;   /* of these, the used ones */
};

struct register_writer {
    bool active;                 /* whether a write is open; of it: */
    uint8_t moved;               /* the words moved */
    uint32_t value;              /* the reading */
    uint64_t excluded;           /* first register: the tickets barred by the cells read so far, a set */
    uint8_t ticket;              /* first register: the new ticket, once it is taken */
    struct register_stamp stamp; /* first register: the stamp of the last ended write */
    uint32_t count;              /* counted register: the same */
};

struct register_reader {
    bool retired;                /* for good */
    bool active;                 /* whether a read is open; of it: */
    bool second;                 /* first register: whether it is in its second attempt */
    uint8_t moved;               /* the words moved */
    struct register_stamp stamp; /* first register: the reader's own stamp */
    uint64_t look;               /* first register: the word of the attempt's first look */
    bool agree;                  /* first register: whether the second look had the same stamp */
    bool found;                  /* first register: whether another reader's cell is the result */
    uint64_t result;             /* the result so far, a cell's word */
};

/* The state of either register: a host may read it, and need write none of it. Before set-up it has to hold something, zeros
   for example: `struct register_state state = {0};`. A flag that a host writes has to be 0 or 1, as C's bool is. Any other
   change is safe: a state out of range is refused by number 4. */
struct register_state {
    struct register_head head;
    struct register_writer writer;
    struct register_reader readers[16]; /* of which the first n count */
};

_Static_assert(sizeof(struct register_head) == 24, "the state as the library has it");
_Static_assert(sizeof(struct register_writer) == 24, "the state as the library has it");
_Static_assert(sizeof(struct register_reader) == 32, "the state as the library has it");
_Static_assert(sizeof(struct register_state) == 560, "the state as the library has it");

/* Sets a register of so many readers up with a start reading: fills the state, the fresh cells, and row 0 of the log.
   It asks for 1 to 16 readers (1), readers * readers + readers cells or more (2), and 3 to 4,096 rows (3). */
uint64_t register_set_up(struct register_state *state, uint64_t *table, size_t table_length, uint64_t *log, size_t log_length,
                         uint32_t readers, uint32_t start);

/* The same of a counted register, with a fresh stamp for its cells. It asks for readers * readers cells or more (2). */
uint64_t counted_set_up(struct register_state *state, uint64_t *table, size_t table_length, uint64_t *log, size_t log_length,
                        uint32_t readers, uint32_t start, uint32_t fresh);

/* The calls, of either register: the state says of which. They ask: is the state in range, with this table and this log (4)? Is there such a
   processor (5)? Is it not retired (13)? A begin: is it idle (6)? Are free rows at least the open operations and 2 (7)? Of the
   counted register's writer: is there a stamp left (14)? A step: has it an open operation (8)? */

/* The writer, processor 0, begins a write of the value, a reader a read, for which the value is not looked at. */
uint64_t register_begin(struct register_state *state, uint64_t *table, size_t table_length, uint64_t *log, size_t log_length,
                        uint32_t processor, uint32_t value);

/* The next sub-step of the processor's operation. The last one adds the end to the log. */
uint64_t register_step(struct register_state *state, uint64_t *table, size_t table_length, uint64_t *log, size_t log_length,
                       uint32_t processor);

/* Retires a reader for good, at any sub-step. */
uint64_t register_retire(struct register_state *state, uint64_t *table, size_t table_length, uint64_t *log, size_t log_length,
                         uint32_t reader);

/* ---- A list of calls */

/* Sets a register up, as register_set_up does, and makes the calls.
   A call is a word: above, 1 begin a write, 2 begin a read, 3 a sub-step, 4 retire a reader; below, the reading or the processor.
   The calls end at the first word that is none, and where the answers have no place left; if set-up is refused none is made.
   The result: above, set-up's refusal number or 0; below, how many calls were made, modulo 2^32. */
uint64_t register_run(uint32_t readers, uint32_t start, const uint64_t *calls, size_t calls_length, uint64_t *table,
                      size_t table_length, uint64_t *log, size_t log_length, uint64_t *answers, size_t answers_length);

/* The same of a counted register (see counted_set_up). */
uint64_t counted_run(uint32_t readers, uint32_t start, uint32_t fresh, const uint64_t *calls, size_t calls_length, uint64_t *table,
                     size_t table_length, uint64_t *log, size_t log_length, uint64_t *answers, size_t answers_length);

#endif
