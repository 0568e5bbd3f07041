#!/usr/bin/env python3
"""Outside model of the arrow register and its judge, written from document 01 alone, and from
document 02 for the requests that have landed (cards 1, 2, 3, 5 and 6; card 9, with its report
CS-R8704; cards 10 to 14; card 4 changes nothing that is told here).

    model.py bench              text on standard input, the bench's print on standard output
    model.py drill              a line on standard input, a line for each schedule of that drill
    model.py sizing             a line on standard input, the figures of such a drill
    model.py verdict            one line for the log whose bytes are on standard input
    model.py verdict FILE...    one line for each log file
    model.py sheet              the course sheet of the log whose bytes are on standard input
    model.py sheet FILE...      the sheets of log files, one behind the other
    model.py store              a log's bytes on standard input, its strips on standard output
    model.py restore            the other way; a refusal of either is a line on standard error
    model.py selftest           the sessions of document 01, lists of calls of both registers,
                                brute force against the sweep, the two definitions of card 9
                                on every log of a few rows, with the bands of card 13 and without,
                                the sheets of card 10 on these, added in two ways, the strips
                                of card 12 on every log and list of a few rows, the drills
                                of card 11, their schedules and lines told in two ways, and
                                the figures of card 14 against every schedule and sharing

The sections stand in the order of document 01, the buyer's scope. Quoted words are its
own, or document 02's or the report's where that is said; “Open:” marks a choice where it
leaves a point open.
"""

import random
import re
import sys
from bisect import bisect_left
from collections import Counter, namedtuple
from copy import copy
from dataclasses import dataclass, field, replace
from functools import cache
from itertools import chain, count, product
from math import comb

MAX_READERS = 16
MAX_ROWS = 4096
MAX_INPUT = 65536


# ---------------------------------------------------------------------------- Words

NONE = 63
NO_STAMP = (NONE, NONE)  # “stamp none is (63,63) only”
FIRST_STAMP = (0, 1)

# A stamp is a pair (cur, prev); announced is such a pair too.
Cell = namedtuple('Cell', 'reading stamp announced', defaults=(NO_STAMP,))


def pack_cell(cell):
    """“reading 32, cur 6, prev 6, announced cur 6, announced prev 6, zero 8”."""
    word = cell.reading
    for ticket in cell.stamp + cell.announced:
        word = word << 6 | ticket
    return word << 8


def unpack_cell(word):
    """The inverse of pack_cell."""
    cur, prev, announced_cur, announced_prev = (word >> s & 63 for s in (26, 20, 14, 8))
    return Cell(word >> 32, (cur, prev), (announced_cur, announced_prev))


def others(n, i):
    """“the other readers in rising order”."""
    return [j for j in range(1, n + 1) if j != i]


def cell_index(n, i, j):
    """“The row of processor i starts at place n×i”: the place of the cell from i to j."""
    row = list(range(1, n + 1)) if i == 0 else [0] + others(n, i)
    return n * i + row.index(j)


def cells_of(n):
    """“The table has n²+n cells”."""
    return n * n + n


# The counted register (02, card 3), whose stamp is a number.

LAST_STAMP = (1 << 32) - 1

CountedCell = namedtuple('CountedCell', 'reading stamp')


def pack_counted(cell):
    """“reading 32 bits, stamp 32 bits” (02, card 3). Open: most significant first, too."""
    return cell.reading << 32 | cell.stamp


def unpack_counted(word):
    """The inverse of pack_counted."""
    return CountedCell(*divmod(word, 1 << 32))


def counted_index(n, i, j):
    """“no cell to the writer. Row i starts at n+(i−1)(n−1) for a reader; rows, and all stores, go
    by rising reader” (02, card 3): the place of the cell from i to j."""
    return j - 1 if i == 0 else n + (i - 1) * (n - 1) + others(n, i).index(j)


def counted_cells_of(n):
    """“its own table of n² cells” (02, card 3)."""
    return n * n


# ---------------------------------------------------------------------------- Register

@dataclass
class Operation:
    """An open operation."""
    reading: int = 0  # the write's reading; the read's result once an attempt gave it
    stamp: tuple = NO_STAMP  # the write's new stamp; the result's stamp
    moved: int = 0  # “the words this operation has moved”
    attempt: int = 1  # of a read
    seen: list = field(default_factory=list)  # cells read by the write or by this attempt


class Calls:
    """What the registers share: one writer (processor 0) and readers 1..n over a lent table and a
    lent log. A register tells its cells, what is fresh, and what each sub-step moves.

    Answers: ('refused', k), ('set up',), ('begun',), ('step', number), ('retired',). Question 4
    is left out: nothing but these calls changes the state, and then it refuses nothing. It is
    asked of a state of any origin by in_range.
    """

    def _set_up(self, n, start, cells, table, log):
        """Questions 1 to 3; “Set-up writes row 0 only”."""
        if not 1 <= n <= MAX_READERS:
            return ('refused', 1)
        if len(table) < cells(n):
            return ('refused', 2)
        if not 3 <= len(log) <= MAX_ROWS:
            return ('refused', 3)
        self.n, self.table, self.log, self.used = n, table, log, 0
        self.open = [None] * (n + 1)
        self.busy = 0  # open operations: “store their number in the state” (02, card 5)
        self.retired = set()  # “The state gains the set of retired readers” (02, card 1)
        self._add_row(5, n, start)
        return ('set up',)

    def begin_write(self, v):
        """Begin of a write of v."""
        return self._begin(0, 1, v)

    def begin_read(self, i):
        """“for a read 1..n (5)”, and 13; then as any begin."""
        return self._refused_reader(i) or self._begin(i, 3, 0)

    def retire(self, i):
        """“a call that retires a reader, for good, at any sub-step”. Its cells stay, no row is
        added, and its operation “is open there no longer” (02, card 1)."""
        refused = self._refused_reader(i)
        if refused:
            return refused
        self.retired.add(i)
        if self.open[i] is not None:
            self._close(i)
        return ('retired',)

    def _refused_reader(self, i):
        """Question 5 “(readers 1..n)”; “13, the reader is retired, for its begin, step or
        retirement, right after question 5” (02, card 1). None if both are passed."""
        if not 1 <= i <= self.n:
            return ('refused', 5)
        return ('refused', 13) if i in self.retired else None

    def _begin(self, p, kind, reading):
        """“is it idle (6)? Are free rows at least open operations plus 2 (7)?”."""
        if self.open[p] is not None:
            return ('refused', 6)
        if len(self.log) - self.used < self.busy + 2:
            return ('refused', 7)
        if p == 0 and self._spent():
            return ('refused', 14)
        self.open[p] = Operation(reading)
        self.busy += 1
        self._add_row(kind, p, reading)
        return ('begun',)

    def _spent(self):
        """Whether no stamp is left for a write: only ever of the counted register."""
        return False

    def step(self, p):
        """Questions 5, 13 and 8, then one sub-step; “A step tells its own sub-step number”."""
        refused = None if p == 0 else self._refused_reader(p)
        if refused:
            return refused
        operation = self.open[p]
        if operation is None:
            return ('refused', 8)
        operation.moved += 1
        if p == 0:
            self._write_step(operation)
        else:
            self._read_step(p, operation)
        return ('step', operation.moved)

    def _add_row(self, kind, p, reading):
        self.log[self.used] = pack_row(kind, p, reading)
        self.used += 1

    def _end(self, p, kind, reading):
        """The end row; “the processor is idle”."""
        self._add_row(kind, p, reading)
        self._close(p)

    def _close(self, p):
        """An operation is open no longer: “ends and retirements maintain it” (02, card 5)."""
        self.open[p] = None
        self.busy -= 1


class Register(Calls):
    """The register of document 01."""

    def set_up(self, n, start, table, log):
        """As any set-up; then “Fresh”."""
        answer = self._set_up(n, start, cells_of, table, log)
        if answer == ('set up',):
            self.own = [FIRST_STAMP] + [NO_STAMP] * n
            table[:n] = [pack_cell(Cell(start, FIRST_STAMP))] * n
            table[n:n * n + n] = [pack_cell(Cell(0, NO_STAMP))] * (n * n)
        return answer

    # A write of v: 2n sub-steps

    def _write_step(self, write):
        """“Sub-steps 1..n read the readers' cells”, “n+1..2n store v with the new stamp”; “the
        write's or result's stamp becomes the processor's own”."""
        n, k = self.n, write.moved
        if k <= n:
            write.seen.append(self._load(k, 0))
            return
        if k == n + 1:
            write.stamp = (new_ticket(n, self.own[0], barred_by(write.seen)), self.own[0][0])
        self._store(0, k - n, Cell(write.reading, write.stamp))
        if k == 2 * n:
            self.own[0] = write.stamp
            self._end(0, 2, 0)

    # A read by reader i

    def _read_step(self, i, read):
        """“One attempt has n+3 sub-steps”; “Then n sub-steps store”."""
        k = read.moved - (read.attempt - 1) * (self.n + 3)
        if k <= self.n + 3:
            self._attempt_step(i, read, k)
        else:
            self._result_step(i, read, k - (self.n + 3))

    def _attempt_step(self, i, read, k):
        """First look; announce it; second look; the other readers' cells; third look."""
        if k == 2:
            self._store(i, 0, Cell(0, self.own[i], read.seen[0].stamp))
            return
        source = others(self.n, i)[k - 4] if 4 <= k <= self.n + 2 else 0
        read.seen.append(self._load(source, i))
        if k == self.n + 3:
            close_attempt(read)

    def _result_step(self, i, read, k):
        """“to the other readers in rising order the result (for stamp none, reading 0),
        and last of all to the writer reading 0, the result's stamp, announced none”."""
        if k < self.n:
            shown = 0 if read.stamp == NO_STAMP else read.reading
            self._store(i, others(self.n, i)[k - 1], Cell(shown, read.stamp))
        else:
            self._store(i, 0, Cell(0, read.stamp))
            self.own[i] = read.stamp
            self._end(i, 4, read.reading)

    def _load(self, i, j):
        return unpack_cell(self.table[cell_index(self.n, i, j)])

    def _store(self, i, j, cell):
        self.table[cell_index(self.n, i, j)] = pack_cell(cell)


def barred_by(cells):
    """“Barred are the prev, announced cur and announced prev of each”."""
    return {ticket for cell in cells for ticket in (cell.stamp[1],) + cell.announced}


def new_ticket(n, own, barred):
    """“the smallest unbarred one above the writer's cur and up to 3n+2, and if there is none
    above, the smallest unbarred” (02, card 2); barred also by “the writer's own cur and prev”."""
    barred = (barred | set(own)) - {NONE}  # “None bars nothing.”
    above = range(own[0] + 1, 3 * n + 3)
    return next(ticket for ticket in chain(above, count()) if ticket not in barred)


def close_attempt(read):
    """After the third look: the result, or a second attempt."""
    first, second, *shown, third = read.seen
    if first.stamp == second.stamp == third.stamp:
        result = next((c for c in shown if c.stamp[1] == third.stamp[0]), third)
        read.reading, read.stamp = result.reading, result.stamp
    elif read.attempt == 1:
        read.attempt, read.seen = 2, []
    else:
        read.reading, read.stamp = first.reading, NO_STAMP


# ---------------------------------------------------------------------------- Counted register
# Document 02, card 3, quoted here.

class Counted(Calls):
    """“a second register with its own table of n² cells”. The stamp is the writer's: that of its
    last ended write. Readers have none of their own."""

    def set_up(self, n, start, fresh, table, log):
        """“The fresh stamp is handed over at set-up, …, and stands in every cell, with the start
        reading in the writer's cells and 0 elsewhere.”"""
        answer = self._set_up(n, start, counted_cells_of, table, log)
        if answer == ('set up',):
            self.stamp = fresh
            table[:n] = [pack_counted(CountedCell(start, fresh))] * n
            table[n:n * n] = [pack_counted(CountedCell(0, fresh))] * (n * n - n)
        return answer

    def _spent(self):
        """“14, stamp 4,294,967,295 has been used, for a write's begin after question 7.” Open:
        a fresh one counts as used."""
        return self.stamp == LAST_STAMP

    def _write_step(self, write):
        """“A write adds 1 to the stamp and takes n sub-steps.”"""
        self._store(0, write.moved, CountedCell(write.reading, self.stamp + 1))
        if write.moved == self.n:
            self.stamp += 1
            self._end(0, 2, 0)

    def _read_step(self, i, read):
        """“A read looks at the other readers in rising order, then at the writer, …, stores it
        to the others and takes 2n−1 sub-steps.”"""
        n, k = self.n, read.moved
        if k <= n:
            source = others(n, i)[k - 1] if k < n else 0
            read.seen.append(self._load(source, i))
        else:
            self._store(i, others(n, i)[k - n - 1], largest(read.seen))
        if k == 2 * n - 1:
            self._end(i, 4, largest(read.seen).reading)

    def _load(self, i, j):
        return unpack_counted(self.table[counted_index(self.n, i, j)])

    def _store(self, i, j, cell):
        self.table[counted_index(self.n, i, j)] = pack_counted(cell)


def largest(seen):
    """“takes the largest stamp (the writer's if equal, else the lowest reader)”: of the other
    readers' cells in rising order and, last, the writer's."""
    *shown, writers = seen
    most = max(cell.stamp for cell in seen)
    return next(cell for cell in [writers] + shown if cell.stamp == most)


# ---------------------------------------------------------------------------- Calls as words
# Open: how a list of calls is written for a host. A call: above, 1 begins a write, 2 begins a
# read, 3 is a sub-step, 4 retires a reader; below, the reading or the processor. An answer: above,
# the refusal number or 0; below, the sub-step's number or 0.

def answer_word(answer):
    """An answer as a word."""
    return answer[1] << 32 if answer[0] == 'refused' else answer[1] if answer[0] == 'step' else 0


def make_calls(register, words, answers):
    """Makes the calls up to the first word that is none, and as long as answers have places;
    tells how many."""
    makers = {1: register.begin_write, 2: register.begin_read, 3: register.step,
              4: register.retire}
    for made, word in enumerate(words):
        kind, number = divmod(word, 1 << 32)
        if kind not in makers or made == len(answers):
            return made
        answers[made] = answer_word(makers[kind](number))
    return len(words)


# ---------------------------------------------------------------------------- Log

Row = namedtuple('Row', 'kind processor zero reading')


def pack_row(kind, processor, reading):
    """“Rows of 64 bits: kind 4, processor 8, zero 20, reading 32”."""
    return kind << 60 | processor << 52 | reading


def unpack_row(word):
    """The fields of a row; the zero bits too, as the judge asks about them."""
    return Row(word >> 60, word >> 52 & 0xFF, word >> 32 & 0xFFFFF, word & 0xFFFFFFFF)


def band_of(row):
    """Kind 6: “the low 32 bits are two 16-bit numbers, lowest (upper half) and highest” (02,
    card 13)."""
    return divmod(row.reading, 1 << 16)


def listing(rows):
    """“Row number, letter, reader for reads, reading for W and r”. Open: a band is written
    lowest..highest in a reading's place."""
    head = unpack_row(rows[0])
    yield f'readers {head.processor} start {head.reading}'
    for number, row in enumerate(map(unpack_row, rows[1:]), 1):
        yield {
            1: f'{number} W {row.reading}',
            2: f'{number} w',
            3: f'{number} R {row.processor}',
            4: f'{number} r {row.processor} {row.reading}',
            6: f'{number} r {row.processor} {"..".join(map(str, band_of(row)))}',
        }[row.kind]


# ---------------------------------------------------------------------------- The order
# First by the definition, for small logs. Judgments are ('order', begin rows) or
# ('refused', 12, row).

# A write or a read with its begin row, its end row (None while unended) and its readings: a
# write's one, all that an ended read may have.
Deed = namedtuple('Deed', 'is_write begin end readings')


def readings_of(row):
    """What the read ended by this row may have: its result; or any reading that “lies within
    both, ends included” (02, card 13)."""
    lowest, highest = (row.reading, row.reading) if row.kind == 4 else band_of(row)
    return range(lowest, highest + 1)


def has_reading(read, write):
    """“Each read has the reading of the last write before it, or the start reading.” With a band
    it “may stand behind any write, or the start, whose reading lies within both” (02, card 13)."""
    return write.readings[0] in read.readings


def start_of(rows):
    """The start, counted as a write at row 0 that ends at once."""
    return Deed(True, 0, 0, (unpack_row(rows[0]).reading,))


def deeds_of(rows):
    """The operations of a well-formed log, by begin row."""
    begun, deeds = {}, []
    for r, row in enumerate(map(unpack_row, rows[1:]), 1):
        if row.kind in (1, 3):
            begun[row.processor] = (r, row.reading)
        else:
            begin, reading = begun.pop(row.processor)
            is_write = row.kind == 2
            deeds.append(Deed(is_write, begin, r, (reading,) if is_write else readings_of(row)))
    for processor, (begin, reading) in begun.items():
        deeds.append(Deed(processor == 0, begin, None, (reading,)))
    return sorted(deeds, key=lambda deed: deed.begin)


def precedes(a, b):
    """“Operation a precedes b if a's end row is before b's begin row”."""
    return a.end is not None and a.end < b.begin


def is_order(sequence, start):
    """“It respects precedence. Each read has the reading of the last write before it, or
    the start reading”."""
    last = start
    for place, deed in enumerate(sequence):
        if any(precedes(later, deed) for later in sequence[place + 1:]):
            return False
        if deed.is_write:
            last = deed
        elif not has_reading(deed, last):
            return False
    return True


def arrangements(done, rest, last):
    """Every order that begins with done and goes on with rest, pruned as it grows."""
    if not rest:
        yield done
    for deed in rest:
        fits = deed.is_write or has_reading(deed, last)
        if fits and not any(precedes(other, deed) for other in rest):
            left = [other for other in rest if other is not deed]
            yield from arrangements(done + [deed], left, deed if deed.is_write else last)


def orders(deeds, start):
    """“An order holds every ended operation and, if wanted, the unended write; unended
    reads are dropped”."""
    ended = [deed for deed in deeds if deed.end is not None]
    yield from arrangements([], ended, start)
    for write in deeds:
        if write.is_write and write.end is None:
            yield from arrangements([], ended + [write], start)


def earliest_writes(deeds, start):
    """For each read the begin row of “the earliest write that any order gives it” (0: the
    start); None if there is no order."""
    earliest = None
    for order in orders(deeds, start):
        earliest = {} if earliest is None else earliest
        last = 0
        for deed in order:
            if deed.is_write:
                last = deed.begin
            else:
                earliest[deed] = min(last, earliest.get(deed, last))
    return earliest


def is_earliest_placed(order, earliest):
    """“each read stands behind the earliest write that any order gives it”; “Reads behind one
    write shall go by end row” (02, card 6); “The unended write is listed only if a read
    stands behind it”."""
    last, ended = 0, 0  # the last write and, behind it, the last read's end row
    unread = None  # the unended write, as long as no read stands behind it
    for deed in order:
        if deed.is_write:
            last, ended = deed.begin, 0
            unread = deed if deed.end is None else None
        elif last != earliest[deed] or deed.end < ended:
            return False
        else:
            ended, unread = deed.end, None
    return unread is None


def first_without_order(deeds, start):
    """“the begin row of the first read, by begin row, such that it and those begun before
    it already have none”. Open: all writes are kept."""
    for read in deeds:
        if not read.is_write and read.end is not None:
            kept = [d for d in deeds if d.is_write or d.begin <= read.begin]
            if next(orders(kept, start), None) is None:
                return read.begin
    raise Mismatch('no order, yet every part has one')


def brute(rows):
    """The judgment of a small well-formed log, literally by the definition."""
    start, deeds = start_of(rows), deeds_of(rows)
    earliest = earliest_writes(deeds, start)
    if earliest is None:
        return ('refused', 12, first_without_order(deeds, start))
    placed = [order for order in orders(deeds, start) if is_earliest_placed(order, earliest)]
    equal(len(placed), 1, 'number of earliest-placed orders')
    must(is_order(placed[0], start), 'the earliest-placed order is an order')
    return ('order', [deed.begin for deed in placed[0]])


# The same judgment in one pass over the rows.
#
# There is one writer, so an order is a choice, for each ended read, of the write q that it
# stands behind, named by its begin row (0: the start). Such a choice with readings that the
# reads may have gives an order exactly if each q is
#   - before the read's end row (else the read precedes that write),
#   - not below the newest write that ended before the read's begin row (else that write
#     precedes the read), and
#   - not below the q of any read that ended before that row (else that read precedes this).
# These are needed; and with them the writes by begin row, each followed by its reads by
# end row, respect precedence. The last two bounds are the floor: F at the read's begin, F
# being the newest write shown by an ended operation. Going by end row, the least q at or
# above the floor is, by induction, at most the q that any order gives the read, since its
# floor comes from least choices too. So if a read finds none there is no order, and
# otherwise the least choices are the earliest-placed order.
#
# The floor of a read depends only on writes and on reads that ended before it began, and
# these began before it. So up to the least failing begin row a read's floor is the same
# whether later reads are kept or not: the reads begun no later than a row have an order
# exactly if none of them fails. The row of refusal 12 is thus the least begin row of a
# failing read. (Whether a failing read raises F matters only to reads begun later.)

def first_from(floor, places, row):
    """The first write from the floor on that the read ended by this row may stand behind, or
    None, where places has for each reading its writes, rising. What suits the read is told here
    apart from readings_of, which brute force uses."""
    if row.kind == 4:
        lists = [places.get(row.reading, [])]
    else:
        lowest, highest = band_of(row)
        lists = [writes for reading, writes in places.items() if lowest <= reading <= highest]
    found = [writes[at] for writes in lists if (at := bisect_left(writes, floor)) < len(writes)]
    return min(found, default=None)


def sweep(rows):
    """The judgment of a well-formed log of any length."""
    places = {unpack_row(rows[0]).reading: [0]}  # reading: its writes begun so far, rising
    reads_behind = {0: []}  # write: the reads placed behind it, by end row
    newest = write = 0
    write_open = False
    floor, begin, failing = {}, {}, []
    for r, row in enumerate(map(unpack_row, rows[1:]), 1):
        kind, p, _, reading = row
        if kind == 1:
            write, write_open = r, True
            places.setdefault(reading, []).append(r)
            reads_behind[r] = []
        elif kind == 2:
            newest, write_open = write, False
        elif kind == 3:
            begin[p], floor[p] = r, newest
        else:
            first = first_from(floor[p], places, row)
            if first is None:
                failing.append(begin[p])
            else:
                newest = max(newest, first)
                reads_behind[first].append(begin[p])
    if failing:
        return ('refused', 12, min(failing))
    if write_open and not reads_behind[write]:
        del reads_behind[write]
    order = [b for q, reads in reads_behind.items() for b in [q] + reads]
    return ('order', order[1:])  # without the start


# ---------------------------------------------------------------------------- Two definitions
# Document 02, card 9: the same verdict by report CS-R8704 (source document 000, section 1.1,
# quoted here), literally, for small logs.

def writes_of(rows):
    """“the start counting as a write before all rows, an unended write as one that ends after
    them” (02, card 9)."""
    later = (deed for deed in deeds_of(rows) if deed.is_write)
    return [start_of(rows)] + [deed._replace(end=len(rows)) if deed.end is None else deed
                               for deed in later]


def choices(rows):
    """Every choice of a write for each read, “a read being free to stand for any write of equal
    reading”, “unended reads left out” (02, card 9); with a band, of a reading within (card 13).
    Lists of pairs."""
    reads = [deed for deed in deeds_of(rows) if not deed.is_write and deed.end is not None]
    writes = writes_of(rows)
    return product(*([(read, write) for write in writes if has_reading(read, write)]
                     for read in reads))


def concurrent(a, b):
    """“Operations incomparable under this precedence relation are considered to be
    concurrent.”"""
    return not precedes(a, b) and not precedes(b, a)


def is_regular(choice, writes):
    """“A register is regular if any read returns either the value written by a write that is
    concurrent with it or the value written by the last write that precedes it.”"""
    return all(concurrent(write, read)
               or write == [other for other in writes if precedes(other, read)][-1]
               for read, write in choice)


def is_inverted(choice):
    """“it cannot happen that the two writes, which wrote the values returned by two reads, are
    ordered in the opposite direction than their corresponding reads”: whether it does."""
    return any(precedes(read, later_read) and precedes(later_write, write)
               for read, write in choice for later_read, later_write in choice)


def is_atomic(rows):
    """One choice for both: “A register is atomic if it is regular and” has no inversion."""
    writes = writes_of(rows)
    return any(is_regular(choice, writes) and not is_inverted(choice) for choice in choices(rows))


def is_atomic_by_two_choices(rows):
    """What it would be if regular by one choice, and without inversion by another, were enough."""
    writes = writes_of(rows)
    return (any(is_regular(choice, writes) for choice in choices(rows))
            and any(not is_inverted(choice) for choice in choices(rows)))


# ---------------------------------------------------------------------------- Questions

@dataclass
class Range:
    """What question 4 looks at: of a state, and of the table and the log it is used with."""
    n: int
    cells: int  # of this table
    log: int  # rows of this log
    rows: int  # the log's length as recorded
    used: int
    busy: int  # open operations, by the number stored
    moved: dict  # the words moved by each processor whose operation has begun and not ended
    retired: set = field(default_factory=set, kw_only=True)  # readers

    def open(self):
        """The words moved in each open operation, of processors 0..n: that of a retired reader
        “stops counting as open in questions 4 and 7” (02, card 1)."""
        return {p: moved for p, moved in self.moved.items()
                if p <= self.n and p not in self.retired}


@dataclass
class TicketRange(Range):
    """And of the register of document 01."""
    own: list  # own stamps, of which those of processors 0..n count
    second: set = field(default_factory=set)  # readers from their second attempt on
    barred: set = field(default_factory=set)  # by the cells that the open write has read
    ticket: int = NONE  # the open write's new ticket, once it is taken


@dataclass
class CountedRange(Range):
    """And of the counted register: the stamp of the writer's last ended write."""
    stamp: int


def sizes_in_range(state, cells):
    """“n 1 to 16; this table n²+n cells or more; this log as long as recorded, 3 to 4,096;
    rows used 1 to that; free rows at least the open operations”; “questions 2 and 4 take n²
    cells” (02, card 3); “A state whose number is off is out of range” (02, card 5)."""
    return (1 <= state.n <= MAX_READERS
            and state.cells >= cells(state.n)
            and state.log == state.rows
            and 3 <= state.rows <= MAX_ROWS
            and 1 <= state.used <= state.rows
            and state.busy == len(state.open())
            and state.rows - state.used >= state.busy)


def moved_in_range(state):
    """“words moved at most 2n−1 in an open write, 2n+2 in a read's first attempt, n+3 to 3n+5
    from its second on”."""
    n = state.n
    for p, moved in state.open().items():
        least = n + 3 if p in state.second else 0
        most = 2 * n - 1 if p == 0 else 3 * n + 5 if p in state.second else 2 * n + 2
        if not least <= moved <= most:
            return False
    return True


def tickets_in_range(state):
    """“tickets 0 to 63; until an open write takes its new ticket, its barred tickets, own cur
    and prev counted in, at most 2 plus 3 for each cell read”."""
    if any(not 0 <= ticket <= 63 for stamp in state.own[:state.n + 1] for ticket in stamp):
        return False
    if 0 not in state.moved:
        return True
    if state.moved[0] > state.n:
        return 0 <= state.ticket <= 63
    own = {ticket for ticket in state.own[0] if ticket != NONE}  # “None bars nothing.”
    return len(state.barred | own) <= 2 + 3 * state.moved[0]


def counted_in_range(state):
    """“4 takes at most n−1 words moved in an open write, 2n−2 in an open read, and the stamp
    before an open write below 4,294,967,295” (02, card 3)."""
    n = state.n
    return (all(moved <= (n - 1 if p == 0 else 2 * n - 2) for p, moved in state.open().items())
            and (0 not in state.moved or state.stamp < LAST_STAMP))


def in_range(state):
    """Question 4."""
    if isinstance(state, CountedRange):
        return sizes_in_range(state, counted_cells_of) and counted_in_range(state)
    return (sizes_in_range(state, cells_of) and moved_in_range(state)
            and tickets_in_range(state))


def row_0_well_formed(row):
    """“row 0 as above with n 1 to 16”."""
    return row.kind == 5 and 1 <= row.processor <= MAX_READERS and row.zero == 0


def later_row_well_formed(row, n):
    """“later rows kinds 1 to 4, zero bits and the readings of kinds 2 and 3 zero,
    processor 0 for kinds 1 and 2, 1..n for 3 and 4”; “row kind 6, …, which question 10 takes
    wherever it takes kind 4”, “Lowest above highest is malformed” (02, card 13)."""
    if row.kind not in (1, 2, 3, 4, 6) or row.zero != 0:
        return False
    if row.kind == 6 and band_of(row)[0] > band_of(row)[1]:
        return False
    if row.kind in (2, 3) and row.reading != 0:
        return False
    return row.processor == 0 if row.kind in (1, 2) else 1 <= row.processor <= n


def alternating(later):
    """“begins and ends alternating per processor, a begin first”."""
    busy = set()
    for row in later:
        if (row.kind in (1, 3)) == (row.processor in busy):
            return False
        busy ^= {row.processor}
    return True


def well_formed(rows):
    """Question 10."""
    head, *later = map(unpack_row, rows)
    return (row_0_well_formed(head)
            and all(later_row_well_formed(row, head.processor) for row in later)
            and alternating(later))


def begin_rows(rows):
    """How many begin rows a log has. Open: unended ones are counted too."""
    return sum(row >> 60 in (1, 3) for row in rows)


def log_refusal(rows):
    """Questions 9 and 10: the number of the one that refuses the log, or None."""
    if not 1 <= len(rows) <= MAX_ROWS:
        return 9
    return None if well_formed(rows) else 10


def judge(rows, order_places=None):
    """Questions 9 to 12; 11 only if a number of order places is given."""
    number = log_refusal(rows)
    if number:
        return ('refused', number)
    if order_places is not None and order_places < begin_rows(rows):
        return ('refused', 11)
    return sweep(rows)


def bytes_of(rows):
    """“the log as bytes, eight a row, most significant first”."""
    return b''.join(row.to_bytes(8, 'big') for row in rows)


def rows_of(data):
    """The inverse of bytes_of, for a length that is a multiple of 8."""
    return [int.from_bytes(data[at:at + 8], 'big') for at in range(0, len(data), 8)]


def judge_bytes(data):
    """“no order buffer”; “a length not a multiple of 8 is 9”."""
    return ('refused', 9) if len(data) % 8 else judge(rows_of(data))


def verdict(answer):
    """A judgment as one line; “order and the begin rows, or no order and the row”."""
    if answer[0] == 'order':
        return ' '.join(['order'] + [str(row) for row in answer[1]])
    if answer[1] == 12:
        return f'no order {answer[2]}'
    return f'refused {answer[1]}'


# ---------------------------------------------------------------------------- The course sheet
# Document 02, card 10, quoted here. An answer is the judge's refusal, or ('sheet', the figures of
# readers 1..n, those of all).

# “the number of ended reads and the sum of their lags”.
Figures = namedtuple('Figures', 'reads lags')


def writes_behind(rows, order):
    """For each read, by begin row, the begin row of the write that “it stands behind in the judge's
    order”, 0 for the start."""
    behind, last = {}, 0
    for begin in order:
        if unpack_row(rows[begin]).kind == 1:
            last = begin
        else:
            behind[begin] = last
    return behind


def lag_of(read, behind, writes):
    """“a read's lag: writes begun before its end row, less the place, among the writes, of the one
    it stands behind in the judge's order (place 0 for the start)”. Writes are begin rows here, and
    all of the log."""
    begun = sum(write < read.end for write in writes)
    place = 0 if behind == 0 else 1 + writes.index(behind)
    return begun - place


def lags_of(rows, order):
    """Of every ended read, by begin row, its reader and its lag."""
    deeds, behind = deeds_of(rows), writes_behind(rows, order)
    writes = [deed.begin for deed in deeds if deed.is_write]
    return [(unpack_row(rows[read.begin]).processor, lag_of(read, behind[read.begin], writes))
            for read in deeds if not read.is_write and read.end is not None]


def sheet(rows):
    """“Give per reader the number of ended reads and the sum of their lags, and the totals”: “add
    per reader and then over readers”. “A log that the judge refuses has no sheet and gets the
    judge's refusal; order places and an index are not lent.”"""
    answer = judge(rows)
    if answer[0] == 'refused':
        return answer
    lags = lags_of(rows, answer[1])
    each = []
    for reader in range(1, unpack_row(rows[0]).processor + 1):
        own = [lag for by, lag in lags if by == reader]
        each.append(Figures(len(own), sum(own)))
    return ('sheet', each, Figures(sum(own.reads for own in each), sum(own.lags for own in each)))


def sheet_lines(answer):
    """Open: a line for each reader, those without reads too, and one for all; or the refusal's."""
    if answer[0] == 'refused':
        yield verdict(answer)
        return
    _, each, total = answer
    for reader, own in enumerate(each, 1):
        yield f'reader {reader} reads {own.reads} lag {own.lags}'
    yield f'all reads {total.reads} lag {total.lags}'


def sheet_print(data):
    """What is printed for a log as bytes; “a length not a multiple of 8 is 9” (01)."""
    answer = ('refused', 9) if len(data) % 8 else sheet(rows_of(data))
    return ''.join(line + '\n' for line in sheet_lines(answer))


# ---------------------------------------------------------------------------- Strips
# Document 02, card 12, quoted here. Answers are the refusal's number, or what was made.

def processor_of(row):
    """What a byte names."""
    return unpack_row(row).processor


def strips_of(rows):
    """“a byte per row after row 0, naming its processor; and row 0, then all rows of processor 0,
    of 1, and so on, each in log order”. (Python's sort leaves equals in their order.)"""
    head, *later = rows
    return bytes(map(processor_of, later)), [head, *sorted(later, key=processor_of)]


def store(rows, byte_places, strip_places):
    """“Storing passes questions 9 and 10”; “too few places lent, bytes or rows, is 11, last”."""
    number = log_refusal(rows)
    if number:
        return number
    if byte_places < len(rows) - 1 or strip_places < len(rows):
        return 11
    return strips_of(rows)


def strips_match(data, strips):
    """Question 16: “one byte fewer than rows, so no rows is 16”; “the bytes, sorted rising, are
    those of the rows after row 0”. Open: as they stand, so that rows out of turn are 16, too."""
    return (len(data) + 1 == len(strips)
            and sorted(data) == [processor_of(row) for row in strips[1:]])


def put_back(data, strips):
    """“Putting the strips back must give the log”: each byte takes the next row of its
    processor. For strips that match."""
    head, *later = strips
    rows_by = {p: iter([row for row in later if processor_of(row) == p]) for p in set(data)}
    return [head, *(next(rows_by[p]) for p in data)]


def restore(data, strips, places):
    """“restoring passes 16, then 9 and 10 for the log it would give”; 11 last."""
    if not strips_match(data, strips):
        return 16
    rows = put_back(data, strips)
    number = log_refusal(rows)
    if number:
        return number
    return 11 if places < len(rows) else rows


# Open: strips as a file. How many bytes there are, in eight bytes, then the bytes, then the rows,
# eight bytes each; all numbers most significant first, as in a log. What cannot be taken apart so
# does not match in number, 16; more than 65,536 bytes are no stored log, 9, and are not looked at.

def store_file(data):
    """The file of a log as bytes; “a length not a multiple of 8 is 9” (01)."""
    if len(data) % 8:
        return 9
    rows = rows_of(data)
    stored = store(rows, len(rows), len(rows))
    if isinstance(stored, int):
        return stored
    processors, strips = stored
    return len(processors).to_bytes(8, 'big') + processors + bytes_of(strips)


def restore_file(data):
    """The log as bytes of such a file."""
    if len(data) > MAX_INPUT:
        return 9
    rows_at = 8 + int.from_bytes(data[:8], 'big')
    if len(data) < rows_at or (len(data) - rows_at) % 8:
        return 16
    strips = rows_of(data[rows_at:])
    rows = restore(data[8:rows_at], strips, len(strips))
    return rows if isinstance(rows, int) else bytes_of(rows)


# ---------------------------------------------------------------------------- Bench

FIRST_LINE = re.compile(rb'([0-9]+) ([0-9]+)')
CALL_LINE = re.compile(rb'([WRS]) ([0-9]+)')


def number_of(digits):
    """A decimal of at most 32 bits, “leading zeros allowed”; None if it is larger.
    Open: any number of leading zeros."""
    digits = digits.lstrip(b'0') or b'0'
    return int(digits) if len(digits) <= 10 and int(digits) < 1 << 32 else None


def numbers_of(match):
    """The numbers of a line that was matched, or None if it was not, or if one is too large."""
    numbers = match and tuple(map(number_of, match.groups()))
    return numbers if numbers and None not in numbers else None


def first_line(line):
    """n and the start reading, or None."""
    return numbers_of(FIRST_LINE.fullmatch(line))


def call_line(line):
    """A call's letter and number, or None."""
    match = CALL_LINE.fullmatch(line)
    number = match and number_of(match[2])
    return None if number is None else (match[1], number)


def bench_lines(data):
    """What the bench prints. Open: calls before a bad line are made and their refusals
    printed; a refused set-up stands before any later bad line; a last line without a line
    feed is bad and its call is not made."""
    *lines, tail = data.split(b'\n')
    head = first_line(lines[0]) if lines and len(data) <= MAX_INPUT else None
    if head is None:
        yield 'bad line 1'
        return
    n, start = head
    cells = n * n + n if n <= MAX_READERS else 0
    register = Register()
    answer = register.set_up(n, start, [0] * cells, [0] * MAX_ROWS)
    if answer[0] == 'refused':
        yield f'refused {answer[1]}'
        return
    calls = {b'W': register.begin_write, b'R': register.begin_read, b'S': register.step}
    for k, line in enumerate(lines[1:], 2):
        call = call_line(line)
        if call is None:
            yield f'bad line {k}'
            return
        answer = calls[call[0]](call[1])
        if answer[0] == 'refused':
            yield f'refused {answer[1]}'
    if tail:
        yield f'bad line {len(lines) + 1}'
        return
    rows = register.log[:register.used]
    yield from listing(rows)
    yield verdict(judge(rows))


def bench(data):
    """The bench's whole print for the bytes of its input."""
    return ''.join(line + '\n' for line in bench_lines(data))


# ---------------------------------------------------------------------------- Drills
# Document 02, card 11, quoted here.

MAX_TURNS = 16
DRILL_ROWS = 5  # Open: row 0, and a begin and an end of either operation
DRILL_INPUT = re.compile(rb' '.join([rb'([0-9]+)'] * 5) + rb'\n')


def after_writer(a, b):
    """“What may follow a writer's turn” while a turns of the writer and b of the reader are left:
    some more of them, “in dictionary order” the most first, and then one of the reader's."""
    if b == 0:
        return ['w' * a]
    return ['w' * k + 'r' + rest for k in range(a, -1, -1) for rest in after_reader(a - k, b - 1)]


def after_reader(a, b):
    """“what may follow a reader's turn”: some more of them, the fewest first, and then one of the
    writer's."""
    if a == 0:
        return ['r' * b]
    return ['r' * k + 'w' + rest for k in range(b + 1) for rest in after_writer(a - 1, b - k)]


def schedules(a, b):
    """“all schedules of a writer's a turns and reader 1's b turns, …, each just one time, in
    dictionary order with the writer first”. Either may begin, as either may follow any turn."""
    return after_writer(a, b)


def run_turns(n, start, v, turns):
    """“takes a fresh register, begins a write of v and then a read, runs the turns”: these “as w
    and r, a refused one as a capital”, and the log."""
    register = Register()
    register.set_up(n, start, [0] * cells_of(n), [0] * DRILL_ROWS)
    register.begin_write(v)
    register.begin_read(1)
    shown = ''
    for turn in turns:
        answer = register.step('wr'.index(turn))
        shown += turn.upper() if answer[0] == 'refused' else turn
    return shown, register.log[:register.used]


def drill_input(data):
    """“The input line gives n, start, v, a and b”: these, or None for “a bad input line, input
    after it, or a+b not 1 to 16”. Open: a line as on the bench, and no longer."""
    numbers = numbers_of(DRILL_INPUT.fullmatch(data)) if len(data) <= MAX_INPUT else None
    return numbers if numbers and 1 <= sum(numbers[3:]) <= MAX_TURNS else None


def drill_lines(data):
    """What drill prints: “`bad line 1`, then n not 1 to 16 `refused 1`, and no more”; else a line
    for each schedule."""
    numbers = drill_input(data)
    if numbers is None:
        yield 'bad line 1'
        return
    n, start, v, a, b = numbers
    if not 1 <= n <= MAX_READERS:
        yield 'refused 1'
        return
    for turns in schedules(a, b):
        shown, rows = run_turns(n, start, v, turns)
        yield f'{shown} {verdict(judge(rows))}'


def drill(data):
    """The whole print of drill for the bytes of its input."""
    return ''.join(line + '\n' for line in drill_lines(data))


# ---------------------------------------------------------------------------- Sizing a drill
# Document 02, card 14, quoted here.

MAX_EACH = 2000  # “writes and reads up to 2,000 each”
SIZING_INPUT = re.compile(rb' '.join([rb'([0-9]+)'] * 3) + rb'\n')


def rows_for(writes, reads):
    """“the log rows with which no begin is refused 7”: row 0, and two for each operation, as one
    that is open has its second row kept free; “the fewest that set-up takes” are 3 (01)."""
    return max(3, 1 + 2 * (writes + reads))


def ticket_words(n, writes, reads):
    """“the least and most words moved if all end”, of the first register. “A write ends at its
    sub-step 2n. A read ends at 2n+3 if the three looks of its first attempt have equal stamps,
    else at 3n+6” (01): so if the writer stores to its reader in between, which may befall each
    read, but each of a write's n stores can fall into one read only."""
    least = 2 * n * writes + (2 * n + 3) * reads
    return least, least + (n + 3) * min(reads, n * writes)


def counted_words(n, writes, reads):
    """The same of the counted register: a write “takes n sub-steps”, a read “takes 2n−1” (02, card
    3), whatever the schedule."""
    words = n * writes + (2 * n - 1) * reads
    return words, words


def sizing_lines(data):
    """What sizing prints. “Question 1 comes first; then larger numbers, then more rows than 4,096,
    each get a plain answer of their own, no figures and no refusal.” Open: the words of these
    lines; a line as on the bench, no longer, and nothing after it."""
    numbers = numbers_of(SIZING_INPUT.fullmatch(data)) if len(data) <= MAX_INPUT else None
    if numbers is None:
        yield 'bad line 1'
        return
    n, writes, reads = numbers
    rows = rows_for(writes, reads)
    if not 1 <= n <= MAX_READERS:
        yield 'refused 1'
    elif max(writes, reads) > MAX_EACH:
        yield f'more than {MAX_EACH}'
    elif rows > MAX_ROWS:
        yield f'more than {MAX_ROWS} rows'
    else:
        for name, words in ('tickets', ticket_words), ('counted', counted_words):
            yield '{} rows {} least {} most {}'.format(name, rows, *words(*numbers))


def sizing(data):
    """The whole print of sizing for the bytes of its input."""
    return ''.join(line + '\n' for line in sizing_lines(data))


# ---------------------------------------------------------------------------- Sessions
# The self-test, and makers of logs that other test programs may use. A maker's pick(k)
# gives a number from 0 to k-1.

class Mismatch(Exception):
    """The model contradicts document 01 or itself."""


def must(holds, what):
    """Stop at the first mismatch."""
    if not holds:
        raise Mismatch(what)


def equal(got, wanted, what):
    """Stop at the first difference."""
    must(got == wanted, f'{what}: {str(got)[:200]!r}, wanted {str(wanted)[:200]!r}')


def pack_band(processor, lowest, highest):
    """The row that ends a read with a band."""
    return pack_row(6, processor, lowest << 16 | highest)


def next_rows(p, is_open, readings, bands):
    """The rows that p may add, with readings below a number; bands too, if they are wanted."""
    if p == 0:
        return [pack_row(2, 0, 0)] if is_open else [pack_row(1, 0, v) for v in range(readings)]
    if not is_open:
        return [pack_row(3, p, 0)]
    return ([pack_row(4, p, v) for v in range(readings)]
            + [pack_band(p, lowest, highest) for highest in range(readings if bands else 0)
               for lowest in range(highest + 1)])


def small_logs(n, readings, length, bands=False):
    """Every well-formed log of n readers, so many readings and so many rows, with start reading 0;
    those with bands too, if they are wanted."""
    logs = [([pack_row(5, n, 0)], frozenset())]
    for _ in range(length - 1):
        logs = [(rows + [row], busy ^ {p}) for rows, busy in logs for p in range(n + 1)
                for row in next_rows(p, p in busy, readings, bands)]
    return [rows for rows, _ in logs]


def log_of(n, start, text=''):
    """A log from words like 'W 5, R 1, r 1 5, R 1, r 1 4..6, w'."""
    rows = [pack_row(5, n, start)]
    for words in (part.split() for part in text.split(',') if part):
        kind = 'WwRr'.index(words[0]) + 1
        processor = int(words[1]) if kind >= 3 else 0
        if '..' in words[-1]:
            rows.append(pack_band(processor, *map(int, words[-1].split('..'))))
        else:
            rows.append(pack_row(kind, processor, int(words[-1]) if kind in (1, 4) else 0))
    return rows


def random_log(pick, n, length, readings):
    """A well-formed log whose results are guesses out of a few readings."""
    rows, busy = [pack_row(5, n, pick(readings))], set()
    while len(rows) < length:
        p = pick(n + 1)
        kind = (1 if p == 0 else 3) + (p in busy)
        rows.append(pack_row(kind, p, pick(readings) if kind in (1, 4) else 0))
        busy ^= {p}
    return rows


def take_turn(register, p, reading):
    """One call of processor p: its next sub-step, or a begin if it is idle, of a write of reading()."""
    if register.open[p] is not None:
        register.step(p)
    elif p == 0:
        register.begin_write(reading())
    else:
        register.begin_read(p)


def run_register(pick, register, length, readings, burst):
    """Calls at random, a processor's in bursts, until the log has this many rows, fewer
    than it can hold."""
    while register.used < length:
        p = pick(register.n + 1)
        for _ in range(1 + pick(burst)):
            take_turn(register, p, lambda: pick(readings))
            if register.used == length:
                break


def fresh_register(n, start, spare=0, rows=MAX_ROWS):
    """A register just set up; words not yet written hold -1."""
    register = Register()
    answer = register.set_up(n, start, [-1] * (n * n + n + spare), [-1] * rows)
    equal(answer, ('set up',), 'set-up')
    return register


def fresh_counted(n, start, fresh, spare=0, rows=MAX_ROWS):
    """The same of the counted register."""
    register = Counted()
    answer = register.set_up(n, start, fresh, [-1] * (n * n + spare), [-1] * rows)
    equal(answer, ('set up',), 'set-up')
    return register


def register_log(pick, n, start, length, readings, burst):
    """A log of the register under a random schedule."""
    register = fresh_register(n, start)
    run_register(pick, register, length, readings, burst)
    return register.log[:length]


def damaged(pick, rows, readings):
    """A log with one read's result replaced by another reading, 0 to readings; the same
    log if no read has ended."""
    ends = [r for r, row in enumerate(rows) if row >> 60 == 4]
    if not ends:
        return rows
    r = ends[pick(len(ends))]
    row = unpack_row(rows[r])
    reading = (row.reading + 1 + pick(readings)) % (readings + 1)
    return rows[:r] + [pack_row(row.kind, row.processor, reading)] + rows[r + 1:]


def banded(pick, rows, width):
    """A log in which about half of the read ends are bands that hold the result, and up to
    width more on either side; those of results that need more than 16 bits stay."""
    def ended(row):
        if row.kind != 4 or row.reading >= 1 << 16 or pick(2) == 0:
            return pack_row(row.kind, row.processor, row.reading)
        return pack_band(row.processor, max(0, row.reading - pick(width + 1)),
                         min(0xFFFF, row.reading + pick(width + 1)))

    return [ended(row) for row in map(unpack_row, rows)]


def steps(register, p, times):
    """So many sub-steps of p; the last answer."""
    answer = None
    for _ in range(times):
        answer = register.step(p)
    return answer


def whole_write(register, v):
    """A write from its begin to its end; the last answer."""
    equal(register.begin_write(v), ('begun',), 'begin of a write')
    return steps(register, 0, 2 * register.n)


def last_result(register):
    """The reading of the last row, which must end a read."""
    row = unpack_row(register.log[register.used - 1])
    equal(row.kind, 4, 'kind of the last row')
    return row.reading


def cell_text(register, place):
    """A cell as the sessions show it."""
    return f'{register.table[place]:016X}'


def test_words():
    """Round trips, and that the rows of the processors fill the table once."""
    pick = random.Random(1).getrandbits
    for _ in range(200):
        word = pick(64)
        equal(pack_cell(unpack_cell(word)), word >> 8 << 8, 'cell')
        row = unpack_row(word)
        equal(pack_row(row.kind, row.processor, row.reading) | row.zero << 32, word, 'row')
        equal(pack_counted(unpack_counted(word)), word, 'counted cell')
    for n in range(1, MAX_READERS + 1):
        places = [cell_index(n, i, j) for i in range(n + 1) for j in range(n + 1) if i != j]
        equal(places, list(range(cells_of(n))), f'places for {n} readers')
        places = [counted_index(n, i, j) for i in range(n + 1) for j in others(n, i)]
        equal(places, list(range(counted_cells_of(n))), f'counted places for {n} readers')


def test_cell_sessions():
    """The sessions that show cells, n=1."""
    register = fresh_register(1, 7)
    equal(cell_text(register, 0), '00000007001FFF00', 'fresh cell 0')
    equal(cell_text(register, 1), '00000000FFFFFF00', 'fresh cell 1')
    for v, stamp in ((9, (2, 0)), (8, (3, 2)), (7, (4, 3))):
        equal(whole_write(register, v), ('step', 2), 'last sub-step of a write')
        equal(unpack_cell(register.table[0]), Cell(v, stamp), 'cell after a write')
        if v == 9:
            equal(cell_text(register, 0), '00000009080FFF00', 'cell 0 after the first write')
    register = fresh_register(1, 7)
    equal(register.begin_read(1), ('begun',), 'begin of a read')
    steps(register, 1, 2)
    equal(cell_text(register, 1), '00000000FFF00100', 'cell 1 after two sub-steps')
    equal(steps(register, 1, 3), ('step', 5), 'last sub-step of a read')
    equal(cell_text(register, 1), '00000000001FFF00', 'cell 1 after the read')


def test_run_sessions():
    """The sessions that show results and rows."""
    register = fresh_register(1, 7)
    register.begin_read(1)
    steps(register, 1, 1)
    whole_write(register, 9)
    equal(steps(register, 1, 8), ('step', 9), 'last sub-step of the second attempt')
    equal(last_result(register), 9, 'result of the second attempt')
    equal(register.step(1), ('refused', 8), 'sub-step after the end')

    register = fresh_register(2, 7)
    register.begin_write(9)
    steps(register, 0, 3)
    for reader in (1, 2):
        register.begin_read(reader)
        equal(steps(register, reader, 7), ('step', 7), 'last sub-step of a read')
        equal(last_result(register), 9, f'result of reader {reader}')

    equal(f'{pack_row(1, 0, 9):016X}', '1000000000000009', 'row W 9')
    equal(f'{pack_row(4, 1, 9):016X}', '4010000000000009', 'row r 1 9')


def changed_places(register, p, times):
    """The place that each of p's next sub-steps alters, or None."""
    places = []
    for _ in range(times):
        before = list(register.table)
        register.step(p)
        altered = [at for at, word in enumerate(register.table) if word != before[at]]
        must(len(altered) <= 1, 'one word a sub-step')
        places += altered or [None]
    return places


def test_new_tickets():
    """Readers, the writer's own stamp and what the cells bar; the new ticket by hand (02, card 2)."""
    for n, own, barred, ticket in (
            (1, (0, 1), (), 2), (1, (2, 0), (), 3), (1, (4, 3), (), 5), (1, (5, 4), (), 0),
            (1, (5, 4), (0, 1), 2), (1, (1, 0), (2, 3), 4), (1, (1, 0), (2, 3, 4), 5),
            (2, (5, 4), (), 6), (2, (8, 7), (), 0), (2, (7, 8), (), 0), (2, (9, 1), (0,), 2),
            (16, (49, 48), (), 50), (16, (50, 49), (0,), 1), (2, NO_STAMP, (), 0)):
        equal(new_ticket(n, own, set(barred)), ticket, f'new ticket of {n}, {own}, {barred}')


def test_rules():
    """Rules that no session shows."""
    register = fresh_register(3, 7)  # which word each sub-step moves
    register.begin_write(9)
    equal(changed_places(register, 0, 6), [None] * 3 + [0, 1, 2], 'stores of a write')
    register.begin_read(2)
    equal(changed_places(register, 2, 9), [None, 6] + [None] * 4 + [7, 8, 6], 'stores of a read')

    register = fresh_register(1, 7)  # only the second look differs
    for v in range(2):
        whole_write(register, v)
    register.begin_read(1)
    steps(register, 1, 1)
    stamp = unpack_cell(register.table[0]).stamp
    for v in range(5):  # of the six names; the sixth write comes round to the same stamp
        whole_write(register, v)
    register.begin_write(3)
    steps(register, 0, 1)
    steps(register, 1, 2)
    steps(register, 0, 1)
    equal(unpack_cell(register.table[0]).stamp, stamp, 'first and third look agree')
    equal(steps(register, 1, 6), ('step', 9), 'last sub-step of the second attempt')
    equal(last_result(register), 3, 'result of the second attempt')

    register = fresh_register(2, 7)  # both attempts fail
    register.begin_read(1)
    for v in (8, 9):
        steps(register, 1, 1)
        whole_write(register, v)
        steps(register, 1, 4)
    equal(steps(register, 1, 2), ('step', 12), 'last sub-step after two attempts')
    equal(last_result(register), 8, 'the second attempt\'s first look')
    for j in (0, 2):
        equal(register.table[cell_index(2, 1, j)], pack_cell(Cell(0, NO_STAMP)), 'stamp none')


def refuses_set_ups(set_up, cases):
    """Questions 1 to 3: each set-up (readers, cells, rows) is refused its number."""
    for n, cells, rows, number in cases:
        answer = set_up(n, [0] * cells, [0] * rows)
        equal(answer, ('refused', number), f'set-up with {n}, {cells}, {rows}')


def refuses_strangers(register):
    """Question 5, at both edges."""
    for reader in (0, register.n + 1):
        equal(register.begin_read(reader), ('refused', 5), 'begin of no reader')
        equal(register.retire(reader), ('refused', 5), 'retirement of no reader')
    equal(register.step(register.n + 1), ('refused', 5), 'sub-step of no processor')


def test_register_questions():
    """Questions 1 to 3 and 5 to 8, each with a call that the next question would refuse."""
    refuses_set_ups(lambda n, table, log: Register().set_up(n, 7, table, log), (
        (0, 0, 2, 1), (17, 0, 2, 1), (2, 5, 2, 2), (2, 6, 2, 3), (2, 6, MAX_ROWS + 1, 3)))
    register = fresh_register(1, 7, rows=3)
    refuses_strangers(register)
    equal(register.step(1), ('refused', 8), 'sub-step of an idle reader')
    equal(register.begin_read(1), ('begun',), 'a log of 3: the one operation')
    equal(register.begin_read(1), ('refused', 6), 'begin of an open reader')
    equal(register.begin_write(1), ('refused', 7), 'a log of 3: a second open operation')
    equal(steps(register, 1, 5), ('step', 5), 'a log of 3: the end')
    equal(register.begin_write(1), ('refused', 7), 'a log of 3: the next begin')
    equal(register.retire(1), ('retired',), 'an idle reader is retired')
    equal(register.begin_read(1), ('refused', 13), 'a log of 3: the begin of a retired reader')

    begun = TicketRange(n=2, cells=6, log=16, rows=16, used=14, busy=2, moved={0: 3, 1: 6},
                        own=[FIRST_STAMP] + [NO_STAMP] * 2)
    questions_of_number(begun)
    questions_of_retired(begun, {0: 3, 1: 7}, {'own': [FIRST_STAMP, (0, 64), NO_STAMP]})


def questions_of_number(begun):
    """Question 4 of a state at its edges with the number of open operations off, and right: two
    are open; or none; or the writer's, where reader 1 is retired and 2 is what a retirement that
    kept the number would leave. There is no reader 3."""
    for change, number in (({}, 2), ({'moved': {}}, 0), ({'retired': {1}}, 1),
                           ({'retired': {2}}, 2), ({'moved': {**begun.moved, 3: 255}}, 2)):
        for used, busy in product((1, begun.used), (0, 1, 2, 3, MAX_ROWS, (1 << 64) - 1)):
            state = replace(begun, used=used, busy=busy, **change)
            equal(in_range(state), busy == number, f'{change}, {used} used: {busy} open')
    for used in (begun.used, begun.used + 1):
        equal(in_range(replace(begun, used=used, busy=1)), False, f'{used} used: 1 open')


def questions_of_retired(begun, too_many, *changes):
    """Question 4 of a state at its edges: with reader 1 retired its words moved do not count, nor
    does it among the open operations; the writer's do, and the further changes."""
    equal(in_range(begun), True, 'a state at its edges')
    for retired in ({1}, {1, 2}):
        unplugged = replace(begun, retired=retired, busy=1)
        for change in ({}, {'used': begun.used + 1}, {'moved': too_many}):
            equal(in_range(replace(unplugged, **change)), True, f'retired {retired}: {change}')
        for change in ({'used': begun.used + 2}, {'moved': {0: 9, 1: 0}}, *changes):
            equal(in_range(replace(unplugged, **change)), False, f'retired {retired}: {change}')
    for change in ({'used': begun.used + 1}, {'moved': too_many}):
        equal(in_range(replace(begun, retired={2}, **change)), False, f'reader 1 is not: {change}')


def test_retired_sessions():
    """Card 1 for the first register: a reader that announced 0,1 and is unplugged, n=1; the row
    that was kept for its end; the tickets that its cell bars."""
    register = fresh_register(1, 7)
    register.begin_read(1)
    steps(register, 1, 2)
    unplug(register, 1)
    equal(whole_write(register, 9), ('step', 2), 'last sub-step of a write')
    equal(cell_text(register, 1), '00000000FFF00100', 'cell 1 as it stood')
    equal(register.log[:register.used], log_of(1, 7, 'R 1, W 9, w'), 'rows of the log')
    tickets = []
    for v in range(8):
        whole_write(register, v)
        tickets.append(unpack_cell(register.table[0]).stamp[0])
    equal(tickets, [3, 4, 5, 2, 3, 4, 5, 2], '0 and 1 are barred for good')
    frees_its_row(fresh_register(1, 7, rows=4))


def unplug(register, reader):
    """Retires the reader, which adds no row and moves no word; then 13 for it."""
    before = list(register.table), register.used
    equal(register.retire(reader), ('retired',), 'retirement')
    for call in (register.begin_read, register.step, register.retire):
        equal(call(reader), ('refused', 13), f'{call.__name__} of a retired reader')
    refuses_strangers(register)
    equal((register.table, register.used), before, 'no word moved and no row added')


def frees_its_row(register):
    """With a log of 4: “stops counting as open in question 7”."""
    equal(register.begin_read(1), ('begun',), 'a log of 4: a read')
    equal(register.begin_write(9), ('refused', 7), 'a log of 4: a write beside it')
    unplug(register, 1)
    equal(register.begin_write(9), ('begun',), 'a log of 4: the write')
    equal(register.begin_write(9), ('refused', 6), 'a log of 4: it is open')


def table_text(register):
    """All cells as the sessions show them."""
    return ' '.join(cell_text(register, place) for place in range(len(register.table)))


def whole_read(register, reader):
    """A read of the counted register from its begin to its end; its result."""
    equal(register.begin_read(reader), ('begun',), 'begin of a read')
    words = 2 * register.n - 1
    equal(steps(register, reader, words), ('step', words), 'last sub-step of a read')
    return last_result(register)


def test_counted_sessions():
    """A write stopped half way, with two reads; the last stamp."""
    register = fresh_counted(2, 7, 5)
    equal(table_text(register), ' '.join(2 * ['0000000700000005'] + 2 * ['0000000000000005']),
          'fresh cells')
    equal(register.begin_write(9), ('begun',), 'begin of a write')
    equal(steps(register, 0, 1), ('step', 1), 'the write stops')
    for reader in (1, 2):
        equal(whole_read(register, reader), 9, f'result of reader {reader}')
    equal(steps(register, 0, 1), ('step', 2), 'last sub-step of the write')
    equal(table_text(register), ' '.join(4 * ['0000000900000006']), 'cells at the end')
    equal(register.log[:register.used],
          log_of(2, 7, 'W 9, R 1, r 1 9, R 2, r 2 9, w'), 'rows of the log')

    register = fresh_counted(1, 7, 4294967294)
    equal(register.begin_write(9), ('begun',), 'begin of the last write')
    equal(steps(register, 0, 1), ('step', 1), 'last sub-step of the last write')
    equal(table_text(register), '00000009FFFFFFFF', 'the last stamp')
    equal(register.begin_write(8), ('refused', 14), 'a write after the last stamp')
    equal(whole_read(register, 1), 9, 'result after the last stamp')


def test_counted_retired():
    """Card 1 for the counted register: reader 1 of 3 is unplugged when it has shown a half written
    9 to reader 2, and not to reader 3; and the row that was kept for its end."""
    register = fresh_counted(3, 7, 5)
    register.begin_write(9)
    steps(register, 0, 1)
    register.begin_read(1)
    equal(steps(register, 1, 4), ('step', 4), 'the first of two stores')
    unplug(register, 1)
    equal(whole_read(register, 2), 9, 'result of the reader that was shown it')
    equal(whole_read(register, 3), 9, 'result of the reader that the other showed it')
    equal(steps(register, 0, 2), ('step', 3), 'last sub-step of the write')
    equal([cell_text(register, place) for place in (3, 4)],
          ['0000000900000006', '0000000000000005'], 'cells of reader 1 as they stood')
    equal(register.log[:register.used],
          log_of(3, 7, 'W 9, R 1, R 2, r 2 9, R 3, r 3 9, w'), 'rows of the log')
    frees_its_row(fresh_counted(1, 7, 5, rows=4))
    register = fresh_counted(1, 7, LAST_STAMP)
    unplug(register, 1)
    equal(register.begin_write(9), ('refused', 14), 'a write after the last stamp')


# Of a read by reader 2 of 3: the other readers' cells to it, the writer's, and the result.
FOREIGN = [
    ((1, 4), (3, 4), (7, 4), (7, 4)), ((1, 4), (3, 5), (7, 4), (3, 5)),
    ((1, 5), (3, 4), (7, 4), (1, 5)), ((1, 5), (3, 5), (7, 4), (1, 5)),
    ((1, 5), (3, 5), (7, 5), (7, 5)), ((1, 4), (3, 6), (7, 6), (7, 6)),
    ((1, 6), (3, 5), (7, 6), (7, 6)), ((1, 0), (3, LAST_STAMP), (7, 1), (3, LAST_STAMP)),
    ((9, 1), (8, 0), (0, 1), (0, 1)), ((1, 5), (3, 6), (7, 4), (3, 6)),
]


def test_counted_rules():
    """Rules that no session shows, for reader 2 of 3, whose places are 5 and 6: which word each
    sub-step moves, on tables of any origin, and in which order it looks."""
    register = fresh_counted(3, 7, 5)
    register.begin_write(9)
    equal(changed_places(register, 0, 3), [0, 1, 2], 'stores of a write')
    register.begin_read(2)
    equal(changed_places(register, 2, 5), [None] * 3 + [5, 6], 'stores of a read')
    equal(cell_text(register, 5), '0000000900000006', 'the result\'s cell')

    for first, third, writers, result in FOREIGN:
        register = fresh_counted(3, 7, 5)
        for place, cell in ((3, first), (8, third), (1, writers)):
            register.table[place] = pack_counted(CountedCell(*cell))
        equal(whole_read(register, 2), result[0], 'reading of a foreign table')
        for place in (5, 6):
            equal(unpack_counted(register.table[place]), result, 'result on a foreign table')

    for moved, reading in enumerate((13, 12, 11)):  # a cell is looked at no earlier, no later
        for at, place in enumerate((3, 8, 1)):
            register = fresh_counted(3, 7, 5)
            register.begin_read(2)
            steps(register, 2, moved)
            register.table[place] = pack_counted(CountedCell(reading, 6))
            steps(register, 2, 5 - moved)
            equal(last_result(register), reading if moved <= at else 7, 'when a cell is looked at')


def test_counted_questions():
    """Questions 1 to 3, 5 to 8 and 14, each with a call that the next question would refuse;
    question 4's edges."""
    refuses_set_ups(lambda n, table, log: Counted().set_up(n, 7, 5, table, log), (
        (0, 0, 2, 1), (17, 0, 2, 1), (2, 3, 2, 2), (16, 255, 2, 2), (2, 4, 2, 3),
        (16, 256, MAX_ROWS + 1, 3)))
    register = fresh_counted(2, 7, LAST_STAMP - 1, rows=7)
    refuses_strangers(register)
    equal(register.step(0), ('refused', 8), 'sub-step of an idle writer')
    equal(register.begin_write(1), ('begun',), 'the last write')
    equal(register.begin_write(2), ('refused', 6), 'a write while the last is open')
    equal(steps(register, 0, 2), ('step', 2), 'the last write ends')
    equal(register.begin_write(3), ('refused', 14), 'a write after the last')
    equal(register.begin_read(1), ('begun',), 'a read after the last write')
    equal(register.begin_write(3), ('refused', 14), 'a write when one more fits')
    equal(register.begin_read(2), ('begun',), 'another read')
    equal(register.begin_read(2), ('refused', 6), 'begin of an open reader')
    equal(register.begin_write(3), ('refused', 7), 'a write after the last in a full log')
    equal(steps(register, 1, 3), ('step', 3), 'the end of a read after the last write')
    equal(register.begin_read(1), ('refused', 7), 'the next begin')

    begun = CountedRange(n=2, cells=4, log=16, rows=16, used=14, busy=2, moved={0: 1, 1: 2},
                         stamp=5)
    questions_of_number(begun)
    questions_of_retired(begun, {0: 1, 1: 3}, {'stamp': LAST_STAMP})
    for change in ({'cells': 3}, {'moved': {0: 2, 1: 2}}, {'moved': {0: 1, 1: 3}},
                   {'stamp': LAST_STAMP}, {'used': 15}, {'n': 17}, {'log': 17}):
        equal(in_range(replace(begun, **change)), False, f'out of range: {change}')
    for change in ({'stamp': LAST_STAMP - 1}, {'stamp': LAST_STAMP, 'moved': {1: 2}, 'busy': 1},
                   {'used': 14}):
        equal(in_range(replace(begun, **change)), True, f'in range: {change}')


class Watched:
    """A register, and what the papers say of each call, told again from the calls. A register's
    own are: the row of a reader, where a retirement meets it, the sub-step at which an operation
    ends, what is noted of a begin and of a look, and the state that question 4 is asked of."""

    def __init__(self, register):
        self.register = register
        self.moved = {}  # words moved by each open processor
        self.cells = {}  # of each retired reader, as it left them
        self.unended = {}  # words moved by each reader retired in a read
        self.tally = Counter()
        self.check_number()

    def call(self, letter, number):
        """Makes the call, which must be answered as it is here."""
        p = 0 if letter == 'W' else number
        refusal = self.refusal(letter, p)
        wanted = ('refused', refusal) if refusal else (ANSWERS[letter],)
        if not refusal:
            wanted += self.accepted(letter, p)
        used = self.register.used
        equal(getattr(self.register, MAKERS[letter])(number), wanted, f'{letter} {number}')
        self.tally[refusal] += 1
        if wanted[0] == 'step':
            self.stepped(p, self.register.used - used)
        else:
            equal(self.register.used - used, int(wanted[0] == 'begun'), 'rows added')
        for reader, cells in self.cells.items():
            equal(self.row(reader), cells, 'cells of a retired reader')
        self.check_number()

    def check_number(self):
        """The number of open operations “equals the count after set-up and after each call” (02,
        card 5), refused ones too."""
        equal(self.register.busy, len(self.moved), 'number of open operations')

    def refusal(self, letter, p):
        """The number of the first question that is answered no, or 0."""
        register = self.register
        free = len(register.log) - register.used
        if not (letter in 'RU') <= p <= register.n:
            return 5
        if p in self.cells:
            return 13
        if letter == 'S':
            return 0 if p in self.moved else 8
        if letter == 'U':
            return 0
        if p in self.moved:
            return 6
        return 7 if free < len(self.moved) + 2 else 14 if letter == 'W' and self.spent() else 0

    def spent(self):
        """Whether the stamps are."""
        return False

    def accepted(self, letter, p):
        """Notes a call that is not refused; a sub-step's number."""
        if letter == 'U':
            self.tally[self.phase(p)] += 1
            self.cells[p] = self.row(p)
            if p in self.moved:
                self.unended[p] = self.moved.pop(p)
        elif letter == 'S':
            self.look(p)
            self.moved[p] += 1
            return (self.moved[p],)
        else:
            self.moved[p] = 0
            self.begun(p)
        return ()

    def stepped(self, p, added):
        """“the others still end within their own sub-steps” (02, card 1), and there."""
        ended = self.moved[p] == self.last_sub_step(p)
        equal(added, int(ended), 'rows added by a sub-step')
        if ended:
            equal(unpack_row(self.register.log[self.register.used - 1]).kind, 4 if p else 2, 'end')
            self.tally['ended beside a retired one'] += bool(self.cells)
            del self.moved[p]

    def left(self):
        """What the list leaves: a log with an order, a state in range, and the rest untouched."""
        register = self.register
        rows = register.log[:register.used]
        equal(judge(rows)[0], 'order', f'log {bytes_of(rows).hex()}')
        must(set(register.log[register.used:]) <= {-1}, 'further rows untouched')
        state = self.state(register.n, len(register.table), len(register.log), len(register.log),
                           register.used, register.busy, {**self.moved, **self.unended},
                           retired=set(self.cells))
        must(in_range(state), 'question 4')


class WatchedTickets(Watched):
    """The register of document 01."""

    def __init__(self, n, start, rows):
        super().__init__(fresh_register(n, start, spare=2, rows=rows))
        self.looks = {}  # the stamps that each open read's first attempt finds at the writer
        self.barred = set()  # by the readers that were retired when the open write began

    def row(self, reader):
        n = self.register.n
        return self.register.table[n * reader:n * reader + n]

    def phase(self, reader):
        """Where a reader is retired."""
        n, moved = self.register.n, self.moved.get(reader)
        if moved is None or moved < 2:
            return {None: 'idle', 0: 'begun', 1: 'first look'}[moved]
        if moved < n + 3:
            return 'announced'
        second = len(set(self.looks[reader])) > 1
        return 'second attempt' if second and moved < 2 * n + 6 else 'stores'

    def begun(self, p):
        self.looks[p] = []
        if p == 0:
            cells = [unpack_cell(cells[0]) for cells in self.cells.values()]
            self.barred = barred_by(cells) - {NONE}

    def look(self, p):
        """The first, second and third look of the first attempt."""
        n = self.register.n
        if p > 0 and self.moved[p] in (0, 2, n + 2):
            word = self.register.table[cell_index(n, 0, p)]
            self.looks[p].append(unpack_cell(word).stamp)

    def last_sub_step(self, p):
        """“A write ends at its sub-step 2n. A read ends at 2n+3 if the three looks of its first
        attempt have equal stamps, else at 3n+6.”"""
        n = self.register.n
        if p == 0:
            return 2 * n
        return 2 * n + 3 if len(set(self.looks[p])) == 1 else 3 * n + 6

    def stepped(self, p, added):
        """“the tickets in them go on being barred” (02, card 1)."""
        if p == 0 and self.moved[0] == self.register.n + 1:
            must(unpack_cell(self.register.table[0]).stamp[0] not in self.barred, 'a barred ticket')
            self.tally['tickets barred by a retired one'] += bool(self.barred)
        super().stepped(p, added)

    def state(self, *sizes, retired):
        register = self.register
        second = {p for p in range(1, register.n + 1)
                  if register.open[p] is not None and register.open[p].attempt == 2}
        write = register.open[0] or Operation()
        return TicketRange(*sizes, register.own, second, barred_by(write.seen), write.stamp[0],
                           retired=retired)

    def left(self):
        super().left()
        check_table(self.register)


class WatchedCounted(Watched):
    """The counted register."""

    def __init__(self, n, start, rows, fresh):
        super().__init__(fresh_counted(n, start, fresh, spare=2, rows=rows))
        self.last = fresh  # stamp used

    def row(self, reader):
        n = self.register.n
        at = n + (reader - 1) * (n - 1)
        return self.register.table[at:at + n - 1]

    def phase(self, reader):
        """Where a reader is retired."""
        moved = self.moved.get(reader)
        if not moved:
            return 'idle' if moved is None else 'begun'
        return 'looks' if moved < self.register.n else 'stores'

    def spent(self):
        return self.last == LAST_STAMP

    def begun(self, p):
        self.last += p == 0

    def look(self, p):
        """“the largest stamp a read meets is the one it finds at the writer or one more”: asked
        when it has met all, of the model's own."""
        if p > 0 and self.moved[p] == self.register.n:
            stamps = [cell.stamp for cell in self.register.open[p].seen]
            more = max(stamps) - stamps[-1]
            must(more in (0, 1), 'the largest stamp is the writer\'s or one more')
            self.tally['one more'] += more

    def last_sub_step(self, p):
        """“A write … takes n sub-steps”, a read “takes 2n−1”."""
        return 2 * self.register.n - 1 if p else self.register.n

    def stepped(self, p, added):
        """“A reader's begins and steps go on after the stamps are spent.”"""
        self.tally['ended after the last'] += bool(p and added and self.spent())
        super().stepped(p, added)

    def state(self, *sizes, retired):
        return CountedRange(*sizes, self.register.stamp, retired=retired)

    def left(self):
        super().left()
        n = self.register.n
        must(set(self.register.table[n * n:]) == {-1}, 'further cells untouched')
        stamps = [unpack_counted(word).stamp for word in self.register.table[:n * n]]
        must(max(stamps) <= self.last, 'stamps of the table')


MAKERS = {'W': 'begin_write', 'R': 'begin_read', 'S': 'step', 'U': 'retire'}
ANSWERS = {'W': 'begun', 'R': 'begun', 'S': 'step', 'U': 'retired'}


def watched_list(pick, watched):
    """A random list of calls, refused ones among them: bursts of one processor, begins and
    sub-steps of any, now and then a retirement of any."""
    n = watched.register.n
    burst, rare = 1 + pick(3 * n), 4 + pick(40)
    for _ in range(20 + pick(60)):
        p = pick(n + 2)
        if pick(4):
            watched.call(*(('W', pick(4)) if p == 0 else ('R', p)))
        for _ in range(1 + pick(burst)):
            if pick(burst * rare) == 0:
                watched.call('U', p if pick(2) else pick(n + 2))
            watched.call('S', p)
    watched.left()
    return watched.tally + Counter(lists=1)


def list_sizes(pick, trial):
    """Readers, start reading and rows of a list."""
    n = 1 + trial % 5 if trial % 4 else 1 + pick(MAX_READERS)
    return n, pick(4), 3 + pick((8, 40, 400)[pick(3)])


def test_lists():
    """Random lists of calls of both registers; how many calls, and of these retirements by
    where they met the reader."""
    pick = random.Random(4).randrange
    tally, counted = Counter(), Counter()
    for trial in range(1600):
        tally += watched_list(pick, WatchedTickets(*list_sizes(pick, trial)))
        fresh = (0, 5, LAST_STAMP - pick(9), pick(1 << 32))[pick(4)]
        counted += watched_list(pick, WatchedCounted(*list_sizes(pick, trial), fresh))
    answers = (0, 5, 6, 7, 8, 13, 'ended beside a retired one')
    phases = 'idle', 'begun', 'first look', 'announced', 'second attempt', 'stores'
    counted_phases = 'idle', 'begun', 'looks', 'stores'
    must(min(tally[k] for k in (*answers, 'tickets barred by a retired one')) > 100,
         'every answer is common')
    must(min(counted[k] for k in (*answers, 14, 'one more', 'ended after the last')) > 100,
         'every answer of the counted register is common')
    for name, each, where in ('', tally, phases), ('counted ', counted, counted_phases):
        must(min(each[phase] for phase in where) > 20, 'retirements everywhere')
        calls = sum(times for k, times in each.items() if isinstance(k, int))
        yield (f'{name}register: {each["lists"]} lists of {calls} calls, every log with an order; '
               'retired ' + ', '.join(f'{phase}: {each[phase]}' for phase in where))


JUDGE_SESSIONS = [
    (2, 7, 'W 5, R 1, r 1 5, R 2, r 2 7', 'no order 4'),
    (2, 7, 'W 5, R 2, r 2 7, R 1, r 1 5', 'order 2 1 4'),
    (2, 7, 'W 5, R 1, w, W 6, w, W 5, r 1 5, R 2, r 2 6', 'order 1 2 4 8'),
    (2, 7, '', 'order'),
    # Open: all writes are kept when the row of refusal 12 is sought.
    (2, 7, 'R 1, W 5, w, r 1 5, R 2, r 2 7', 'no order 5'),
    # Card 9: regular but inverted; only the second of two equal readings will do; no choice of
    # writes is both regular and without inversion.
    (2, 7, 'W 5, w, W 6, R 1, r 1 6, R 2, r 2 5', 'no order 6'),
    (2, 7, 'W 5, w, W 6, R 2, r 2 6, R 1, w, W 5, r 1 5', 'order 1 3 4 8 6'),
    (2, 7, 'W 5, w, W 7, R 1, r 1 7, R 1, r 1 5', 'no order 6'),
    # Card 6: reads behind the start, and behind a write, by end row; the row of 12 by begin row.
    (2, 7, 'R 1, R 2, r 2 7, r 1 7, W 5, R 1, R 2, r 2 5, r 1 5', 'order 2 1 5 7 6'),
    (2, 7, 'W 5, w, R 1, R 2, r 2 7, r 1 7', 'no order 3'),
    # Card 13: a band met at either end, and missed by one; across writes the earliest; a reading
    # of more than 16 bits in none.
    (2, 7, 'R 1, W 5, w, W 6, w, r 1 5..6, R 2, r 2 4..6', 'order 2 1 4 7'),
    (2, 7, 'R 1, r 1 7..7', 'order 1'),
    (2, 7, 'R 1, r 1 8..9', 'no order 1'),
    (2, 7, 'R 1, r 1 5..6', 'no order 1'),
    (2, 7, 'W 65541, w, R 1, r 1 0..65535', 'no order 3'),
    (2, 7, 'R 1, r 1 7, W 5, R 1, r 1 4..5, R 1, r 1 6..8', 'no order 6'),
]

MALFORMED = [
    [0x1000000000000007], [0x5000000000000007], [0x5110000000000007], [0x5010000100000007],
    [0x5010000000000007, 0x0000000000000000], [0x5010000000000007, 0x5010000000000007],
    [0x5010000000000007, 0x1000000100000005], [0x5010000000000007, 0x1010000000000005],
    [0x5010000000000007, 0x3000000000000000], [0x5010000000000007, 0x3020000000000000],
    [0x5010000000000007, 0x3010000000000001], [0x5010000000000007, 0x2000000000000000],
    [0x5010000000000007, 0x1000000000000005, 0x2000000000000005],
    [0x5010000000000007, 0x1000000000000005, 0x1000000000000005],
    [0x5010000000000007, 0x3010000000000000, 0x6010000000080007],
    [0x5010000000000007, 0x6010000000070008], [0x5010000000000007, 0x7010000000000000],
    [0x5010000000000007, 0x1000000000000005, 0x6000000000050008],
]


def test_judge_questions():
    """The judge's sessions and questions 9 to 11."""
    for n, start, text, line in JUDGE_SESSIONS:
        rows = log_of(n, start, text)
        equal(verdict(judge(rows)), line, text)
        equal(brute(rows), sweep(rows), text)
        equal(is_atomic(rows), line.startswith('order'), 'atomic: ' + text)
        equal(judge(rows, begin_rows(rows)), judge(rows), 'just enough order places')
        if text:
            equal(judge(rows, begin_rows(rows) - 1), ('refused', 11), 'one place too few')
    for rows in MALFORMED:
        equal(judge(rows, 0), ('refused', 10), 'malformed ' + bytes_of(rows).hex())
    one = log_of(1, 7)
    for data in (b'', b'\0', bytes_of(one)[:7], bytes_of(one) + b'\0', bytes(8 * 4097)):
        equal(judge_bytes(data), ('refused', 9), f'{len(data)} bytes')
    equal(judge_bytes(bytes_of(one)), ('order', []), 'row 0 alone as bytes')


BENCH_SESSIONS = [
    (b'1 7\nW 9\nS 0\nS 0\nR 1\n' + b'S 1\n' * 5,
     'readers 1 start 7\n1 W 9\n2 w\n3 R 1\n4 r 1 9\norder 1 3\n'),
    (b'', 'bad line 1\n'),
    (b'\n', 'bad line 1\n'),
    (b'1 7', 'bad line 1\n'),
    (b'1 7\n', 'readers 1 start 7\norder\n'),
    (b'01 4294967295\n', 'readers 1 start 4294967295\norder\n'),
    (b'1 4294967296\n', 'bad line 1\n'),
    (b'1  7\n', 'bad line 1\n'),
    (b'1 7 \n', 'bad line 1\n'),
    (b'1 +7\n', 'bad line 1\n'),
    (b'1 7\r\n', 'bad line 1\n'),
    (b'0 7\n', 'refused 1\n'),
    (b'17 7\nX\n', 'refused 1\n'),
    (b'4294967295 7\n', 'refused 1\n'),
    (b'4294967296 7\n', 'bad line 1\n'),
    (b'1 7\nS 1\nR 2\nW\nR 1\n', 'refused 8\nrefused 5\nbad line 4\n'),
    (b'1 7\nS 1', 'bad line 2\n'),
    (b'1 7\nW 1\nW 2\n', 'refused 6\nreaders 1 start 7\n1 W 1\norder\n'),
    (b'1 ' + b'0' * 65532 + b'7\n', 'readers 1 start 7\norder\n'),
    (b'1 ' + b'0' * 65533 + b'7\n', 'bad line 1\n'),
    (b'0 ' + b'0' * 65533 + b'7\n', 'bad line 1\n'),
    (b'1 7\nS 1\n' + b'S 0\n' * 16383, 'bad line 1\n'),
]


def test_bench():
    """The bench's session and its bad lines."""
    for data, print_ in BENCH_SESSIONS:
        equal(bench(data), print_, f'bench of {data[:40]!r}')


# Card 11, by hand: inputs and prints.
DRILL_SESSIONS = [
    (b'1 7 9 1 1\n', 'wr order\nrw order\n'),
    (b'01 007 0009 1 0000000000000001\n', 'wr order\nrw order\n'),
    (b'1 7 9 1 0\n', 'w order\n'),
    (b'16 7 9 0 1\n', 'r order\n'),
    (b'1 7 9 3 0\n', 'wwW order 1\n'),
    (b'1 7 9 0 6\n', 'rrrrrR order 2\n'),
    (b'1 7 9 2 1\n', 'wwr order 1\nwrw order 1\nrww order 1\n'),
    (b'1 7 9 2 2\n', 'wwrr order 1\nwrwr order 1\nwrrw order 1\nrwwr order 1\nrwrw order 1\n'
                     'rrww order 1\n'),
    (b'1 7 9 1 5\n', 'wrrrrr order 2\nrwrrrr order 2\nrrwrrr order 2\nrrrwrr order 2\n'
                     'rrrrwr order 2\nrrrrrw order 2\n'),
    (b'1 7 9 16 0\n', 'ww' + 'W' * 14 + ' order 1\n'),
    (b'16 4294967295 0 0 16\n', 'r' * 16 + ' order\n'),
    (b'1 ' + b'0' * 65526 + b'7 9 1 0\n', 'w order\n'),  # 65,536 bytes
    (b'0 7 9 1 1\n', 'refused 1\n'),
    (b'17 7 9 8 8\n', 'refused 1\n'),
    (b'4294967295 7 9 0 16\n', 'refused 1\n'),
]

# Inputs that are `bad line 1`: no line, or one of other fields;
BAD_DRILLS = [
    b'', b'\n', b'1 7 9 1 1', b'1 7\n', b'1 7 9 1\n', b'1 7 9 1 \n', b'1 7 9 1 1 1\n',
    b'1  7 9 1 1\n', b'1 7 9 1  1\n', b' 1 7 9 1 1\n', b'1 7 9 1 1 \n', b'1 7 9 1 1\r\n',
    b'1\t7 9 1 1\n', b'1 +7 9 1 1\n', b'-1 7 9 1 1\n', b'1 7 9 1 0x1\n', b'1 7 9 /1 1\n',
    b'1 7 9 :1 1\n', b'1\n7 9 1 1\n', b'1,7,9,1,1\n', b'1 7 9 1 1\0\n', b'w 7 9 1 1\n',
    # numbers of 33 bits, of which the lower 32 would do, and one of many digits;
    b'4294967297 7 9 1 1\n', b'1 4294967303 9 1 1\n', b'1 7 4294967305 1 1\n',
    b'1 7 9 4294967297 1\n', b'1 7 9 1 4294967297\n', b'1 7 9 4294967296 1\n',
    b'1 18446744073709551623 9 1 1\n',
    # input after it;
    b'1 7 9 1 1\n\n', b'1 7 9 1 1\n1 7 9 1 1\n', b'1 7 9 1 1\n1', b'1 7 9 1 1\n\0',
    b'\n1 7 9 1 1\n', b'1 7 9 1 1\n ', b'1 7\nW 9\nS 0\n',
    # turns not 1 to 16, and sums that would be if they were kept in 32 bits;
    b'1 7 9 0 0\n', b'1 7 9 17 0\n', b'1 7 9 0 17\n', b'1 7 9 8 9\n', b'1 7 9 16 1\n',
    b'1 7 9 4294967295 2\n', b'1 7 9 9 4294967295\n', b'1 7 9 2147483648 2147483649\n',
    b'1 7 9 4294967295 4294967295\n',
    # 65,537 bytes;
    b'1 ' + b'0' * 65527 + b'7 9 1 0\n', b'0 ' + b'0' * 65527 + b'7 9 1 0\n',
    # and such lines with n not 1 to 16.
    b'0 7 9 8 9\n', b'17 7 9 0 0\n', b'17 7 9 1 1', b'0 7 9 1 1\n0 7 9 1 1\n', b'0 7 9 1 1\n\n',
    b'0 7 9 1\n', b'4294967295 7 9 1 4294967296\n',
]

# n, start, v, the turns as they are shown, and the rows: the read before the write, behind it and
# overtaken, which is a session of document 01; a write half way, of two readers.
TURN_SESSIONS = [
    (1, 7, 9, 'rrrrrRwwW', 'W 9, R 1, r 1 7, w'), (1, 7, 9, 'wwWrrrrrR', 'W 9, R 1, w, r 1 9'),
    (1, 7, 9, 'rwwrrrrrrrrR', 'W 9, R 1, w, r 1 9'), (1, 7, 9, 'rrrwwr', 'W 9, R 1, w'),
    (1, 7, 9, 'rrrrwwr', 'W 9, R 1, w, r 1 7'), (1, 7, 9, 'wrrrrrw', 'W 9, R 1, r 1 7, w'),
    (2, 7, 9, 'wwwrrrrrrrRw', 'W 9, R 1, r 1 9, w'),
    (2, 7, 9, 'rwwwrrrrrrrrrrr', 'W 9, R 1, r 1 9'), (2, 7, 9, 'rwwwrrrrrrrrrr', 'W 9, R 1'),
]


def bench_of_turns(n, start, v, turns):
    """The bench's print for the same calls: a line for each refused turn first."""
    calls = [f'{n} {start}', f'W {v}', 'R 1', *(f'S {"wr".index(turn)}' for turn in turns)]
    return bench(''.join(call + '\n' for call in calls).encode())


def test_drill_sessions():
    """Card 11 on inputs and schedules written out by hand; of the latter, “the judge's line as on
    the bench”, where “Turns after an end are refused 8”, too."""
    for data, print_ in DRILL_SESSIONS:
        equal(drill(data), print_, f'drill of {data[:40]!r}')
    for data in BAD_DRILLS:
        equal(drill(data), 'bad line 1\n', f'drill of {data[:40]!r}')
    for n, start, v, shown, text in TURN_SESSIONS:
        turns, rows = shown.lower(), log_of(n, start, text)
        equal(run_turns(n, start, v, turns), (shown, rows), f'{n} readers, {shown}')
        refused = ['refused 8' for turn in shown if turn in 'WR']
        equal(bench_of_turns(n, start, v, turns).splitlines(),
              [*refused, *listing(rows), verdict(brute(rows))], f'bench of {n} readers, {shown}')


@cache
def sorted_schedules(length):
    """Schedules told again, by the writer's turns: all words of w and r of this length with so many
    w, sorted falling, as r comes before w."""
    words = [''.join(letters) for letters in product('rw', repeat=length)]
    return {a: sorted((word for word in words if word.count('w') == a), reverse=True)
            for a in range(length + 1)}


def test_schedules():
    """Card 11: all schedules that there are may follow either turn, and “they are as many as the
    ways to pick a of a+b turns”. How many there are."""
    tally = 0
    for length in range(1, MAX_TURNS + 1):
        for a, words in sorted_schedules(length).items():
            for told in (schedules, after_writer, after_reader):
                equal(told(a, length - a), words, f'{told.__name__} of {a} turns of {length}')
            equal(len(words), comb(length, a), f'schedules of {a} turns of {length}')
            tally += len(words)
    return tally


NEVER = MAX_TURNS  # no turn


def turn_place(turns, letter, number):
    """Where the turn of this letter and this number, from 1, stands; or NEVER."""
    places = [at for at, turn in enumerate(turns) if turn == letter]
    return places[number - 1] if number <= len(places) else NEVER


def retold_turns(n, start, v, turns):
    """run_turns told again from the turns alone. Reader 1's word is stored at the write's sub-step
    n+1, with another stamp; a read looks at it at its sub-steps 1, 3 and n+3. If it is stored in
    between, there is a second attempt, which nothing disturbs. So “A write ends at its sub-step
    2n. A read ends at 2n+3 if the three looks of its first attempt have equal stamps, else at
    3n+6” (01), with the start reading if it was stored behind the looks, or never."""
    stored, first, third = (turn_place(turns, *of) for of in (('w', n + 1), ('r', 1), ('r', n + 3)))
    last = 3 * n + 6 if first < stored < third else 2 * n + 3
    ends = {'w': turn_place(turns, 'w', 2 * n), 'r': turn_place(turns, 'r', last)}
    shown = ''.join(turn.upper() if at > ends[turn] else turn for at, turn in enumerate(turns))
    rows = {'w': 'w', 'r': f'r 1 {start if third < stored else v}'}
    ended = [rows[turn] for at, turn in enumerate(turns) if at == ends[turn]]
    return shown, log_of(n, start, ', '.join([f'W {v}', 'R 1', *ended]))


@cache
def brute_line(*rows):
    """The judge's line by the definition."""
    return verdict(brute(rows))


def drill_numbers():
    """n, start, v, a and b of drills: all of few turns for any readers, a write of the start's
    reading among them; longer ones, so that each operation may end, the read behind a write half
    way and after its second attempt, too, and be refused a turn after that."""
    for n, length in product(range(1, MAX_READERS + 1), range(1, 9)):
        yield from ((n, 7, 7 + n % 3, a, length - a) for a in range(length + 1))
    yield from ((1, 7, 9, a, length - a) for length in range(9, 12) for a in range(length + 1))
    yield from ((1, 7, 7, 3, 7), (1, 4294967295, 0, 3, 13), (1, 0, 4294967295, 4, 12),
                (2, 7, 7, 3, 8), (2, 7, 9, 3, 13), (2, 7, 9, 4, 12), (3, 7, 9, 5, 10),
                (3, 7, 9, 6, 9), (3, 7, 9, 1, 15), (5, 7, 9, 13, 3), (6, 7, 9, 1, 15),
                (8, 7, 9, 15, 1), (8, 7, 9, 16, 0))


def test_drills():
    """Card 11, line by line: turns and rows told again, and the judge's line by the definition,
    which finds an order always."""
    tally = Counter()
    for numbers in drill_numbers():
        *register, a, b = numbers
        lines = []
        for turns in sorted_schedules(a + b)[a]:
            shown, rows = retold_turns(*register, turns)
            equal(run_turns(*register, turns), (shown, rows), f'{register}: {turns}')
            line = brute_line(*rows)
            must(line.startswith('order'), f'an order of {register}: {turns}')
            lines.append(f'{shown} {line}\n')
            tally.update(['lines', line, *(set(shown) & {'W', 'R'})])
        equal(drill(b'%d %d %d %d %d\n' % numbers), ''.join(lines), f'drill of {numbers}')
    common = ('W', 'R', 'order', 'order 1', 'order 2', 'order 1 2', 'order 2 1')
    must(min(tally[k] for k in common) > 100, 'every line is common')
    return tally


# Card 14, by hand: inputs and prints.
SIZING_SESSIONS = [
    (b'1 0 0\n', 'tickets rows 3 least 0 most 0\ncounted rows 3 least 0 most 0\n'),
    (b'1 1 0\n', 'tickets rows 3 least 2 most 2\ncounted rows 3 least 1 most 1\n'),
    (b'1 0 1\n', 'tickets rows 3 least 5 most 5\ncounted rows 3 least 1 most 1\n'),
    (b'1 1 1\n', 'tickets rows 5 least 7 most 11\ncounted rows 5 least 2 most 2\n'),
    (b'03 002 5\n', 'tickets rows 15 least 57 most 87\ncounted rows 15 least 31 most 31\n'),
    (b'16 1 2000\n', 'tickets rows 4003 least 70032 most 70336\n'
                     'counted rows 4003 least 62016 most 62016\n'),
    (b'1 2000 47\n', 'tickets rows 4095 least 4235 most 4423\n'
                     'counted rows 4095 least 2047 most 2047\n'),
    (b'1 ' + b'0' * 65530 + b'1 1\n', 'tickets rows 5 least 7 most 11\n'  # 65,536 bytes
                                      'counted rows 5 least 2 most 2\n'),
    (b'1 2000 48\n', 'more than 4096 rows\n'),
    (b'16 2000 2000\n', 'more than 4096 rows\n'),
    (b'1 2001 0\n', 'more than 2000\n'),
    (b'16 0 2001\n', 'more than 2000\n'),
    (b'1 4294967295 4294967295\n', 'more than 2000\n'),
    (b'0 1 1\n', 'refused 1\n'),
    (b'17 1 1\n', 'refused 1\n'),
    (b'17 2001 2001\n', 'refused 1\n'),
    (b'4294967295 2000 2000\n', 'refused 1\n'),
]

# Inputs that are `bad line 1`.
BAD_SIZINGS = [
    b'', b'\n', b'1 1 1', b'1 1\n', b'1 1 \n', b'1 1 1 1\n', b'1  1 1\n', b' 1 1 1\n', b'1 1 1 \n',
    b'1 1 1\r\n', b'1\t1 1\n', b'1 +1 1\n', b'1 1 -1\n', b'1 1 0x1\n', b'1 1 1\0\n', b'1\n1 1\n',
    b'4294967297 1 1\n', b'1 4294967297 1\n', b'1 1 4294967296\n', b'1 1 18446744073709551617\n',
    b'1 1 1\n\n', b'1 1 1\n1 1 1\n', b'1 1 1\n1', b'\n1 1 1\n', b'1 1 1\n\0',
    b'1 ' + b'0' * 65531 + b'1 1\n', b'0 1 1', b'17 2001\n', b'0 1 1\n\n',
]


def test_sizing_sessions():
    """Card 14 on inputs written out by hand."""
    for data, print_ in SIZING_SESSIONS:
        equal(sizing(data), print_, f'sizing of {data[:40]!r}')
    for data in BAD_SIZINGS:
        equal(sizing(data), 'bad line 1\n', f'sizing of {data[:40]!r}')


def copied(register):
    """A register that goes on by itself."""
    other = copy(register)
    other.table, other.log = list(register.table), list(register.log)
    other.open = [op and Operation(op.reading, op.stamp, op.moved, op.attempt, list(op.seen))
                  for op in register.open]
    if isinstance(register, Register):
        other.own = list(register.own)
    return other


def standing(register):
    """Where a register stands, as a value. How many rows it has used follows from the operations
    that are begun and those that are open."""
    own = tuple(register.own) if isinstance(register, Register) else register.stamp
    return (*register.table, own,
            tuple(op and (op.stamp, op.moved, op.attempt, *op.seen) for op in register.open))


class Full(Exception):
    """A begin was refused 7."""


def every_end(register, writes, reads, ends):
    """The least and the most words from here to the end of all operations, with so many writes and
    reads not begun, over every schedule and every sharing: at each place every processor takes
    the next call, and any idle reader may begin a read. Readings, which move no word, are all 0;
    ends has the answers by place."""
    place = (standing(register), writes, reads)
    if place not in ends:
        found = [after(register, p, writes, reads, ends) for p in range(register.n + 1)
                 if register.open[p] is not None or (reads if p else writes)]
        ends[place] = (min((least for least, _ in found), default=0),
                       max((most for _, most in found), default=0))
    return ends[place]


def after(register, p, writes, reads, ends):
    """The same behind the next call of processor p."""
    register = copied(register)
    if register.open[p] is not None:
        register.step(p)
        least, most = every_end(register, writes, reads, ends)
        return least + 1, most + 1
    if (register.begin_read(p) if p else register.begin_write(0)) == ('refused', 7):
        raise Full
    return every_end(register, writes - (p == 0), reads - (p > 0), ends)


def brute_figures(fresh, n, writes, reads):
    """The fewest rows that set-up takes with which no begin is refused, and then the least and the
    most words; how many places there are."""
    for rows in count(3):
        ends = {}
        try:
            return (rows, *every_end(fresh(n, rows), writes, reads, ends)), len(ends)
        except Full:
            pass


REGISTERS = ((lambda n, rows: fresh_register(n, 0, rows=rows), ticket_words),
             (lambda n, rows: fresh_counted(n, 0, 0, rows=rows), counted_words))

# n, and how many writes and reads at most
SMALL_DRILLS = ((1, 4, 4), (2, 2, 3), (2, 3, 1), (3, 2, 1), (3, 1, 2), (4, 1, 1), (5, 0, 1))


def test_sizes():
    """Card 14: the figures of small drills over every schedule and sharing. How many drills and
    places there were."""
    drills = places = 0
    for n, most_writes, most_reads in SMALL_DRILLS:
        for writes, reads in product(range(most_writes + 1), range(most_reads + 1)):
            for fresh, words in REGISTERS:
                figures, met = brute_figures(fresh, n, writes, reads)
                equal(figures, (rows_for(writes, reads), *words(n, writes, reads)),
                      f'figures of {n} readers, {writes} writes, {reads} reads')
                drills, places = drills + 1, places + met
    return drills, places


def finish(register, p):
    """Sub-steps to the end of processor p's operation: how many."""
    moved = 0
    while register.open[p] is not None:
        moved = register.step(p)[1]
    return moved


def alone(register, writes, reads):
    """Every operation by itself, which gives the least. The words."""
    words = 0
    for k in range(writes + reads):
        p = 0 if k < writes else 1 + k % register.n
        must((register.begin_read(p) if p else register.begin_write(k)) == ('begun',), 'a begin')
        words += finish(register, p)
    return words


def disturbed(register, writes, reads):
    """Before each store of a write, while there are reads to do, the reader that it is for begins
    and looks; behind the store its read runs to its end: the most. The words."""
    n, words = register.n, 0
    for k in range(writes):
        must(register.begin_write(k) == ('begun',), 'a begin')
        for sub_step in range(1, 2 * n + 1):
            reader = sub_step - n
            begins = reader > 0 and reads > 0
            if begins:
                must(register.begin_read(reader) == ('begun',), 'a begin')
                register.step(reader)
            register.step(0)
            words += 1
            if begins:
                reads -= 1
                words += finish(register, reader)
    return words + alone(register, 0, reads)


def shuffled(pick, register, writes, reads):
    """Calls at random till all have ended. The words."""
    words = 0
    while writes or reads or register.busy:
        p = pick(register.n + 1)
        if register.open[p] is not None:
            register.step(p)
            words += 1
        elif reads if p else writes:
            must((register.begin_read(p) if p else register.begin_write(pick(9))) == ('begun',),
                 'a begin')
            writes, reads = writes - (p == 0), reads - (p > 0)
    return words


def test_sized_runs():
    """Card 14 for any number of readers: with so many rows no begin is refused, and the words are
    between the least and the most, each of which one schedule has. How many runs, and in how many
    the words were strictly between."""
    pick, tally = random.Random(14).randrange, Counter()
    for trial in range(320):
        n, writes, reads = 1 + trial % MAX_READERS, pick(12), pick(40)
        rows = rows_for(writes, reads)
        for fresh, words in REGISTERS:
            least, most = words(n, writes, reads)
            equal(alone(fresh(n, rows), writes, reads), least, 'words of operations alone')
            moved = shuffled(pick, fresh(n, rows), writes, reads)
            must(least <= moved <= most, 'words of a random schedule')
            tally.update(['runs', 'between'] if least < moved < most else ['runs'])
        equal(disturbed(fresh_register(n, 0, rows=rows), writes, reads),
              ticket_words(n, writes, reads)[1], 'words of disturbed reads')
    return tally


def test_judges():
    """Brute force against the sweep on small logs of every sort, half of them with bands."""
    pick = random.Random(2).randrange
    tally = {'order': 0, 'refused': 0}
    for trial in range(18000):
        n, readings = 1 + pick(4), 1 + pick(4)
        sort = trial % 3
        if sort == 0:
            rows = random_log(pick, n, 1 + pick(13), readings)
        else:
            rows = register_log(pick, n, pick(readings), 1 + pick(13), readings, 1 + pick(12))
        if sort == 2:
            rows = damaged(pick, rows, readings)
        if trial % 2:
            rows = banded(pick, rows, 2)
        name = bytes_of(rows).hex()
        must(well_formed(rows), 'well-formed log ' + name)
        answer = brute(rows)
        equal(sweep(rows), answer, 'sweep of ' + name)
        equal(is_atomic(rows), answer[0] == 'order', 'atomic: ' + name)
        must(sort != 1 or answer[0] == 'order', 'order of the register\'s log ' + name)
        tally[answer[0]] += 1
    must(min(tally.values()) > 2000, 'both judgments are common')
    return tally


def test_definitions():
    """Card 9 on every log of a few rows: atomic by CS-R8704 exactly if there is an order, and
    exactly if there is one that holds the unended write, too. With two choices of writes the
    definitions would differ, but on no log of fewer than 8 rows. Card 13: the same with bands,
    where brute force and the sweep agree, too."""
    tally = 0
    for n, readings, most, bands in ((1, 2, 8, False), (2, 2, 7, False), (2, 3, 6, False),
                                     (1, 3, 7, True), (2, 2, 6, True)):
        for length in range(1, most + 1):
            differing = 0
            for rows in small_logs(n, readings, length, bands):
                name = bytes_of(rows).hex()
                start, deeds = start_of(rows), deeds_of(rows)
                atomic = is_atomic(rows)
                equal(next(orders(deeds, start), None) is not None, atomic, 'order of ' + name)
                full = [deed for deed in deeds if deed.is_write or deed.end is not None]
                equal(next(arrangements([], full, start), None) is not None, atomic,
                      'order with every write of ' + name)
                if bands:
                    equal(sweep(rows), brute(rows), 'sweep of ' + name)
                differing += is_atomic_by_two_choices(rows) != atomic
                tally += 1
            equal(differing, 6 if length == 8 else 0, f'two choices, {length} rows')
    return tally


# Card 10, by hand: name, n, start reading, rows, reads and lags of each reader, those of all.
SHEET_SESSIONS = [
    ('nothing', 2, 7, '', [(0, 0), (0, 0)], (0, 0)),
    ('no-write', 1, 7, 'R 1, r 1 7', [(1, 0)], (1, 0)),
    # A read over two whole writes: 2 have begun before its end row; it stands behind the start,
    # the first or the second.
    ('over-two-behind-the-start', 1, 7, 'R 1, W 5, w, W 6, w, r 1 7', [(1, 2)], (1, 2)),
    ('over-two-behind-the-first', 1, 7, 'R 1, W 5, w, W 6, w, r 1 5', [(1, 1)], (1, 1)),
    ('over-two-behind-the-second', 1, 7, 'R 1, W 5, w, W 6, w, r 1 6', [(1, 0)], (1, 0)),
    # A write counts from its begin row on, ended or not, listed in the order or not, to the read's
    # end row, and no later one does.
    ('begun-not-ended', 1, 7, 'R 1, W 5, r 1 7, w', [(1, 1)], (1, 1)),
    ('begun-before-the-read', 1, 7, 'W 5, R 1, w, r 1 7', [(1, 1)], (1, 1)),
    ('ended-before-the-read', 1, 7, 'W 5, w, R 1, W 6, r 1 5, w', [(1, 1)], (1, 1)),
    ('unended-write-not-listed', 1, 7, 'W 5, R 1, r 1 7', [(1, 1)], (1, 1)),
    ('unended-write-listed', 1, 7, 'W 5, R 1, r 1 5', [(1, 0)], (1, 0)),
    ('begun-later', 1, 7, 'R 1, r 1 7, W 5, w, W 6, w', [(1, 0)], (1, 0)),
    # The place is among the writes: the order is 1 3 5 7 8, in which row 3 is the second.
    ('place-among-the-writes', 2, 7, 'R 1, r 1 7, W 5, w, R 1, r 1 5, R 2, W 6, w, r 2 5',
     [(2, 0), (1, 1)], (3, 1)),
    # One reading more than once: the earliest write, or the start; not below the floor, by a write
    # that ended or by another reader's read.
    ('twice-the-earliest', 1, 7, 'R 1, W 5, w, W 5, w, r 1 5', [(1, 1)], (1, 1)),
    ('twice-the-start', 1, 5, 'R 1, W 5, w, r 1 5', [(1, 1)], (1, 1)),
    ('twice-from-the-floor', 1, 7, 'W 5, w, W 6, w, R 1, W 5, r 1 5', [(1, 0)], (1, 0)),
    ('twice-from-a-read', 2, 7, 'W 5, w, W 6, R 1, r 1 6, R 2, w, W 5, r 2 5', [(1, 0), (1, 0)],
     (2, 0)),
    # Unended reads are none.
    ('unended-reads', 3, 7, 'R 3, R 2, W 5, w, r 2 7, R 2, R 1, W 6', [(0, 0), (1, 1), (0, 0)],
     (1, 1)),
    # Bands (card 13): behind the start; the first write within; the first from the floor on; and
    # one reader's reads of both sorts, with lags 1, 1 and 0.
    ('band-behind-the-start', 1, 7, 'R 1, W 5, w, W 6, w, r 1 4..9', [(1, 2)], (1, 2)),
    ('band-behind-the-first', 1, 7, 'R 1, W 5, w, W 6, w, r 1 5..6', [(1, 1)], (1, 1)),
    ('band-from-the-floor', 1, 7, 'W 5, w, W 6, w, R 1, W 8, r 1 5..8', [(1, 1)], (1, 1)),
    ('band-and-result', 1, 7, 'R 1, W 5, r 1 7, R 1, w, W 6, r 1 4..5, R 1, r 1 6..6', [(3, 2)],
     (3, 2)),
    # Reader 1: lags 1 and 1; reader 3: 2 and 1.
    ('three-readers', 3, 0,
     'R 1, W 1, w, r 1 0, R 1, W 2, R 3, w, r 1 1, W 3, r 3 1, w, R 3, W 4, r 3 3',
     [(2, 2), (0, 0), (2, 3)], (4, 5)),
    # Document 01: the order 2 1 4 has lags 1 and 0; 1 2 4 8 has 3 − 1 and 3 − 2.
    ('session-read-before-write', 2, 7, 'W 5, R 2, r 2 7, R 1, r 1 5', [(1, 0), (1, 1)], (2, 1)),
    ('session-earliest-write', 2, 7, 'W 5, R 1, w, W 6, w, W 5, r 1 5, R 2, r 2 6',
     [(1, 2), (1, 1)], (2, 3)),
    # Sixteen: one of them looks; all begin at once and end a write later each, 0 + 1 + … + 15.
    ('sixteen-one-looks', 16, 7, 'R 11, W 5, w, r 11 7',
     [(0, 0)] * 10 + [(1, 1)] + [(0, 0)] * 5, (1, 1)),
    ('sixteen-rising', 16, 99,
     ', '.join([f'R {i}' for i in range(1, 17)] + [f'r {i} 99, W {i}, w' for i in range(1, 17)]),
     [(1, i) for i in range(16)], (16, 120)),
    # Ten reads with a lag of ten each.
    ('tens', 1, 0,
     ', '.join(f'R 1, {"".join(f"W {10 * k + i}, w, " for i in range(1, 11))}r 1 {10 * k}'
               for k in range(10)), [(10, 100)], (10, 100)),
]

# A print written out, and the refusals: of a log that has no order, of one that is malformed, too,
# and of one row too many, malformed, too.
SHEET_PRINTS = [
    (bytes_of(log_of(3, 7, 'W 5, R 3, w, r 3 7, R 1, r 1 5, R 3, W 6, w, r 3 5')),
     'reader 1 reads 1 lag 0\nreader 2 reads 0 lag 0\nreader 3 reads 2 lag 2\n'
     'all reads 3 lag 2\n'),
    (bytes_of(log_of(1, 7)), 'reader 1 reads 0 lag 0\nall reads 0 lag 0\n'),
    (bytes_of(log_of(2, 7, 'W 5, R 1, r 1 5, R 2, r 2 7')), 'no order 4\n'),
    (bytes_of(log_of(2, 7, 'W 5, R 1, r 1 5, R 2, r 2 7, w, w')), 'refused 10\n'),
    (bytes_of(log_of(2, 7, 'R 1, r 1 8..7')), 'refused 10\n'),
    (bytes_of(log_of(17, 7)), 'refused 10\n'),
    (b'', 'refused 9\n'),
    (bytes_of(log_of(1, 7))[:7], 'refused 9\n'),
    (bytes_of(log_of(1, 7)) + b'\0', 'refused 9\n'),
    (bytes(8 * 4097), 'refused 9\n'),
]


def test_sheet_sessions():
    """Card 10 on logs written out by hand, the short ones with an order by the definition, too."""
    for name, n, start, text, each, total in SHEET_SESSIONS:
        rows = log_of(n, start, text)
        equal(sheet(rows), ('sheet', each, total), 'sheet of ' + name)
        if len(rows) <= 17:
            equal(brute(rows), judge(rows), 'order of ' + name)
    for data, print_ in SHEET_PRINTS:
        equal(sheet_print(data), print_, f'sheet of {data[:80].hex()}')


def test_strip_sessions():
    """Card 12 on logs and files written out by hand."""
    rows = log_of(2, 7, 'W 5, R 2, r 2 3..7, R 1, w, r 1 5')
    strips = log_of(2, 7, 'W 5, w, R 1, r 1 5, R 2, r 2 3..7')
    equal(store(rows, 6, 7), (b'\0\2\2\1\0\1', strips), 'strips')
    equal(restore(b'\0\2\2\1\0\1', strips, 7), rows, 'log put back')
    older = log_of(2, 7, 'W 5, R 1, r 1 5, R 2, r 2 7')
    equal(judge(older), ('refused', 12, 4), 'a log without an order')
    equal(restore(*store(older, 9, 9), 9), older, 'and it is stored and put back')
    file = bytes.fromhex('0000000000000002' '0000' '5010000000000007' '1000000000000009'
                         '2000000000000000')
    log = bytes_of(log_of(1, 7, 'W 9, w'))
    equal((store_file(log), restore_file(file)), (file, log), 'strips as a file')
    equal(store_file(bytes_of(log_of(1, 7))), bytes(8) + bytes_of(log_of(1, 7)), 'row 0 as a file')


def test_store_questions():
    """Card 12: 9, 10, then 11, of bytes and of rows."""
    head, begun = log_of(1, 7), log_of(1, 7, 'R 1')
    ended, strange, wrong = [pack_row(4, 1, 0)], [pack_row(3, 17, 0)], [pack_row(15, 1, 0)]
    for rows, byte_places, strip_places, wanted in (
            ([], 0, 0, 9), (wrong * 4097, 0, 0, 9), (head * 4097, 9999, 9999, 9),
            (wrong * 4096, 0, 0, 10), (head + ended, 0, 0, 10), (head + strange, 9, 9, 10),
            (head, 0, 0, 11), (begun, 0, 2, 11), (begun, 1, 1, 11),
            (head, 0, 1, (b'', head)), (begun, 1, 2, (b'\1', begun)),
            (begun, 9, 9, (b'\1', begun))):
        equal(store(rows, byte_places, strip_places), wanted, f'storing {len(rows)} rows')


def test_restore_questions():
    """Card 12: 16 by number and by processor, 9, 10, then 11."""
    head, begun = log_of(1, 7), log_of(1, 7, 'R 1')
    ended, strange, wrong = [pack_row(4, 1, 0)], [pack_row(3, 17, 0)], [pack_row(15, 1, 0)]
    for data, strips, places, wanted in (
            (b'', [], 0, 16), (b'\0', [], 0, 16), (b'\1', head, 0, 16), (b'', begun, 0, 16),
            (b'\1\1', begun, 9, 16), (b'\1', begun + ended, 9, 16), (b'\0', begun, 9, 16),
            (b'\0\1', log_of(1, 7, 'R 1, W 5'), 9, 16),  # rows out of turn
            # past 4,096 rows
            (b'\1' * 4097, head + ended * 4096, 0, 16), (b'\1' * 4095, head + ended * 4096, 0, 16),
            (b'\1' * 4095 + b'\0', head + ended * 4096, 0, 16),
            (b'\1' * 4096, head + ended * 4096, 0, 9),
            (b'\1' * 4095, head + ended * 4095, 0, 10), (b'\1', head + ended, 0, 10),
            (b'', wrong, 0, 10),
            # processors that there are not
            (b'\x12', head + strange, 0, 16), (b'\x11', head + strange, 0, 10),
            (b'\xff', head + [pack_row(3, 255, 0)], 0, 10),
            (b'', head, 0, 11), (b'\1', begun, 1, 11),
            (b'', head, 1, head), (b'\1', begun, 2, begun), (b'\1', begun, 9, begun)):
        equal(restore(data, strips, places), wanted, f'restoring {len(strips)} rows')


def test_strip_files():
    """Files that are no stored logs, and the longest that is one."""
    begun = log_of(1, 7, 'R 1')
    file = store_file(bytes_of(begun))
    count, rest = file[:8], file[8:]
    for data in (b'', b'\0', file[:7], count, file[:-1], file[:-8], file + b'\0', file + bytes(8),
                 bytes(8), bytes(7) + b'\2' + rest, bytes(7) + b'\x12' + rest, b'\xff' * 8 + rest,
                 b'\1' + file[1:], bytes(65536)):
        equal(restore_file(data), 16, f'file of {len(data)} bytes')
    for data in (b'', b'\0' * 7, bytes_of(begun)[:-1], bytes(8 * 4097)):
        equal(store_file(data), 9, f'log of {len(data)} bytes')
    equal(store_file(bytes(16)), 10, 'a log of no sense')
    full = random_log(random.Random(5).randrange, 16, MAX_ROWS, 9)
    longest = store_file(bytes_of(full))
    equal((len(longest), restore_file(longest)), (36871, bytes_of(full)), 'the longest file')
    equal(restore_file(longest + bytes(65537 - 36871)), 9, 'more than 65,536 bytes')
    ended = begun[:1] + [pack_row(4, 1, 0)] * 4096
    for rows, wanted in (ended, 9), (ended[:-1], 10):
        data = (len(rows) - 1).to_bytes(8, 'big') + b'\1' * (len(rows) - 1) + bytes_of(rows)
        equal(restore_file(data), wanted, f'file of {len(rows)} rows')


def last_write(rows, order, read):
    """Told again: the write that the read stands behind. There is one writer, so that the last
    one before it in the order is the newest there."""
    before = order[:order.index(read)]
    return max((begin for begin in before if rows[begin] >> 60 == 1), default=0)


def lag_between(rows, order, read):
    """The lag told again: the writes begun strictly between the begin row of the write that the
    read stands behind, row 0 for the start, and its end row."""
    end = next(r for r in range(read + 1, len(rows))
               if processor_of(rows[r]) == processor_of(rows[read]))
    return sum(row >> 60 == 1 for row in rows[last_write(rows, order, read) + 1:end])


def row_by_row(rows, order):
    """“Today's sheet adds row by row”: running sums over the log."""
    begun = reads = lags = 0
    places, begins = {0: 0}, {}
    for r, row in enumerate(map(unpack_row, rows)):
        if row.kind == 1:
            begun += 1
            places[r] = begun
        elif row.kind == 3:
            begins[row.processor] = r
        elif row.kind in (4, 6):
            reads += 1
            lags += begun - places[last_write(rows, order, begins[row.processor])]
    return reads, lags


def check_sheet(rows, answer):
    """A log's sheet against the judgment, told again; what there is to be counted, its lags too."""
    name = bytes_of(rows).hex()
    if answer[0] == 'refused':
        equal(sheet(rows), answer, 'refusal of ' + name)
        return ['refused']
    order = answer[1]
    _, each, total = sheet(rows)
    retold = [(processor_of(rows[read]), lag_between(rows, order, read))
              for read in order if rows[read] >> 60 == 3]
    equal(sorted(lags_of(rows, order)), sorted(retold), 'lags of ' + name)
    equal(total, row_by_row(rows, order), 'totals of ' + name)
    equal(len(each), processor_of(rows[0]), 'readers of ' + name)
    for reader, own in enumerate(each, 1):
        ends = sum(row >> 52 in (0x400 + reader, 0x600 + reader) for row in rows)
        equal(own, (ends, sum(lag for by, lag in retold if by == reader)), 'figures of ' + name)
    return ['sheets'] + [lag for _, lag in retold]


def test_sheets():
    """Card 10 on every log of a few rows, with the order that the definition gives, and on longer
    ones of the register, half of them with bands, with the sweep's: a lag told in another way, so
    never negative; “the totals must agree” with those that are added row by row."""
    tally = Counter()
    for n, readings, most, bands in ((1, 2, 8, False), (2, 2, 7, False), (3, 1, 6, False),
                                     (1, 3, 6, True), (2, 2, 6, True)):
        for rows in chain.from_iterable(small_logs(n, readings, length, bands)
                                        for length in range(1, most + 1)):
            tally.update(check_sheet(rows, brute(rows)))
    pick = random.Random(6).randrange
    for trial in range(200):
        n, readings = 1 + pick(8), 1 + pick(9)
        rows = register_log(pick, n, pick(readings), 1 + pick(150), readings, 1 + pick(40))
        if trial % 2:
            rows = banded(pick, rows, 2)
        tally.update(check_sheet(rows, sweep(rows)))
    must(min(tally[k] for k in ('refused', *range(5))) > 100, 'small and larger lags are common')
    return tally


def test_stored_logs():
    """Every log of a few rows: its strips as the sentence has them, and the log put back; from
    the bytes backwards another log, which has these strips; just enough places, and one fewer."""
    tally = 0
    for n, readings, most, bands in ((1, 2, 8, False), (1, 2, 7, True), (2, 2, 6, True),
                                     (4, 1, 6, False)):
        for rows in chain.from_iterable(small_logs(n, readings, length, bands)
                                        for length in range(1, most + 1)):
            name, length, later = bytes_of(rows).hex(), len(rows), rows[1:]
            data, strips = store(rows, length - 1, length)
            equal(list(data), [row >> 52 & 255 for row in later], 'bytes of ' + name)
            equal(strips, rows[:1] + [row for p in range(256) for row in later
                                      if row >> 52 & 255 == p], 'strips of ' + name)
            equal(restore(data, strips, length), rows, 'log put back ' + name)
            equal(strips_of(restore(data[::-1], strips, length)), (data[::-1], strips),
                  'bytes backwards of ' + name)
            equal(restore(data, strips, length - 1), 11, 'log places for ' + name)
            equal(store(rows, length - 1, length - 1), 11, 'strip places for ' + name)
            if later:
                equal(store(rows, length - 2, length), 11, 'byte places for ' + name)
            tally += 1
    return tally


def test_matching_strips():
    """Every few bytes with every few rows: 16 exactly if they are the strips of no list of rows,
    else 10 or the list, of which there is then one only."""
    words = (*log_of(1, 0, 'W 0, w, R 1, r 1 0'), pack_row(3, 17, 0))
    lists = [list(rows) for length in range(1, 5) for rows in product(words, repeat=length)]
    lists_of = {}
    for rows in lists:
        data, strips = strips_of(rows)
        lists_of.setdefault((data, *strips), []).append(rows)
    tally = Counter()
    for numbers in chain.from_iterable(product((0, 1, 17), repeat=length) for length in range(5)):
        data = bytes(numbers)
        for strips in [[], *lists]:
            of = lists_of.get((data, *strips), [])
            must(len(of) <= 1, 'two lists with the same strips')
            wanted = 16 if not of else of[0] if well_formed(of[0]) else 10
            equal(restore(data, strips, 4), wanted, f'{data.hex()} with {bytes_of(strips).hex()}')
            tally[wanted if isinstance(wanted, int) else 'logs'] += 1
    return tally


def check_table(register):
    """“Cells to the writer have reading 0; in all other cells the announced fields are
    always none”; “A ticket is 0 to 3n+2”; further cells are never touched."""
    n = register.n
    for place, word in enumerate(register.table[:n * n + n]):
        cell = unpack_cell(word)
        to_writer = place >= n and place % n == 0
        must(cell.reading == 0 if to_writer else cell.announced == NO_STAMP, 'cell fields')
        for pair in (cell.stamp, cell.announced):
            must(pair == NO_STAMP or max(pair) <= 3 * n + 2, 'tickets of a cell')
    must(set(register.table[n * n + n:]) == {-1}, 'further cells untouched')


def test_register():
    """Longer runs: the table's rules, untouched rows, and always an order."""
    pick = random.Random(3).randrange
    for trial in range(60):
        register = fresh_register(1 + trial % MAX_READERS, 7, spare=2, rows=300)
        for length in range(20, 281, 20):
            run_register(pick, register, length, 1 + trial % 5, 1 + pick(60))
            check_table(register)
            must(set(register.log[length:]) == {-1}, 'further rows untouched')
            busy = sum(operation is not None for operation in register.open)
            equal(register.busy, busy, 'number of open operations')
        equal(judge(register.log[:280])[0], 'order', 'log of the register')


def selftest():
    """All tests; the first mismatch ends it."""
    test_words()
    test_cell_sessions()
    test_run_sessions()
    test_new_tickets()
    test_rules()
    test_register_questions()
    test_judge_questions()
    test_bench()
    test_register()
    test_retired_sessions()
    test_counted_sessions()
    test_counted_retired()
    test_counted_rules()
    test_counted_questions()
    test_sheet_sessions()
    test_strip_sessions()
    test_store_questions()
    test_restore_questions()
    test_strip_files()
    test_drill_sessions()
    test_sizing_sessions()
    for line in test_lists():
        print(line)
    tally = test_judges()
    print(f'two definitions agree on all {test_definitions()} small logs')
    print(f"brute force and sweep agree: {tally['order']} orders, {tally['refused']} refusals")
    tally = test_sheets()
    print(f"sheets told in two ways agree: {tally['sheets']}, refusals {tally['refused']}; "
          f"lags up to {max(k for k in tally if isinstance(k, int))}")
    print(f'strips of all {test_stored_logs()} small logs put back')
    tally = test_matching_strips()
    print(f"bytes and rows: {tally['logs']} restored, 10: {tally[10]}, 16: {tally[16]}")
    print(f'schedules told in two ways agree: {test_schedules()}')
    tally = test_drills()
    print(f"drills told in two ways agree: {tally['lines']} lines, every one with an order; with "
          f"turns of the write refused {tally['W']}, of the read {tally['R']}")
    drills, places = test_sizes()
    print(f'figures of {drills} small drills hold over every schedule and sharing: {places} places')
    tally = test_sized_runs()
    print(f"and of larger ones in {tally['runs']} runs, words strictly between in {tally['between']}")
    print('selftest passed')


# ---------------------------------------------------------------------------- Command line

def main(arguments):
    """See the head of this file."""
    if arguments in (['bench'], ['drill'], ['sizing']):
        made = {'bench': bench, 'drill': drill, 'sizing': sizing}[arguments[0]]
        sys.stdout.write(made(sys.stdin.buffer.read(MAX_INPUT + 1)))
    elif arguments == ['verdict']:
        print(verdict(judge_bytes(sys.stdin.buffer.read())))
    elif arguments[:1] == ['verdict']:
        for name in arguments[1:]:
            with open(name, 'rb') as file:
                print(verdict(judge_bytes(file.read())))
    elif arguments == ['sheet']:
        sys.stdout.write(sheet_print(sys.stdin.buffer.read()))
    elif arguments[:1] == ['sheet']:
        for name in arguments[1:]:
            with open(name, 'rb') as file:
                sys.stdout.write(sheet_print(file.read()))
    elif arguments in (['store'], ['restore']):
        made = {'store': store_file, 'restore': restore_file}[arguments[0]](sys.stdin.buffer.read())
        if isinstance(made, int):
            sys.exit(f'refused {made}')
        sys.stdout.buffer.write(made)
    elif arguments == ['selftest']:
        try:
            selftest()
        except Mismatch as mismatch:
            sys.exit(f'mismatch: {mismatch}')
    else:
        sys.exit(__doc__)


if __name__ == '__main__':
    main(sys.argv[1:])
