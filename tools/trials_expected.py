"""The trials, and what the program trials must print of them, by the outside model. `prints.py`
writes both.

Every answer is the model's; that a refused call leaves state, table and log “unaltered” is
document 01's “A no gives its number and alters nothing”.
"""

from collections import namedtuple
from dataclasses import replace

from model import (
    FIRST_STAMP, LAST_STAMP, NO_STAMP, Cell, Counted, CountedCell, CountedRange, Register,
    TicketRange, bytes_of, cell_index, cells_of, counted_index, in_range, judge, judge_bytes,
    log_of, new_ticket, pack_cell, pack_counted, pack_row)
from verdict_logs import OPEN_READ, OPEN_WRITE, START

MARK = (1 << 64) - 1  # what buffers hold before anything is written to them

# The words that its line begins with, the acts that make it, and what its line says of them.
Trial = namedtuple('Trial', 'words acts result')


# Acts, as `crates/trials/src/acts.rt` has them

KINDS = {'W': 1, 'R': 2, 'S': 3, 'U': 4}
GOES_ON, STAYS, QUIET = 0, 1, 2  # the state, behind a call
HEAD = 17  # for a processor
CELLS = (11, 0, 0, 0)


def calls(text, then):
    for call in filter(None, text.split(', ')):
        letter, number = call.split()
        yield KINDS[letter], int(number), then, 0


def lend(cells, rows):
    return 5, cells, rows, 0


def set_up(n, printed=0):
    return 6, n, 0, printed


def set_up_counted(n, fresh, printed=0):
    return 7, n, fresh, printed


def change(p, field, value):
    return 8, p, field, value


def put_cell(place, word):
    return 9, place, *divmod(word, 1 << 32)


def put_rows(rows):
    return [(10, place, *divmod(row, 1 << 32)) for place, row in enumerate(rows)]


def judge_used(printed=0):
    return 12, printed, 0, 0


def judge_first(rows, places):
    return 13, rows, places, 0


def judge_bytes_of(count):
    return 14, count, 0, 0


def answer_text(answer):
    if answer[0] == 'refused':
        return f'refused {answer[1]}'
    return f'sub-step {answer[1]}' if answer[0] == 'step' else 'accepted'


def call_text(call, answer):
    unaltered = ', unaltered' if answer[0] == 'refused' else ''
    return f'; {call}: {answer_text(answer)}{unaltered}'


# Set-up, lists of calls and sessions

def set_up_trial(n, cells, rows):
    table, log = [MARK] * cells, [MARK] * rows
    answer = Register().set_up(n, 7, table, log)
    return Trial(
        set_up_words(n, table, log), [lend(cells, rows), set_up(n, 1)],
        set_up_result(answer, table, log))


def set_up_words(n, table, log):
    return f'set-up with {n} readers, {len(table)} cells, {len(log)} rows: '


def set_up_result(answer, table, log):
    written = [sum(word != MARK for word in words) for words in (table, log)]
    return f'{answer_text(answer)}, cells written {written[0]}, rows written {written[1]}'


SET_UPS = [
    (0, 0, 0), (17, 0, 4097), (4294967295, 306, 4096),
    (1, 1, 3), (2, 5, 3), (2, 0, 2), (16, 271, 4096), (16, 271, 4097),
    (1, 2, 0), (16, 306, 2), (16, 272, 4097),
    (1, 2, 3), (1, 306, 4096), (2, 6, 3), (16, 272, 4096), (16, 306, 3),
]


def script_trial(n, rows, text):
    """The answer to each call, calls as the bench reads them, and `U i` retires reader i; and the
    order of the rows."""
    register = Register()
    register.set_up(n, 7, [MARK] * 306, [MARK] * rows)
    made = calls_text(register, text)
    return Trial(
        f'readers {n}, rows {rows}',
        [lend(306, rows), set_up(n), *calls(text, GOES_ON), judge_used()],
        f'{made}; log{log_text(register.log[:register.used], 16)}')


def calls_text(register, text):
    makers = {'W': register.begin_write, 'R': register.begin_read, 'S': register.step,
              'U': register.retire}
    line = ''
    for call in filter(None, text.split(', ')):
        letter, number = call.split()
        line += call_text(call, makers[letter](int(number)))
    return line


SCRIPTS = [
    (3, 16, 'R 0, R 4, R 4294967295, S 4, S 4294967295, R 3, S 3'),
    (1, 3, 'R 1, R 0, R 2, S 2, S 0, W 5'),
    (2, 16, 'W 1, W 2, R 2, R 2, S 2, R 2, S 0, W 3, S 0'),
    (2, 5, 'W 1, R 1, W 2, R 1, R 2'),
    (2, 16, 'S 0, S 1, S 2, W 1, S 0, S 0, S 0, S 0, S 0'),
    (1, 16, 'R 1, S 1, S 1, S 1, S 1, S 1, S 1, R 1'),
    (2, 4, 'W 1, R 1, S 0, S 0, S 0, S 0, R 1'),
    (2, 5, 'W 1, R 1, R 2, S 0, S 0, S 0, S 0, R 2'),
    (3, 6, 'R 3, R 1, R 2, W 5'),
    (3, 7, 'R 3, R 1, R 2, W 5'),
    # Card 1: 13 right after 5, for begin, step and retirement; an idle reader; a full log; the row
    # kept for the end; the other reader and the writer go on.
    (1, 16, 'R 1, S 1, S 1, U 1, R 1, S 1, U 1, U 0, U 2, U 9, W 9, S 0, S 0'),
    (2, 16, 'U 2, R 2, S 2, U 2, R 1, S 1, W 9, S 0, S 0, S 0, S 0'),
    (1, 3, 'R 1, U 1, R 1, W 5, U 1'),
    (1, 4, 'R 1, W 9, U 1, W 9, R 1'),
    (2, 16, 'W 9, S 0, S 0, S 0, R 1, S 1, S 1, S 1, S 1, S 1, S 1, U 1, '
            'R 2, S 2, S 2, S 2, S 2, S 2, S 2, S 2, S 0, S 1'),
    (2, 16, 'U 1, U 2, R 1, R 2, W 9, S 0, S 0, S 0, S 0, W 8'),
]


def sessions():
    """“Row 0 alone: empty order. 0 and 17 readers: 1. Log of 2: 3. Log of 3: one operation
    fits, the next begin gives 7.”"""
    yield script_trial(1, 3, '')
    yield set_up_trial(0, 306, 4096)
    yield set_up_trial(17, 306, 4096)
    yield set_up_trial(1, 2, 2)
    yield script_trial(1, 3, 'W 9, S 0, S 0, W 9, R 1')
    yield script_trial(1, 3, 'R 1, S 1, S 1, S 1, S 1, S 1, R 1, W 9')


# Question 4

ALL_CALLS = 'W 5, R 2, S 0, S 1, S 99, U 1, U 99'

# A fresh state of two readers; and that after W 9, R 1, S 0, S 1.
FRESH = TicketRange(
    n=2, cells=306, log=16, rows=16, used=1, busy=0, moved={},
    own=[FIRST_STAMP] + [NO_STAMP] * 16)
BEGUN = replace(FRESH, used=3, busy=2, moved={0: 1, 1: 1})


def write(moved, barred, ticket):
    """The open write's words moved, tickets barred by the cells it read, and new ticket."""
    name = f'write moved {moved}, set excluded {sum(1 << t for t in barred)}, ticket {ticket}'
    return name, replace(BEGUN, moved={0: moved, 1: 1}, barred=set(barred), ticket=ticket)


def unstamped(moved, barred):
    """The same where the writer's own stamp is none."""
    name, state = write(moved, barred, 63)
    return f'own stamp none, {name}', replace(state, own=[NO_STAMP] * 17)


def read(second, moved):
    """Reader 1's attempt and words moved."""
    state = replace(BEGUN, moved={0: 1, 1: moved}, second={1} if second else set())
    return f'second attempt {second}, read moved {moved}', state


def stamp(p, cur, prev):
    own = list(BEGUN.own)
    own[p] = (cur, prev)
    return f'processor {p}, stamp {cur} {prev}', replace(BEGUN, own=own)


def heads(fresh, begun, needed):
    """Of either register: sizes and rows, where two readers need so many cells."""
    yield from ((f'n {n}', replace(begun, n=n)) for n in (0, 1, 2, 16, 17, 4294967295))
    yield from ((f'cells {cells}', replace(begun, cells=cells)) for cells in (needed - 1, needed))
    yield from ((f'rows lent {rows}', replace(begun, log=rows)) for rows in (15, 17))
    for rows in (2, 3, 4096, 4097):
        yield f'fresh, rows {rows}', replace(fresh, rows=rows, log=rows)
    yield from ((f'fresh, rows used {used}', replace(fresh, used=used)) for used in (0, 16, 17))
    yield from ((f'rows used {used}', replace(begun, used=used)) for used in (14, 15))


def retired(begun, moved):
    """Of either register, a reader retired: 1, whose read is open; 2, idle; one that there is
    not. Of reader 1 words moved that would be too many, and rows used that would leave too few
    free."""
    unplugged = replace(begun, retired={1}, busy=1)
    yield 'retired reader 1', unplugged
    yield 'retired reader 2', replace(begun, retired={2})
    yield 'retired reader 3', replace(begun, retired={3})
    yield 'retired, calls of reader 3', replace(begun, retired={3}), 'R 3, S 3, U 3'
    yield f'retired, read moved {moved}', replace(unplugged, moved={0: 1, 1: moved})
    for used in (13, 14, 15, 16):
        yield f'retired, rows used {used}', replace(unplugged, used=used)


def numbers(fresh, begun):
    """Of either register, the number of open operations: two are open; none; one, beside that of
    retired reader 1; two, beside that of a reader that there is not."""
    third = {**begun.moved, 3: 255}
    for name, state, stored in (
            ('', begun, (0, 1, 2, 3, 14, 255)),
            ('rows used 15, ', replace(begun, used=15), (1,)),
            ('fresh, ', fresh, (0, 1, 255)),
            ('retired, ', replace(begun, retired={1}), (0, 1, 2)),
            ('reader 3 open, ', replace(begun, moved=third), (2, 3))):
        for busy in stored:
            yield f'{name}open operations {busy}', replace(state, busy=busy)


RANGES = [
    *heads(FRESH, BEGUN, 6),
    write(3, [], 63), write(4, [], 63), write(255, [], 63),
    read(0, 6), read(0, 7), read(1, 4), read(1, 5), read(1, 11), read(1, 12),
    stamp(0, 63, 63), stamp(0, 64, 1), stamp(0, 0, 64),
    stamp(1, 64, 1), stamp(1, 0, 64), stamp(2, 255, 63), stamp(2, 63, 255),
    stamp(3, 64, 64),  # there is no reader 3
    write(3, [], 64), write(2, [], 64),
    write(0, [0, 1], 63), write(0, [2], 63),
    write(1, range(0, 5), 63), write(1, range(2, 6), 63),
    write(2, range(2, 8), 63), write(2, range(2, 9), 63),
    write(3, range(2, 10), 63),
    unstamped(1, range(0, 5)), unstamped(1, range(0, 6)),
    (f'count {LAST_STAMP}', BEGUN, ALL_CALLS, [change(0, 4, LAST_STAMP)]),  # the counted register's
    *retired(BEGUN, 255),
    ('retired, ' + stamp(1, 64, 1)[0], replace(stamp(1, 64, 1)[1], retired={1}, busy=1)),
    *numbers(FRESH, BEGUN),
]


def answer_with(state, letter, p):
    """Questions 4 to 8, 13 and 14, and the sub-step's number: “the words this operation has
    moved”."""
    if not in_range(state):
        return ('refused', 4)
    if not (letter in 'RU') <= p <= state.n:
        return ('refused', 5)
    if p in state.retired:
        return ('refused', 13)
    if letter == 'U':
        return ('retired',)
    if letter == 'S':
        return ('step', state.moved[p] + 1) if p in state.moved else ('refused', 8)
    if p in state.moved:
        return ('refused', 6)
    if state.rows - state.used < state.busy + 2:
        return ('refused', 7)
    if letter == 'W' and isinstance(state, CountedRange) and state.stamp == LAST_STAMP:
        return ('refused', 14)
    return ('begun',)


def range_trial(words, state, text=ALL_CALLS, more=()):
    """The calls, each with the same state, in which what question 4 does not look at is changed
    too."""
    result = ''
    for call in text.split(', '):
        letter, number = call.split()
        p = 0 if letter == 'W' else int(number)
        result += call_text(call, answer_with(state, letter, p))
    return Trial(words, [*state_acts(state), *more, *calls(text, STAYS)], result)


def state_acts(state):
    """A set-up of two readers, and what makes the state of what it leaves, or of what W 9, R 1,
    S 0 and S 1 leave; the cells and rows that are lent with it."""
    counted = isinstance(state, CountedRange)
    fresh, begun = (COUNTED_FRESH, COUNTED_BEGUN) if counted else (FRESH, BEGUN)
    base = begun if state.moved else fresh
    yield lend(base.cells, base.log)
    yield set_up_counted(base.n, base.stamp) if counted else set_up(base.n)
    yield from calls('W 9, R 1, S 0, S 1' if state.moved else '', QUIET)
    for field, name in enumerate(('n', 'rows', 'used', 'busy'), 1):
        if getattr(state, name) != getattr(base, name):
            yield change(HEAD, field, getattr(state, name))
    for p, moved in state.moved.items():
        if moved != base.moved.get(p):
            yield change(p, 1, moved)
        if p not in base.moved:
            yield change(p, 4, 1)
    yield from (change(p, 3, 1) for p in state.retired)
    yield from counted_acts(state, base) if counted else ticket_acts(state, base)
    yield lend(state.cells, state.log)


def ticket_acts(state, base):
    """Of the first register's own: the open write's tickets, the second attempt, the stamps."""
    if state.moved.get(0) != base.moved.get(0) or state.barred:
        yield change(0, 2, sum(1 << ticket for ticket in state.barred))
        yield change(0, 3, state.ticket)
    yield from (change(p, 2, 1) for p in state.second)
    for p, (own, before) in enumerate(zip(state.own, base.own)):
        if own != before:
            yield change(p, 5, own[0])
            yield change(p, 6, own[1])


def counted_acts(state, base):
    """Of the counted register's own: the stamp."""
    if state.stamp != base.stamp:
        yield change(0, 4, state.stamp)


# The new ticket in states handed in

def ticket_trial(own, barred):
    """A write of 9 with two readers, that has read both cells; its first store, in a table of
    marks."""
    state = replace(write(2, barred, 63)[1], own=[own] + [NO_STAMP] * 16, cells=6)
    call = call_text('S 0', answer_with(state, 'S', 0))
    cells = [pack_cell(Cell(9, (new_ticket(2, own, set(barred)), own[0])))] + [MARK] * 5
    marks = [put_cell(place, MARK) for place in range(6)]
    excluded = sum(1 << ticket for ticket in barred)
    return Trial(
        f'own stamp {own[0]} {own[1]}, set excluded {excluded}',
        [*state_acts(state), *marks, *calls('S 0', GOES_ON), CELLS],
        f'{call}; cells{hex_text(cells)}')


TICKETS = [
    # Above cur and up to 8.
    ((0, 1), ()), ((3, 2), (4, 5)), ((6, 5), (7,)), ((0, 1), range(2, 8)),
    ((4, 4), (0, 1, 2, 3, 5, 6, 7)),
    # None above: the smallest.
    ((8, 7), ()), ((7, 8), (0,)), ((6, 5), (7, 8)), ((8, 8), range(0, 7)),
    ((9, 1), (0,)), ((62, 0), ()), ((63, 63), ()), ((63, 63), (0, 1, 2)),
]


# The counted register

def counted_set_up_trial(n, fresh, cells, rows):
    table, log = [MARK] * cells, [MARK] * rows
    answer = Counted().set_up(n, 7, fresh, table, log)
    return Trial(
        f'counted from {fresh}, ' + set_up_words(n, table, log),
        [lend(cells, rows), set_up_counted(n, fresh, 1)], set_up_result(answer, table, log))


COUNTED_SET_UPS = [
    (0, 5, 0, 0), (17, 5, 0, 4097), (4294967295, 5, 306, 4096),
    (1, 5, 0, 3), (2, 5, 3, 3), (2, 5, 0, 2), (16, 5, 255, 4096), (16, 5, 255, 4097),
    (1, 5, 1, 0), (16, 5, 306, 2), (16, 5, 256, 4097),
    (1, 0, 1, 3), (1, 5, 306, 4096), (2, LAST_STAMP - 1, 4, 3), (16, 5, 256, 4096),
    (16, LAST_STAMP, 306, 3),
]


def hex_text(words):
    return ''.join(f' {word:016x}' for word in words)


def text_with_cells(register, text):
    """The cells, the answer to each call, the cells and rows they leave, and the order."""
    cells = hex_text(register.table)
    made = calls_text(register, text)
    used = register.log[:register.used]
    return (f'; cells{cells}{made}; cells{hex_text(register.table)}; '
            f'log{hex_text(used)}{log_text(used, 16)}')


def calls_with_cells(text):
    return [CELLS, *calls(text, GOES_ON), CELLS, judge_used(1)]


def counted_script_trial(n, fresh, rows, text):
    """Calls of a fresh register."""
    register = Counted()
    register.set_up(n, 7, fresh, [MARK] * (n * n), [MARK] * rows)
    return Trial(
        f'counted from {fresh}, readers {n}, rows {rows}',
        [lend(n * n, rows), set_up_counted(n, fresh), *calls_with_cells(text)],
        text_with_cells(register, text))


def found_trial(words, register, set_up_act, found, text):
    """Calls of a fresh register, with 16 rows, whose table holds what was found at these places."""
    for place, word in found.items():
        register.table[place] = word
    cells = [put_cell(place, word) for place, word in found.items()]
    return Trial(
        f'{words}, rows 16, cells set',
        [lend(len(register.table), 16), set_up_act, *cells, *calls_with_cells(text)],
        text_with_cells(register, text))


def cells_set_trial(*cells):
    """A read by reader 3 of 3 that finds these cells of the writer and of readers 1 and 2."""
    register = Counted()
    register.set_up(3, 7, 5, [MARK] * 9, [MARK] * 16)
    found = {counted_index(3, i, 3): pack_counted(CountedCell(*cell))
             for i, cell in enumerate(cells)}
    return found_trial('counted from 5, readers 3', register, set_up_counted(3, 5), found,
                       'R 3, S 3, S 3, S 3, S 3, S 3')


def stamps_set_trial(writer, *others):
    """A read by reader 1 that finds these cells of the writer and of readers 2 to n."""
    n = 1 + len(others)
    register = Register()
    register.set_up(n, 7, [MARK] * cells_of(n), [MARK] * 16)
    found = {cell_index(n, i, 1): pack_cell(Cell(*cell))
             for i, cell in zip([0, *range(2, n + 1)], [writer, *others])}
    return found_trial(f'readers {n}', register, set_up(n), found,
                       ', '.join(['R 1'] + ['S 1'] * (2 * n + 3)))


# “the first of the other readers' cells whose prev equals the third look's cur”; “for stamp none,
# reading 0”, where “stamp none is (63,63) only”: reading and stamp of each.
STAMPS_SET = [
    ((9, (5, 4)), (1, (6, 5)), (2, (7, 5))), ((9, (5, 4)), (1, (6, 7)), (2, (7, 5))),
    ((9, (63, 5)), (1, (2, 3))), ((9, (5, 63)), (1, (2, 3))), ((9, NO_STAMP), (1, (2, 3))),
]

COUNTED_SESSIONS = [
    (2, 5, 16, 'W 9, S 0, R 1, S 1, S 1, S 1, R 2, S 2, S 2, S 2, S 0'),
    (1, LAST_STAMP - 1, 16, 'W 9, S 0, W 8, R 1, S 1'),
]

COUNTED_SCRIPTS = [
    (3, 5, 16, 'R 2, S 2, W 9, S 0, R 1, S 1, S 1, S 1, S 1, S 1, S 2, S 2, S 2, S 2'),
    (3, 5, 16, 'R 2, S 2, S 2, W 9, S 0, S 0, S 2, S 2, S 2'),
    (3, 5, 16, 'W 9, S 0, S 0, R 2, S 2, S 2, S 2, S 2'),
    (3, 5, 16, 'R 0, R 4, R 4294967295, S 4, S 4294967295, R 3, S 3'),
    (1, 5, 3, 'R 1, R 0, R 2, S 2, S 0, W 5'),
    (2, 5, 16, 'W 1, W 2, R 2, R 2, S 2, R 2, S 0, W 3'),
    (2, 5, 5, 'W 1, R 1, W 2, R 1, R 2'),
    (2, 5, 16, 'S 0, S 1, S 2, W 1, S 0, S 0, S 0'),
    (1, 5, 16, 'R 1, S 1, S 1, R 1'),
    (3, 5, 16, 'R 2, S 2, S 2, S 2, S 2, S 2, S 2'),
    (2, 5, 4, 'W 1, R 1, S 0, S 0, R 1'),
    (3, 5, 6, 'R 3, R 1, R 2, W 5'),
    (3, 5, 7, 'R 3, R 1, R 2, W 5'),
    (3, LAST_STAMP - 1, 7, 'W 9, W 8, S 0, S 0, S 0, W 8, R 1, W 8, R 1, R 2, W 8, R 3, R 2, '
                           'S 1, S 1, S 1, S 1, S 1, R 1'),
    (2, LAST_STAMP, 16, 'W 5, R 1, W 5, S 1, S 1, S 1, W 5, R 2, S 2, S 2, S 2'),
    (2, LAST_STAMP - 2, 16, 'W 1, S 0, S 0, W 2, S 0, S 0, W 3, R 2, S 2, S 2, S 2, R 2, S 2'),
    # Card 1, as for the first register.
    (2, 5, 16, 'R 1, S 1, U 1, R 1, S 1, U 1, U 0, U 3, U 9, W 9, S 0, S 0'),
    (2, 5, 16, 'U 2, R 2, S 2, U 2, R 1, S 1, S 1, S 1, W 9, S 0, S 0'),
    (1, 5, 4, 'R 1, W 9, U 1, W 9, R 1'),
    (3, 5, 16, 'W 9, S 0, R 1, S 1, S 1, S 1, S 1, U 1, R 2, S 2, S 2, S 2, S 2, S 2, '
               'R 3, S 3, S 3, S 3, S 3, S 3, S 0, S 0, S 1'),
    (1, LAST_STAMP, 16, 'U 1, W 9, R 1'),
]

# “the largest stamp (the writer's if equal, else the lowest reader)”: reading and stamp of each.
CELLS_SET = [
    ((7, 5), (1, 9), (2, 9)), ((3, 9), (1, 9), (2, 9)), ((7, 5), (1, 9), (2, 10)),
]

# A fresh state of two readers with fresh stamp 5; that after W 9, R 1, S 0, S 1; and one that has
# spent its stamps.
COUNTED_FRESH = CountedRange(n=2, cells=306, log=16, rows=16, used=1, busy=0, moved={}, stamp=5)
COUNTED_BEGUN = replace(COUNTED_FRESH, used=3, busy=2, moved={0: 1, 1: 1})
SPENT = replace(COUNTED_FRESH, stamp=LAST_STAMP)


# What the first register alone has: the writer's set of tickets, new ticket and stamp; reader 1's
# attempt and stamp.
TICKETS_SET = [change(0, 2, LAST_STAMP), change(0, 3, 255), change(0, 5, 64), change(0, 6, 255)]
SECOND_SET = [change(1, 2, 1), change(1, 5, 64), change(1, 6, 255)]


def counted_write(moved, name='', more=()):
    state = replace(COUNTED_BEGUN, moved={0: moved, 1: 1})
    return f'{name}write moved {moved}', state, ALL_CALLS, more


def counted_read(moved, name='', more=()):
    state = replace(COUNTED_BEGUN, moved={0: 1, 1: moved})
    return f'{name}read moved {moved}', state, ALL_CALLS, more


COUNTED_RANGES = [
    *heads(COUNTED_FRESH, COUNTED_BEGUN, 4),
    *map(counted_write, (0, 1, 2, 255)), *map(counted_read, (0, 2, 3, 255)),
    *((f'stamp {stamp}', replace(COUNTED_BEGUN, stamp=stamp))
      for stamp in (0, LAST_STAMP - 1, LAST_STAMP)),
    *((f'fresh, stamp {stamp}', replace(COUNTED_FRESH, stamp=stamp))
      for stamp in (LAST_STAMP - 1, LAST_STAMP)),
    *((f'fresh, stamp spent, rows used {used}', replace(SPENT, used=used)) for used in (14, 15)),
    *(counted_write(moved, 'with tickets, ', TICKETS_SET) for moved in (0, 1, 2)),
    ('fresh, with tickets, write moved 255', COUNTED_FRESH, ALL_CALLS,
     [change(0, 1, 255), *TICKETS_SET]),
    *(counted_read(moved, 'second attempt, ', SECOND_SET) for moved in (0, 2, 3)),
    ('fresh, second attempt, read moved 255', COUNTED_FRESH, ALL_CALLS,
     [change(1, 1, 255), *SECOND_SET]),
    *retired(COUNTED_BEGUN, 255),
    *numbers(COUNTED_FRESH, COUNTED_BEGUN),
]


def counted_trials():
    yield from (counted_script_trial(*script) for script in COUNTED_SESSIONS)
    yield from (counted_set_up_trial(*sizes) for sizes in COUNTED_SET_UPS)
    yield from (counted_script_trial(*script) for script in COUNTED_SCRIPTS)
    yield from (cells_set_trial(*cells) for cells in CELLS_SET)
    yield from (range_trial(f'counted, {name}', *rest) for name, *rest in COUNTED_RANGES)


# The judge

def log_text(rows, places):
    """The verdict, the places written and what the judge of bytes says."""
    answer = judge(rows, places)
    order = answer[1] if answer[0] == 'order' else []
    if answer[0] == 'order':
        text = ' '.join(['order'] + [str(row) for row in order])
    else:
        text = f'refused {answer[1]}' + (f' with row {answer[2]}' if answer[1] == 12 else '')
    return f': {text}, places written {len(order)}, bytes {number(bytes_of(rows))}'


def number(data):
    """“gives 0 or the number”."""
    answer = judge_bytes(data)
    return 0 if answer[0] == 'order' else answer[1]


def log_trial(rows, places, words=''):
    return Trial(
        f'{words}log{hex_text(rows)}',
        [lend(0, len(rows)), *put_rows(rows), judge_first(len(rows), places)],
        log_text(rows, places))


def lengths():
    """“1 to 4,096 rows (9)?”; “a length not a multiple of 8 is 9”."""
    for rows in 0, 4096, 4097:
        yield Trial(
            f'rows {rows}', [lend(0, rows), judge_first(rows, 16)], log_text([MARK] * rows, 16))
    rows = [pack_row(5, 1, 7), pack_row(3, 0, 0)]
    for count in 0, 7, 8, 9:
        yield bytes_trial(rows, count)
    for count in 32767, 32768, 32769, 32776:
        yield bytes_trial([], count)


def bytes_trial(rows, count):
    """So many bytes: those of the rows, and then marks."""
    data = bytes_of(rows + [MARK] * (4097 - len(rows)))[:count]
    return Trial(
        f'bytes {count}: ', [lend(0, 4097), *put_rows(rows), judge_bytes_of(count)],
        str(number(data)))


MALFORMED = [
    # Row 0: kind, readers, zero bits.
    [pack_row(1, 0, 7)], [pack_row(4, 2, 7)],
    log_of(0, 7), log_of(17, 7),
    [START[0] | 1 << 51], [START[0] | 1 << 32],
    # Kinds of later rows.
    START + [0], START + START, OPEN_READ + [pack_row(7, 1, 7)], START + [pack_row(15, 1, 0)],
    # Zero bits of kinds 1 to 4.
    START + [pack_row(1, 0, 5) | 1 << 32], OPEN_WRITE + [pack_row(2, 0, 0) | 1 << 51],
    START + [pack_row(3, 1, 0) | 1 << 51], OPEN_READ + [pack_row(4, 1, 7) | 1 << 32],
    # Readings of kinds 2 and 3.
    OPEN_WRITE + [pack_row(2, 0, 5)], START + [pack_row(3, 1, 1 << 31)],
    # Processors of kinds 1 to 4.
    START + [pack_row(1, 1, 5)], OPEN_READ + [pack_row(2, 1, 0)],
    START + [pack_row(3, 0, 0)], START + [pack_row(3, 3, 0)],
    OPEN_WRITE + [pack_row(4, 0, 5)], OPEN_READ + [pack_row(4, 3, 7)],
    # Bands: as row 0, lowest above highest, zero bits, processors; an end first; two ends.
    [pack_row(6, 2, 7)], log_of(2, 7, 'R 1, r 1 8..7'), OPEN_READ + [pack_row(6, 1, 7) | 1 << 32],
    OPEN_WRITE + [pack_row(6, 0, 5)], OPEN_READ + [pack_row(6, 3, 7)],
    log_of(2, 7, 'r 1 0..7'), log_of(2, 7, 'R 1, r 2 0..7'), log_of(2, 7, 'R 1, r 1 0..7, r 1 7'),
    # An end first; two begins; two ends.
    log_of(2, 7, 'w'), log_of(2, 7, 'r 1 7'), log_of(2, 7, 'R 1, r 2 7'),
    log_of(2, 7, 'W 5, W 5'), log_of(2, 7, 'R 1, R 1'),
    log_of(2, 7, 'W 5, w, w'), log_of(2, 7, 'R 1, r 1 7, r 1 7'),
]

# Places for the order, rows.
ORDERS = [
    (1, 'W 5, R 1, r 1 5'), (2, 'W 5, R 1, r 1 5'), (9, 'W 5, R 1, r 1 5'),
    (1, 'R 2, R 1'), (2, 'R 2, R 1'),
    (1, 'W 5, w, R 1, r 1 7'), (2, 'W 5, w, R 1, r 1 7'),
    (16, 'W 5, R 1, r 1 5, R 2, r 2 7'),
    (16, 'W 5, R 2, r 2 7, R 1, r 1 5'),
    (16, 'W 5, R 1, w, W 6, w, W 5, r 1 5, R 2, r 2 6'),
    (16, 'W 5, w, R 1, R 2, r 2 7, r 1 7'),
    (16, 'R 1, W 5, w, r 1 5, R 2, r 2 7'),
    (16, 'W 5, R 1, r 1 7'),
    (16, 'R 1, R 2, W 5, r 2 5, r 1 7'),
    (16, 'R 1, R 2, r 2 7, r 1 7, W 5, R 1, R 2, r 2 5, r 1 5'),
    (16, 'R 1, W 5, w, W 6, w, r 1 5..6, R 2, r 2 4..6'),
    (16, 'R 2, r 2 4..6'),
]


def trials():
    yield from sessions()
    yield from (set_up_trial(*sizes) for sizes in SET_UPS)
    yield from (script_trial(*script) for script in SCRIPTS)
    yield from (range_trial(*state) for state in RANGES)
    yield from (ticket_trial(*state) for state in TICKETS)
    yield from (stamps_set_trial(*cells) for cells in STAMPS_SET)
    yield from counted_trials()
    yield from lengths()
    yield from (log_trial(rows, 0) for rows in MALFORMED)
    for places, text in ORDERS:
        yield log_trial(log_of(2, 7, text), places, f'places {places}, ')


def trials_input():
    """What the program reads: the words of each trial, and its acts."""
    for trial in trials():
        yield f'{trial.words}|' + ' '.join(str(number) for act in trial.acts for number in act)


def trials_lines():
    """What it prints."""
    return (trial.words + trial.result for trial in trials())
