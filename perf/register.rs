//! The register in plain Rust: set-up and a list of calls, with the words, answers, questions and refusals of register_run.

#[derive(Clone, Copy, PartialEq)]
struct Stamp {
    cur: u8,
    prev: u8,
}

const NONE: Stamp = Stamp { cur: 63, prev: 63 };

#[derive(Clone, Copy)]
struct Cell {
    reading: u32,
    stamp: Stamp,
    announced: Stamp,
}

impl Cell {
    fn pack(self) -> u64 {
        (self.reading as u64) << 32
            | (self.stamp.cur as u64) << 26
            | (self.stamp.prev as u64) << 20
            | (self.announced.cur as u64) << 14
            | (self.announced.prev as u64) << 8
    }

    fn unpack(word: u64) -> Cell {
        let ticket = |at: u32| (word >> at & 63) as u8;
        Cell {
            reading: (word >> 32) as u32,
            stamp: Stamp { cur: ticket(26), prev: ticket(20) },
            announced: Stamp { cur: ticket(14), prev: ticket(8) },
        }
    }
}

#[derive(Clone, Copy)]
struct Writer {
    open: bool,
    moved: u32,
    reading: u32,
    barred: u64,
    ticket: u8,
    stamp: Stamp,
}

#[derive(Clone, Copy)]
struct Reader {
    retired: bool,
    open: bool, // an operation has begun and not ended: also that of a retired reader
    second: bool,
    moved: u32,
    stamp: Stamp,
    look: Cell,          // the first look
    agree: bool,         // whether the second look had the same stamp
    found: Option<Cell>, // another reader's cell that is newer than the look
    result: Cell,
}

#[derive(Clone, Copy)]
pub struct Register {
    n: usize,
    rows: usize,
    used: usize,
    opens: usize, // open operations
    writer: Writer,
    readers: [Reader; 16],
}

/// The questions of a call, 4 to 8 and 13; set-up's are 1 to 3.
type Refusal = u32;

impl Register {
    pub fn set_up(n: u32, start: u32, table: &mut [u64], log: &mut [u64]) -> Result<Register, Refusal> {
        if n < 1 || n > 16 {
            return Err(1);
        }
        let cells = (n * n + n) as usize;
        if table.len() < cells {
            return Err(2);
        }
        if log.len() < 3 || log.len() > 4096 {
            return Err(3);
        }
        let first = Cell { reading: start, stamp: Stamp { cur: 0, prev: 1 }, announced: NONE };
        let other = Cell { reading: 0, stamp: NONE, announced: NONE };
        table[..n as usize].fill(first.pack());
        table[n as usize..cells].fill(other.pack());
        log[0] = row(5, n, start);
        let writer = Writer { open: false, moved: 0, reading: 0, barred: 0, ticket: 63, stamp: first.stamp };
        let reader = Reader {
            retired: false,
            open: false,
            second: false,
            moved: 0,
            stamp: NONE,
            look: other,
            agree: false,
            found: None,
            result: other,
        };
        Ok(Register { n: n as usize, rows: log.len(), used: 1, opens: 0, writer, readers: [reader; 16] })
    }

    /// The open operations by count, which question 4 holds the number to.
    fn count_open(&self) -> usize {
        self.writer.open as usize + self.readers[..self.n].iter().filter(|r| r.is_open()).count()
    }

    /// Question 4.
    fn in_range(&self, table: &[u64], log: &[u64]) -> bool {
        let n = self.n;
        (1..=16).contains(&n)
            && n * n + n <= table.len()
            && self.rows == log.len()
            && (3..=4096).contains(&self.rows)
            && (1..=self.rows).contains(&self.used)
            && self.opens == self.count_open()
            && self.used + self.opens <= self.rows
            && self.writer.in_range(n as u32)
            && self.readers[..n].iter().all(|r| r.in_range(n as u32))
    }

    /// Question 7.
    fn has_room(&self) -> bool {
        self.used + self.opens + 2 <= self.rows
    }

    fn add_row(&mut self, log: &mut [u64], row: u64) {
        log[self.used] = row;
        self.used += 1;
    }

    fn add_begin(&mut self, log: &mut [u64], row: u64) {
        self.add_row(log, row);
        self.opens += 1;
    }

    fn add_end(&mut self, log: &mut [u64], row: u64) {
        self.add_row(log, row);
        self.opens -= 1;
    }

    pub fn begin_write(&mut self, table: &mut [u64], log: &mut [u64], reading: u32) -> Result<u32, Refusal> {
        if !self.in_range(table, log) {
            return Err(4);
        }
        if self.writer.open {
            return Err(6);
        }
        if !self.has_room() {
            return Err(7);
        }
        let w = &mut self.writer;
        w.open = true;
        w.moved = 0;
        w.reading = reading;
        w.barred = 0;
        self.add_begin(log, row(1, 0, reading));
        Ok(0)
    }

    /// Questions 4, 5 and 13 of a reader's begin or retirement.
    fn asked_reader(&self, table: &[u64], log: &[u64], p: u32) -> Result<(), Refusal> {
        if !self.in_range(table, log) {
            return Err(4);
        }
        if p < 1 || p > self.n as u32 {
            return Err(5);
        }
        if self.readers[p as usize - 1].retired {
            return Err(13);
        }
        Ok(())
    }

    pub fn begin_read(&mut self, table: &mut [u64], log: &mut [u64], p: u32) -> Result<u32, Refusal> {
        self.asked_reader(table, log, p)?;
        if self.readers[p as usize - 1].open {
            return Err(6);
        }
        if !self.has_room() {
            return Err(7);
        }
        let r = &mut self.readers[p as usize - 1];
        r.open = true;
        r.second = false;
        r.moved = 0;
        self.add_begin(log, row(3, p, 0));
        Ok(0)
    }

    pub fn step(&mut self, table: &mut [u64], log: &mut [u64], p: u32) -> Result<u32, Refusal> {
        if !self.in_range(table, log) {
            return Err(4);
        }
        if p > self.n as u32 {
            return Err(5);
        }
        if p == 0 {
            if !self.writer.open {
                return Err(8);
            }
            self.writer.step(self.n, table);
            if !self.writer.open {
                self.add_end(log, row(2, 0, 0));
            }
            return Ok(self.writer.moved);
        }
        let r = &mut self.readers[p as usize - 1];
        if r.retired {
            return Err(13);
        }
        if !r.open {
            return Err(8);
        }
        r.step(self.n, p as usize, table);
        let (open, moved, reading) = (r.open, r.moved, r.result.reading);
        if !open {
            self.add_end(log, row(4, p, reading));
        }
        Ok(moved)
    }

    pub fn retire(&mut self, table: &mut [u64], log: &mut [u64], p: u32) -> Result<u32, Refusal> {
        self.asked_reader(table, log, p)?;
        let r = &mut self.readers[p as usize - 1];
        r.retired = true;
        self.opens -= r.open as usize;
        Ok(0)
    }
}

impl Writer {
    fn all_barred(&self) -> u64 {
        self.barred | bit(self.stamp.cur) | bit(self.stamp.prev)
    }

    fn new_ticket(&self, n: u32) -> u8 {
        let free = !self.all_barred();
        let above = (free & u64::MAX.checked_shl(self.stamp.cur as u32 + 1).unwrap_or(0)).trailing_zeros();
        (if above <= 3 * n + 2 { above } else { free.trailing_zeros() }) as u8
    }

    fn in_range(&self, n: u32) -> bool {
        let tickets = |moved| {
            if moved <= n { self.all_barred().count_ones() <= 2 + 3 * moved } else { self.ticket < 64 }
        };
        self.stamp.in_range() && (!self.open || self.moved < 2 * n && tickets(self.moved))
    }

    fn step(&mut self, n: usize, table: &mut [u64]) {
        let k = self.moved as usize;
        self.moved += 1;
        if k < n {
            let c = Cell::unpack(table[place(n, k + 1, 0)]);
            self.barred |= bit(c.stamp.prev) | bit(c.announced.cur) | bit(c.announced.prev);
            return;
        }
        if k == n {
            self.ticket = self.new_ticket(n as u32);
        }
        let stamp = Stamp { cur: self.ticket, prev: self.stamp.cur };
        table[place(n, 0, k - n + 1)] = Cell { reading: self.reading, stamp, announced: NONE }.pack();
        if k + 1 == 2 * n {
            self.stamp = stamp;
            self.open = false;
        }
    }
}

impl Reader {
    /// Whether its operation counts as open.
    fn is_open(&self) -> bool {
        self.open && !self.retired
    }

    fn in_range(&self, n: u32) -> bool {
        let moved = if self.second { n + 3..=3 * n + 5 } else { 0..=2 * n + 2 };
        self.stamp.in_range() && (!self.is_open() || moved.contains(&self.moved))
    }

    fn step(&mut self, n: usize, p: usize, table: &mut [u64]) {
        let since = self.moved as usize - if self.second { n + 3 } else { 0 };
        self.moved += 1;
        if since < n + 3 { self.attempt(since, n, p, table) } else { self.store(since - (n + 3), n, p, table) }
    }

    /// Sub-step k, from 0, of an attempt.
    fn attempt(&mut self, k: usize, n: usize, p: usize, table: &mut [u64]) {
        if k == 0 {
            self.look = Cell::unpack(table[place(n, 0, p)]);
            self.found = None;
        } else if k == 1 {
            table[place(n, p, 0)] = Cell { reading: 0, stamp: self.stamp, announced: self.look.stamp }.pack();
        } else if k == 2 {
            self.agree = Cell::unpack(table[place(n, 0, p)]).stamp == self.look.stamp;
        } else if k < n + 2 {
            let c = Cell::unpack(table[place(n, other(p, k - 3), p)]);
            if self.found.is_none() && c.stamp.prev == self.look.stamp.cur {
                self.found = Some(c);
            }
        } else {
            let c = Cell::unpack(table[place(n, 0, p)]);
            if self.agree && c.stamp == self.look.stamp {
                self.result = self.found.unwrap_or(c);
            } else {
                self.result = Cell { reading: self.look.reading, stamp: NONE, announced: NONE };
                self.second = true;
            }
        }
    }

    /// Store k, from 0, of the result.
    fn store(&mut self, k: usize, n: usize, p: usize, table: &mut [u64]) {
        let stamp = self.result.stamp;
        if k + 1 < n {
            let reading = if stamp == NONE { 0 } else { self.result.reading };
            table[place(n, p, other(p, k))] = Cell { reading, stamp, announced: NONE }.pack();
        } else {
            table[place(n, p, 0)] = Cell { reading: 0, stamp, announced: NONE }.pack();
            self.stamp = stamp;
            self.open = false;
        }
    }
}

impl Stamp {
    fn in_range(self) -> bool {
        self.cur < 64 && self.prev < 64
    }
}

/// None bars nothing.
fn bit(ticket: u8) -> u64 {
    if ticket < 63 { 1 << ticket } else { 0 }
}

/// The k-th reader, from 0, other than p.
fn other(p: usize, k: usize) -> usize {
    if k + 1 < p { k + 1 } else { k + 2 }
}

/// Where the cell from processor i to processor j stands.
fn place(n: usize, i: usize, j: usize) -> usize {
    n * i + if j < i || j == 0 { j } else { j - 1 }
}

fn row(kind: u64, p: u32, reading: u32) -> u64 {
    kind << 60 | (p as u64) << 52 | reading as u64
}

/// Set-up, and the calls up to the first word that is none, as far as there are places for answers.
#[inline(never)]
pub fn run(n: u32, start: u32, calls: &[u64], table: &mut [u64], log: &mut [u64], answers: &mut [u64]) -> Result<usize, Refusal> {
    let mut register = Register::set_up(n, start, table, log)?;
    let mut made = 0;
    for (&call, answer) in calls.iter().zip(answers) {
        let number = call as u32;
        let told = match call >> 32 {
            1 => register.begin_write(table, log, number),
            2 => register.begin_read(table, log, number),
            3 => register.step(table, log, number),
            4 => register.retire(table, log, number),
            _ => break,
        };
        *answer = word(told);
        made += 1;
    }
    Ok(made)
}

/// The same with the state by value, handed to each call and returned by it, as in crates/register. It is here to tell what that costs
/// from what the language costs.
#[inline(never)]
pub fn run_by_value(
    n: u32,
    start: u32,
    calls: &[u64],
    table: &mut [u64],
    log: &mut [u64],
    answers: &mut [u64],
) -> Result<usize, Refusal> {
    let mut register = Register::set_up(n, start, table, log)?;
    let mut made = 0;
    for (&call, answer) in calls.iter().zip(answers) {
        let number = call as u32;
        let called = match call >> 32 {
            1 => begin_write_by_value(register, table, log, number),
            2 => begin_read_by_value(register, table, log, number),
            3 => step_by_value(register, table, log, number),
            4 => retire_by_value(register, table, log, number),
            _ => break,
        };
        *answer = word(called.told);
        register = called.register;
        made += 1;
    }
    Ok(made)
}

struct Called {
    told: Result<u32, Refusal>,
    register: Register,
}

#[inline(never)]
fn begin_write_by_value(mut register: Register, table: &mut [u64], log: &mut [u64], reading: u32) -> Called {
    let told = register.begin_write(table, log, reading);
    Called { told, register }
}

#[inline(never)]
fn begin_read_by_value(mut register: Register, table: &mut [u64], log: &mut [u64], p: u32) -> Called {
    let told = register.begin_read(table, log, p);
    Called { told, register }
}

#[inline(never)]
fn step_by_value(mut register: Register, table: &mut [u64], log: &mut [u64], p: u32) -> Called {
    let told = register.step(table, log, p);
    Called { told, register }
}

#[inline(never)]
fn retire_by_value(mut register: Register, table: &mut [u64], log: &mut [u64], p: u32) -> Called {
    let told = register.retire(table, log, p);
    Called { told, register }
}

/// An answer as a word.
fn word(told: Result<u32, Refusal>) -> u64 {
    match told {
        Ok(moved) => moved as u64,
        Err(refusal) => (refusal as u64) << 32,
    }
}
