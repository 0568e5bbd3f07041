//! A general search for an order: Wing and Gong's, depth first over the operations that no other precedes, with memoized states.
//! It knows of a register only what a write and a read do to a value.
use crate::judge::{kind, processor, reading, suits};
use std::collections::HashSet;
use std::time::{Duration, Instant};

pub enum Found {
    Order,
    NoOrder,
    OutOfTime,
    OutOfRoom,
}

/// An operation's begin or its end, in a list that is linked both ways so that an operation can be taken out and put back.
struct Entry {
    before: usize,
    after: usize,
    end: usize, // of a begin: the entry of its end, or 0 if it has none
    begins: bool,
    writes: bool,
    row: u64, // of a begin: a write's own row, a read's end row
    processor: usize,
}

/// The operations that are placed, and the value behind them. A processor's operations come one after another, so that how many of
/// each processor's are placed tells the set.
type Placed = ([u16; 17], u32);

pub fn search(rows: &[u64], limit: Duration, room: usize) -> Found {
    let start = Instant::now();
    let mut entries = entries_of(rows);
    let mut left = entries.iter().filter(|e| e.begins && e.end != 0).count();
    let mut placed: Placed = ([0; 17], reading(rows[0]));
    let mut seen = HashSet::new();
    let mut stack: Vec<(usize, u32)> = Vec::new();
    let mut at = entries[0].after;
    let mut turns = 0u32;
    while left > 0 {
        turns = turns.wrapping_add(1);
        if turns % 4096 == 0 && start.elapsed() > limit {
            return Found::OutOfTime;
        }
        if seen.len() > room {
            return Found::OutOfRoom;
        }
        let e = &entries[at];
        if at != 0 && e.begins {
            if e.writes || suits(e.row, placed.1) {
                let mut next = placed;
                next.0[e.processor] += 1;
                if e.writes {
                    next.1 = reading(e.row);
                }
                if seen.insert(next) {
                    left -= (e.end != 0) as usize;
                    stack.push((at, placed.1));
                    placed = next;
                    take_out(&mut entries, at);
                    at = entries[0].after;
                    continue;
                }
            }
            at = entries[at].after;
            continue;
        }
        // an end: its operation has to be placed before any that follow, and could not be
        let Some((last, value)) = stack.pop() else {
            return Found::NoOrder;
        };
        put_back(&mut entries, last);
        left += (entries[last].end != 0) as usize;
        placed.0[entries[last].processor] -= 1;
        placed.1 = value;
        at = entries[last].after;
    }
    Found::Order
}

/// The entries of the ended operations and of an unended write; entry 0 is the list's head.
fn entries_of(rows: &[u64]) -> Vec<Entry> {
    let head = Entry { before: 0, after: 0, end: 0, begins: false, writes: false, row: 0, processor: 0 };
    let mut end_row = vec![0; rows.len()];
    let mut open = [0; 17];
    for (k, &row) in rows.iter().enumerate().skip(1) {
        let p = processor(row);
        match kind(row) {
            1 | 3 => open[p] = k,
            _ => end_row[open[p]] = k,
        }
    }
    let mut entries = vec![head];
    for (k, &row) in rows.iter().enumerate().skip(1) {
        let begins = kind(row) % 2 == 1;
        let p = processor(row);
        if kind(row) == 3 && end_row[k] == 0 {
            continue;
        }
        let here = entries.len();
        let told = if kind(row) == 3 { rows[end_row[k]] } else { row };
        entries.push(Entry { before: here - 1, after: 0, end: 0, begins, writes: kind(row) == 1, row: told, processor: p });
        entries[here - 1].after = here;
        if begins {
            open[p] = here;
        } else {
            entries[open[p]].end = here;
        }
    }
    entries
}

fn take_out(entries: &mut [Entry], begin: usize) {
    unlink(entries, begin);
    if entries[begin].end != 0 {
        unlink(entries, entries[begin].end);
    }
}

fn put_back(entries: &mut [Entry], begin: usize) {
    if entries[begin].end != 0 {
        link(entries, entries[begin].end);
    }
    link(entries, begin);
}

fn unlink(entries: &mut [Entry], k: usize) {
    let (before, after) = (entries[k].before, entries[k].after);
    entries[before].after = after;
    if after != 0 {
        entries[after].before = before;
    }
}

fn link(entries: &mut [Entry], k: usize) {
    let (before, after) = (entries[k].before, entries[k].after);
    entries[before].after = k;
    if after != 0 {
        entries[after].before = k;
    }
}
