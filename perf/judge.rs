//! The judge of a log as bytes in plain Rust: 0, or 9, 10 or 12, as judge_bytes.

/// One pass over the rows. It keeps the readings written so far and, of each open read, the place of the earliest write that it may
/// stand behind; a read that ends takes the first write of its reading, or of one in its band, from there on.
#[inline(never)]
pub fn judge(bytes: &[u8]) -> u32 {
    let count = bytes.len() / 8;
    if bytes.len() % 8 != 0 || count < 1 || count > 4096 {
        return 9;
    }
    let mut rows = bytes.chunks_exact(8).map(|b| u64::from_be_bytes(b.try_into().unwrap()));
    let head = rows.next().unwrap();
    let n = processor(head);
    if kind(head) != 5 || zero_bits(head) != 0 || n < 1 || n > 16 {
        return 10;
    }
    let mut written = Vec::with_capacity(count);
    written.push(reading(head)); // the start reading counts as a write
    let mut open = [false; 17];
    let mut floor = [0; 17];
    let mut top = 0; // the latest write that an ended operation stands behind, or is
    let mut ordered = true;
    for row in rows {
        let p = processor(row);
        if zero_bits(row) != 0 || p > n {
            return 10;
        }
        match kind(row) {
            1 => {
                if p != 0 || open[0] {
                    return 10;
                }
                written.push(reading(row));
                open[0] = true;
            }
            2 => {
                if p != 0 || !open[0] || reading(row) != 0 {
                    return 10;
                }
                top = top.max(written.len() - 1);
                open[0] = false;
            }
            3 => {
                if p == 0 || open[p] || reading(row) != 0 {
                    return 10;
                }
                floor[p] = top;
                open[p] = true;
            }
            4 | 6 => {
                if p == 0 || !open[p] || !rising(row) {
                    return 10;
                }
                match written[floor[p]..].iter().position(|&w| suits(row, w)) {
                    Some(i) => top = top.max(floor[p] + i),
                    None => ordered = false,
                }
                open[p] = false;
            }
            _ => return 10,
        }
    }
    if ordered { 0 } else { 12 }
}

/// The same in the passes of crates/judge: the rows into an array, then question 10, then question 12 by rows. It is here to tell what
/// the passes cost from what the language costs.
#[inline(never)]
pub fn judge_in_passes(bytes: &[u8]) -> u32 {
    let count = bytes.len() / 8;
    if bytes.len() % 8 != 0 || count < 1 || count > 4096 {
        return 9;
    }
    let mut buffer = [0u64; 4096];
    for (row, b) in buffer.iter_mut().zip(bytes.chunks_exact(8)) {
        *row = u64::from_be_bytes(b.try_into().unwrap());
    }
    let rows = &buffer[..count];
    if !well_formed(rows) {
        return 10;
    }
    if swept(rows) { 0 } else { 12 }
}

fn well_formed(rows: &[u64]) -> bool {
    let n = processor(rows[0]);
    if kind(rows[0]) != 5 || zero_bits(rows[0]) != 0 || n < 1 || n > 16 {
        return false;
    }
    let mut open = [false; 17];
    for &row in &rows[1..] {
        let p = processor(row);
        let fields = match kind(row) {
            1 => p == 0,
            2 => p == 0 && reading(row) == 0,
            3 => (1..=n).contains(&p) && reading(row) == 0,
            4 | 6 => (1..=n).contains(&p) && rising(row),
            _ => false,
        };
        if !fields || zero_bits(row) != 0 || open[p] == begins(row) {
            return false;
        }
        open[p] = begins(row);
    }
    true
}

fn swept(rows: &[u64]) -> bool {
    let mut begin = [0; 17];
    let mut floor = [0; 17];
    let mut top = 0;
    let mut ordered = true;
    for (k, &row) in rows.iter().enumerate().skip(1) {
        let p = processor(row);
        match kind(row) {
            2 => top = top.max(begin[p]),
            4 | 6 => match (floor[p]..k).find(|&q| is_source(rows, q, row)) {
                Some(q) => top = top.max(q),
                None => ordered = false,
            },
            _ => {
                begin[p] = k;
                floor[p] = top;
            }
        }
    }
    ordered
}

fn is_source(rows: &[u64], q: usize, end: u64) -> bool {
    (q == 0 || kind(rows[q]) == 1) && suits(end, reading(rows[q]))
}

/// Whether a read that this row ends may stand behind a write of v.
pub fn suits(end: u64, v: u32) -> bool {
    if kind(end) == 6 { reading(end) >> 16 <= v && v <= reading(end) & 0xffff } else { v == reading(end) }
}

/// Whether a band's lowest is not above its highest; a result has no such ends.
fn rising(end: u64) -> bool {
    kind(end) != 6 || reading(end) >> 16 <= reading(end) & 0xffff
}

fn begins(row: u64) -> bool {
    kind(row) == 1 || kind(row) == 3
}

pub fn kind(row: u64) -> u64 {
    row >> 60
}

pub fn processor(row: u64) -> usize {
    (row >> 52 & 0xff) as usize
}

fn zero_bits(row: u64) -> u64 {
    row >> 32 & 0xf_ffff
}

pub fn reading(row: u64) -> u32 {
    row as u32
}
