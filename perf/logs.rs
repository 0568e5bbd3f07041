//! Inputs, the same in every run: lists of calls for the register, logs for the judge.

/// Splitmix64.
pub struct Random(pub u64);

impl Random {
    pub fn next(&mut self) -> u64 {
        self.0 = self.0.wrapping_add(0x9e37_79b9_7f4a_7c15);
        let a = (self.0 ^ self.0 >> 30).wrapping_mul(0xbf58_476d_1ce4_e5b9);
        let b = (a ^ a >> 27).wrapping_mul(0x94d0_49bb_1331_11eb);
        b ^ b >> 31
    }

    pub fn below(&mut self, bound: u64) -> u64 {
        self.next() % bound
    }
}

pub fn begin_write(reading: u32) -> u64 {
    1 << 32 | reading as u64
}

pub fn begin_read(p: u64) -> u64 {
    2 << 32 | p
}

pub fn step(p: u64) -> u64 {
    3 << 32 | p
}

pub fn retire(p: u64) -> u64 {
    4 << 32 | p
}

/// A random schedule in which every processor always has something to do: each turn goes to a random processor, which begins an
/// operation if it has none open and otherwise moves a word. Which of the two it is, is learnt from the plain Rust register. It ends
/// when so many rows of the log are used, or no more operation fits and all have ended.
pub fn schedule(n: u32, rows: usize, stop: usize, seed: u64) -> Vec<u64> {
    let mut random = Random(seed);
    let mut table = [0; 272];
    let mut log = vec![0; rows];
    let mut register = crate::register::Register::set_up(n, 7, &mut table, &mut log).unwrap();
    let mut open = [false; 17];
    let mut used = 1;
    let mut calls = Vec::new();
    while used < stop {
        let p = random.below(n as u64 + 1);
        let count = open.iter().filter(|&&o| o).count();
        if open[p as usize] {
            register.step(&mut table, &mut log, p as u32).unwrap();
            calls.push(step(p));
            if log[used] != 0 {
                used += 1;
                open[p as usize] = false;
            }
        } else if used + count + 2 <= rows {
            let reading = random.next() as u32;
            if p == 0 {
                register.begin_write(&mut table, &mut log, reading).unwrap();
                calls.push(begin_write(reading));
            } else {
                register.begin_read(&mut table, &mut log, p as u32).unwrap();
                calls.push(begin_read(p));
            }
            used += 1;
            open[p as usize] = true;
        } else if count == 0 {
            break;
        }
    }
    calls
}

/// A list of calls of which many are refused, a few retire a reader, some are no calls, and the numbers are of any size.
pub fn unruly(n: u32, count: usize, random: &mut Random) -> Vec<u64> {
    (0..count)
        .map(|_| {
            let p = if random.below(20) == 0 { random.next() as u32 as u64 } else { random.below(n as u64 + 2) };
            let kinds = if random.below(60) == 0 { 6 } else { 4 };
            match random.below(kinds) {
                0 => begin_write(random.below(4) as u32),
                1 => begin_read(p),
                4 => retire(p),
                5 => 5 << 32 | p,
                _ => step(p),
            }
        })
        .collect()
}

pub fn row(kind: u64, p: u64, reading: u64) -> u64 {
    kind << 60 | p << 52 | reading
}

/// The kinds of logs that are judged.
#[derive(Clone, Copy)]
pub enum Kind {
    Easy,
    Late,
    Rounds,
    Equal,
}

pub const KINDS: [Kind; 4] = [Kind::Easy, Kind::Late, Kind::Rounds, Kind::Equal];

impl Kind {
    pub fn name(self) -> &'static str {
        match self {
            Kind::Easy => "easy",
            Kind::Late => "late",
            Kind::Rounds => "rounds",
            Kind::Equal => "equal",
        }
    }
}

/// A log of n readers with so many rows.
///
/// Easy: the first rows of what the register logs on a random schedule. A read's write stands a few rows away.
///
/// The others are as bad as a log can be. The reads of one reader come one after the other, and a read is sought from where the one
/// before it was placed, or later; so but for the first row of each search, the judge of crates/judge looks at a row at most once for each
/// reader, n times.
///
/// Late: all readers begin, writes of rising readings follow to the end, then every read gives the last one's reading, so that each
/// is sought through the whole log. It has an order.
///
/// Rounds: all readers begin, there is one write, and all reads give its reading; and again. It comes to n looks for each row as well, in
/// many short searches. It has an order.
///
/// Equal: all readers begin, and the writes that follow all have the same reading, that of every read but the last to end, which
/// gives a reading that was never written. So all reads but one may stand anywhere, and only the last row says that there is no order.
pub fn log(kind: Kind, n: u64, rows: usize, run: &[u64]) -> Vec<u64> {
    if let Kind::Easy = kind {
        // A run's log is at most 4,095 rows: a begin that stays open makes up for the last.
        let mut log = run[..rows.min(4095)].to_vec();
        if log.len() < rows {
            log.push(row(3, 1, 0));
        }
        return log;
    }
    let mut log = vec![row(5, n, 7)];
    let mut reading = 100;
    if let Kind::Rounds = kind {
        while log.len() + 2 * n as usize + 2 <= rows {
            reading += 1;
            log.extend((1..=n).map(|p| row(3, p, 0)));
            log.extend([row(1, 0, reading), row(2, 0, 0)]);
            log.extend((1..=n).map(|p| row(4, p, reading)));
        }
        // what is left is filled by reads of the last one
        while log.len() + 2 <= rows {
            log.extend([row(3, 1, 0), row(4, 1, reading)]);
        }
    } else {
        log.extend((1..=n).map(|p| row(3, p, 0)));
        while log.len() + n as usize + 2 <= rows {
            if let Kind::Late = kind {
                reading += 1;
            }
            log.extend([row(1, 0, reading), row(2, 0, 0)]);
        }
        log.extend((1..=n).map(|p| row(4, p, reading)));
        if let Kind::Equal = kind {
            *log.last_mut().unwrap() = row(4, n, 1);
        }
    }
    // an even number of rows: one operation stays open
    if log.len() < rows {
        log.push(row(3, 1, 0));
    }
    assert_eq!(log.len(), rows);
    log
}

/// A log as bytes, most significant first.
pub fn bytes(log: &[u64]) -> Vec<u8> {
    log.iter().flat_map(|row| row.to_be_bytes()).collect()
}
