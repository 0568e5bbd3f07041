//! Speed: the proved judge and register beside plain Rust, and a general search for scale. Prints tables in Markdown.
mod judge;
mod logs;
mod register;
mod search;

use logs::{KINDS, Random};
use std::hint::black_box;
use std::time::{Duration, Instant};

const READERS: [u32; 3] = [1, 4, 16];
const ROWS: [usize; 5] = [256, 512, 1024, 2048, 4096];
const LEAST: Duration = Duration::from_micros(100); // of a turn: short work is repeated in it
const SPAN: Duration = Duration::from_millis(800); // of a measurement: turns are taken until then, of which the fastest counts
const LONG_SPAN: Duration = Duration::from_secs(5); // of one whose turns are long
const LIMIT: Duration = Duration::from_secs(10); // of a search
const ROOM: usize = 29_000_000; // states that a search keeps, about 1.4 GB

mod proved {
    unsafe extern "C" {
        fn judge_bytes(bytes: *const u8, length: usize) -> u32;
        fn judge_rows(rows: *const u64, rows_length: usize, order: *mut u64, order_length: usize) -> u64;
        fn register_run(
            readers: u32,
            start: u32,
            calls: *const u64,
            calls_length: usize,
            table: *mut u64,
            table_length: usize,
            log: *mut u64,
            log_length: usize,
            answers: *mut u64,
            answers_length: usize,
        ) -> u64;
    }

    pub fn judge(bytes: &[u8]) -> u32 {
        unsafe { judge_bytes(bytes.as_ptr(), bytes.len()) }
    }

    /// The number of the verdict; the order is left in its places.
    pub fn judge_with_order(rows: &[u64], order: &mut [u64]) -> u32 {
        let word = unsafe { judge_rows(rows.as_ptr(), rows.len(), order.as_mut_ptr(), order.len()) };
        (word >> 32) as u32
    }

    pub fn run(n: u32, start: u32, calls: &[u64], table: &mut [u64], log: &mut [u64], answers: &mut [u64]) -> Result<usize, u32> {
        let r = unsafe {
            register_run(
                n,
                start,
                calls.as_ptr(),
                calls.len(),
                table.as_mut_ptr(),
                table.len(),
                log.as_mut_ptr(),
                log.len(),
                answers.as_mut_ptr(),
                answers.len(),
            )
        };
        if r >> 32 == 0 { Ok(r as u32 as usize) } else { Err((r >> 32) as u32) }
    }
}

/// The least time of each of some pieces of work, in nanoseconds. They take turns, so that what else the machine does meets them all.
fn least<const N: usize>(span: Duration, mut work: [&mut dyn FnMut(); N]) -> [f64; N] {
    let mut times = [1usize; N];
    for (f, times) in work.iter_mut().zip(&mut times) {
        loop {
            let start = Instant::now();
            (0..*times).for_each(|_| f());
            if start.elapsed() >= LEAST {
                break;
            }
            *times *= 2;
        }
    }
    let mut best = [f64::MAX; N];
    let begun = Instant::now();
    while begun.elapsed() < span {
        for i in 0..N {
            let start = Instant::now();
            (0..times[i]).for_each(|_| work[i]());
            best[i] = best[i].min(start.elapsed().as_nanos() as f64 / times[i] as f64);
        }
    }
    best
}

/// The buffers of a run.
struct Buffers {
    table: Vec<u64>,
    log: Vec<u64>,
    answers: Vec<u64>,
}

type Run = fn(u32, u32, &[u64], &mut [u64], &mut [u64], &mut [u64]) -> Result<usize, u32>;

impl Buffers {
    fn new(cells: usize, rows: usize, answers: usize) -> Buffers {
        Buffers { table: vec![3; cells], log: vec![3; rows], answers: vec![3; answers] }
    }

    fn run(&mut self, run: Run, n: u32, calls: &[u64]) -> Result<usize, u32> {
        run(n, 7, calls, &mut self.table, &mut self.log, &mut self.answers)
    }
}

/// The registers on one list: the same result, table, log and answers. Gives the log.
fn same_run(n: u32, calls: &[u64], cells: usize, rows: usize, answers: usize) -> Vec<u64> {
    let mut ours = Buffers::new(cells, rows, answers);
    let result = ours.run(proved::run, n, calls);
    for run in [register::run, register::run_by_value] {
        let mut b = Buffers::new(cells, rows, answers);
        assert_eq!(b.run(run, n, calls), result);
        assert!(b.table == ours.table && b.log == ours.log && b.answers == ours.answers);
    }
    ours.log
}

/// All judges on one log: the same number.
fn same_verdict(bytes: &[u8]) -> u32 {
    let number = proved::judge(bytes);
    assert_eq!(number, judge::judge(bytes));
    assert_eq!(number, judge::judge_in_passes(bytes));
    number
}

/// Unruly lists and spoilt logs, on which the two sides have to agree, too.
fn compare() {
    let mut random = Random(1);
    let mut verdicts = [0; 13];
    let mut lists = 0;
    for n in [0, 1, 2, 3, 4, 5, 8, 15, 16, 17] {
        for _ in 0..200 {
            let calls = logs::unruly(n, 300, &mut random);
            let cells = (n * n + n) as usize + random.below(3) as usize;
            let cells = if random.below(20) == 0 { cells.saturating_sub(3) } else { cells };
            let rows = if random.below(20) == 0 { random.below(4) } else { 3 + random.below(100) };
            let log = same_run(n, &calls, cells, rows as usize, random.below(400) as usize);
            lists += 1;
            for _ in 0..10 {
                let mut bytes = logs::bytes(&log[..random.below(rows + 1) as usize]);
                for _ in 0..random.below(3) {
                    if bytes.len() > 0 {
                        let at = random.below(bytes.len() as u64) as usize;
                        bytes[at] = [0, 1, 2, 3, 7, 0x10, 0x30, 0x40, 0x60][random.below(9) as usize];
                    }
                }
                if random.below(50) == 0 {
                    bytes.pop();
                }
                let number = same_verdict(&bytes);
                verdicts[number as usize] += 1;
                if number == 0 || number == 12 {
                    let rows: Vec<u64> = bytes.chunks(8).map(|b| u64::from_be_bytes(b.try_into().unwrap())).collect();
                    let found = search::search(&rows, LIMIT, ROOM);
                    assert!(matches!((number, found), (0, search::Found::Order) | (12, search::Found::NoOrder)));
                }
            }
        }
    }
    for rows in [4097, 5000] {
        assert_eq!(same_verdict(&vec![0; rows * 8]), 9);
    }
    println!(
        "Before measuring: {lists} random lists of calls, many refused, and {} logs made of their rows, many spoilt (judged 0: {}, 9: {}, \
         10: {}, 12: {}). The answers, tables, logs and numbers were equal on all, and the search agreed on the logs judged 0 or 12.\n",
        verdicts.iter().sum::<i32>(),
        verdicts[0],
        verdicts[9],
        verdicts[10],
        verdicts[12]
    );
}

/// What was measured of some logs of one kind and length: nanoseconds for one of them.
struct Judged {
    ours: f64,
    ordered: f64,
    rust: f64,
    passes: f64,
    number: u32,
    search: String,
}

fn judged(logs: &[Vec<u64>]) -> Judged {
    let all: Vec<Vec<u8>> = logs.iter().map(|log| logs::bytes(log)).collect();
    let numbers: Vec<u32> = all.iter().map(|bytes| same_verdict(bytes)).collect();
    let number = numbers[0];
    assert!(numbers.iter().all(|&k| k == number));
    let each = |judge: fn(&[u8]) -> u32| {
        for bytes in &all {
            black_box(judge(black_box(bytes)));
        }
    };
    let mut order = vec![0; 4096];
    let mut orders = || {
        for log in logs {
            assert_eq!(proved::judge_with_order(black_box(log), black_box(&mut order)), number);
        }
    };
    let times =
        least(SPAN, [&mut || each(proved::judge), &mut orders, &mut || each(judge::judge), &mut || each(judge::judge_in_passes)]);
    let [ours, ordered, rust, passes] = times.map(|t| t / all.len() as f64);
    Judged { ours, ordered, rust, passes, number, search: searched(&logs[0], number, ours) }
}

/// The time of a search, the least of some if it is short, and as a multiple of a judge's.
fn searched(log: &[u64], number: u32, judge: f64) -> String {
    let mut best = Duration::MAX;
    for _ in 0..5 {
        let start = Instant::now();
        let found = search::search(log, LIMIT, ROOM);
        best = best.min(start.elapsed());
        match found {
            search::Found::OutOfTime => return format!("> {} s", LIMIT.as_secs()),
            search::Found::OutOfRoom => return format!("> {:.1} s (room)", best.as_secs_f64()),
            search::Found::Order => assert_eq!(number, 0),
            search::Found::NoOrder => assert_eq!(number, 12),
        }
        if best > Duration::from_millis(200) {
            break;
        }
    }
    let times = figures(best.as_nanos() as f64 / judge);
    if best.as_millis() >= 100 {
        format!("{:.2} s, × {times}", best.as_secs_f64())
    } else {
        format!("{:.2} ms, × {times}", best.as_secs_f64() * 1e3)
    }
}

/// Two figures, or all before the point.
fn figures(x: f64) -> String {
    if x < 10.0 { format!("{x:.1}") } else { format!("{x:.0}") }
}

/// A range of ratios, and whether all are within an aim.
#[derive(Clone, Copy)]
struct Range {
    low: f64,
    high: f64,
}

const EMPTY: Range = Range { low: f64::MAX, high: 0.0 };

impl Range {
    fn take(&mut self, ratio: f64) {
        self.low = self.low.min(ratio);
        self.high = self.high.max(ratio);
    }

    fn print(self, what: &str, aim: f64) {
        let met = if self.high <= aim { "yes" } else { "no" };
        println!("| {what} | {aim} | {:.2} to {:.2} | {met} |", self.low, self.high);
    }
}

/// What the aims are about.
struct Ratios {
    easy: Range,
    bad: Range,
    growth: Range,
    register: Range,
}

fn print_aims(r: &Ratios) {
    println!("### Aims\n");
    println!("| ratio | at most | found | met |\n|---|---|---|---|");
    r.easy.print("judge to plain Rust, easy logs", 1.5);
    r.bad.print("judge to plain Rust, bad logs", 1.5);
    r.register.print("register to plain Rust", 3.0);
    r.growth.print("judge's time per row at 4,096 rows to that at 512", 1.3);
    println!();
}

fn print_judges(ratios: &mut Ratios) {
    let mut all = Vec::new();
    for n in READERS {
        // as many different runs as logs of the shortest kind take to come to 4,096 rows
        let runs: Vec<Vec<u64>> = (0..16)
            .map(|seed| {
                let calls = logs::schedule(n, 4096, 4096, seed);
                same_run(n, &calls, 272, 4096, calls.len())
            })
            .collect();
        for kind in KINDS {
            let row: Vec<Judged> = ROWS
                .iter()
                .map(|&rows| {
                    let logs: Vec<Vec<u64>> =
                        runs[..4096 / rows].iter().map(|run| logs::log(kind, n as u64, rows, run)).collect();
                    judged(&logs)
                })
                .collect();
            let range = if kind.name() == "easy" { &mut ratios.easy } else { &mut ratios.bad };
            row.iter().for_each(|j| range.take(j.ours / j.rust));
            ratios.growth.take((row[4].ours / 4096.0) / (row[1].ours / 512.0));
            eprintln!("judged: {n} {}", kind.name());
            all.push((kind, n, row));
        }
    }
    all.sort_by_key(|(kind, n, _)| (KINDS.iter().position(|k| k.name() == kind.name()), *n));
    let table = |title: &str, extra: &str, cell: &dyn Fn(&Judged, usize) -> String, last: &dyn Fn(&[Judged]) -> String| {
        println!("### {title}\n");
        println!("| log | n | number |{}{extra}", ROWS.iter().map(|r| format!(" {r} rows |")).collect::<String>());
        println!("|---|---|---|{}{}", "---|".repeat(ROWS.len()), if extra.is_empty() { "" } else { "---|" });
        for (kind, n, row) in &all {
            let cells: String = row.iter().zip(ROWS).map(|(j, rows)| format!(" {} |", cell(j, rows))).collect();
            println!("| {} | {n} | {} |{cells}{}", kind.name(), row[0].number, last(row));
        }
        println!();
    };
    let per_row = |j: &Judged, rows: usize| j.ours / rows as f64;
    table(
        "Byte judge: nanoseconds per row, and the growth from 512 to 4,096 rows",
        " growth |",
        &|j, rows| format!("{:.2}", per_row(j, rows)),
        &|row| format!(" {:.2} |", per_row(&row[4], 4096) / per_row(&row[1], 512)),
    );
    table(
        "Judge of rows, with its order: nanoseconds per row, and as a multiple of the byte judge's",
        "",
        &|j, rows| format!("{:.2}, × {:.2}", j.ordered / rows as f64, j.ordered / j.ours),
        &|_| String::new(),
    );
    table("Byte judge: time, as a multiple of the plain Rust judge's", "", &|j, _| format!("{:.2}", j.ours / j.rust), &|_| {
        String::new()
    });
    table(
        "Byte judge: time, as a multiple of that of the same passes in Rust",
        "",
        &|j, _| format!("{:.2}", j.ours / j.passes),
        &|_| String::new(),
    );
    table("General search: time, and as a multiple of the byte judge's", "", &|j, _| j.search.clone(), &|_| String::new());
}

/// A run of the calls, again and again.
fn again(run: Run, n: u32, calls: &[u64], rows: usize) -> impl FnMut() {
    let mut buffers = Buffers::new(272, rows, calls.len());
    move || {
        black_box(buffers.run(run, n, black_box(calls)).is_ok());
    }
}

fn print_registers(ratios: &mut Ratios) {
    println!("### Register: a list of calls that fills a log of 4,096 rows\n");
    println!("The first and the last eighth of the calls are by the proved register, the last as a difference of two runs.\n");
    println!(
        "| n | calls | ns per call | plain Rust | ratio | Rust, state by value | ratio | first eighth | last eighth | last / first |"
    );
    println!("|---|---|---|---|---|---|---|---|---|---|");
    for n in READERS {
        let calls = logs::schedule(n, 4096, 4096, 0);
        let eighth = calls.len() / 8;
        same_run(n, &calls, 272, 4096, calls.len());
        let [ours, rust, by_value, first, but_last] = least(
            LONG_SPAN,
            [
                &mut again(proved::run, n, &calls, 4096),
                &mut again(register::run, n, &calls, 4096),
                &mut again(register::run_by_value, n, &calls, 4096),
                &mut again(proved::run, n, &calls[..eighth], 4096),
                &mut again(proved::run, n, &calls[..calls.len() - eighth], 4096),
            ],
        );
        let all = calls.len() as f64;
        let (first, last) = (first / eighth as f64, (ours - but_last) / eighth as f64);
        println!(
            "| {n} | {all} | {:.1} | {:.1} | {:.2} | {:.1} | {:.2} | {first:.1} | {last:.1} | {:.2} |",
            ours / all,
            rust / all,
            ours / rust,
            by_value / all,
            ours / by_value,
            last / first
        );
        ratios.register.take(ours / rust);
        eprintln!("run: {n}");
    }
    println!("\n### Register: the same calls, which use 200 rows, with logs of different lengths: ns per call\n");
    println!("| n | calls |{} longest / shortest |", ROWS.iter().map(|r| format!(" {r} rows |")).collect::<String>());
    println!("|---|---|{}---|", "---|".repeat(ROWS.len()));
    for n in READERS {
        let calls = logs::schedule(n, 256, 200, 0);
        let [a, b, c, d, e] = &mut ROWS.map(|rows| {
            same_run(n, &calls, 272, rows, calls.len());
            again(proved::run, n, &calls, rows)
        });
        let times = least(SPAN, [a, b, c, d, e]).map(|t| t / calls.len() as f64);
        let cells: String = times.iter().map(|t| format!(" {t:.1} |")).collect();
        println!("| {n} | {} |{cells} {:.2} |", calls.len(), times[4] / times[0]);
        eprintln!("lengths: {n}");
    }
    println!();
}

fn main() {
    let mut ratios = Ratios { easy: EMPTY, bad: EMPTY, growth: EMPTY, register: EMPTY };
    compare();
    print_judges(&mut ratios);
    print_registers(&mut ratios);
    print_aims(&ratios);
}
