//! Makes the same calls on the relay, the table and the log of this repository, and on ones written by hand.
//!
//!     bench list             the cases, each with how often count.py makes it
//!     bench check            makes each case on both sides, and compares what was answered
//!     bench CASE SIDE TIMES  makes one case (SIDE is ours or hand), and tells how many calls that were
//!     bench time [WORD]      nanoseconds a call, the least of 25 rounds, of the cases whose names have the word

mod relay;
mod relay_loops;
mod store_loops;
mod stores;
mod tally;
mod values;

use std::hint::black_box;
use std::time::Instant;
use tally::Tally;

// crates/bench. A slice is handed over as a pointer and a length.
unsafe extern "C" {
    fn bench_relay(kind: u32, operations: u64, report: *mut u8, report_len: usize);
    fn bench_table(call: u32, held: u32, at: u32, times: u64, zero: u32) -> u64;
    fn bench_log(
        bytes: *mut u8,
        bytes_len: usize,
        call: u32,
        held: u32,
        at: u32,
        times: u64,
        zero: u32,
    ) -> u64;
}

const LONGEST_RECORD: usize = 62;

#[derive(Clone, Copy)]
enum Work {
    Relay { kind: u32 },
    Table { call: u32, held: u32, at: u32 },
    Log { size: usize, call: u32, held: u32, at: u32 },
}

#[derive(Clone, Copy)]
enum Side {
    Ours,
    Hand,
}

struct Case {
    name: String,
    work: Work,
    times: u64,
}

fn cases() -> Vec<Case> {
    let mut all = vec![];
    for (kind, name) in (0..).zip(["write", "settled read", "plain read", "write, settled read"]) {
        all.push(Case { name: format!("relay: {name}"), work: Work::Relay { kind }, times: 250 });
    }
    for (name, call, held, at) in [
        ("get the newest", 0, 32, 320),
        ("get the oldest", 0, 32, 10),
        ("get an absent key", 0, 32, 155),
        ("put the newest", 1, 32, 320),
        ("put the oldest", 1, 32, 10),
        ("put, refused", 1, 32, 155),
        ("put and remove the last", 2, 31, 325),
        ("put and remove the first", 2, 31, 5),
        ("list", 3, 32, 0),
        ("remove an absent key", 4, 32, 155),
    ] {
        let work = Work::Table { call, held, at };
        all.push(Case { name: format!("table of 32: {name}"), work, times: 1000 });
    }
    for keys in [4, 8, 32] {
        let size = LONGEST_RECORD * (keys as usize + 1);
        for (name, call, held, at) in [
            ("get the newest", 0, keys, 10 * keys),
            ("get an absent key", 0, keys, 15),
            ("put the newest", 1, keys, 10 * keys),
            ("put and remove", 2, keys - 1, 10 * keys + 5),
            ("list", 3, keys, 0),
            ("remove an absent key", 4, keys, 15),
        ] {
            let work = Work::Log { size, call, held, at };
            all.push(Case { name: format!("log of {keys}: {name}"), work, times: 500 });
        }
    }
    all
}

fn run(work: Work, side: Side, times: u64) -> Tally {
    let zero = black_box(0);
    let sum = match (work, side) {
        (Work::Relay { kind }, Side::Ours) => {
            let mut report = [0; Tally::WIDTH];
            unsafe { bench_relay(kind, times, report.as_mut_ptr(), report.len()) };
            return Tally::read(&report);
        }
        (Work::Relay { kind }, Side::Hand) => return relay_loops::run_relay(kind, times),
        (Work::Table { call, held, at }, Side::Ours) => unsafe {
            bench_table(call, held, at, times, zero)
        },
        (Work::Table { call, held, at }, Side::Hand) => {
            store_loops::run_table(call, held, at, times, zero)
        }
        (Work::Log { size, call, held, at }, Side::Ours) => {
            let mut bytes = vec![0; size];
            unsafe { bench_log(bytes.as_mut_ptr(), bytes.len(), call, held, at, times, zero) }
        }
        (Work::Log { size, call, held, at }, Side::Hand) => {
            store_loops::run_log(size, call, held, at, times, zero)
        }
    };
    Tally { sum, ..Tally::default() }
}

/// How many calls a case made: on a store one each time (a put and its remove are one), on a relay each call by itself.
fn calls(work: Work, times: u64, tally: Tally) -> u64 {
    match work {
        Work::Relay { .. } => tally.begun + 3 * tally.rounds,
        _ => times,
    }
}

/// Makes each case on both sides. No round of a relay may be refused, since refusals are not counted as calls.
fn check() -> bool {
    let mut good = true;
    for case in cases() {
        let ours = run(case.work, Side::Ours, case.times);
        let hand = run(case.work, Side::Hand, case.times);
        if ours != hand || ours.refused > 0 {
            println!("{}: {ours:?}, {hand:?}", case.name);
            good = false;
        }
    }
    println!("{}", if good { "all answers are the same" } else { "they differ" });
    good
}

/// The least time of 25 rounds, in which the sides take turns.
fn time(case: &Case) {
    let mut least = [f64::MAX; 2];
    let times = 8 * case.times;
    for _ in 0..25 {
        for (side, least) in [Side::Ours, Side::Hand].into_iter().zip(&mut least) {
            let start = Instant::now();
            let tally = black_box(run(case.work, side, black_box(times)));
            let nanoseconds = start.elapsed().as_nanos() as f64;
            *least = least.min(nanoseconds / calls(case.work, times, tally) as f64);
        }
    }
    let [ours, hand] = least;
    println!("| {} | {ours:.1} | {hand:.1} | {:.2} |", case.name, ours / hand);
}

fn main() {
    let args: Vec<String> = std::env::args().skip(1).collect();
    let args: Vec<&str> = args.iter().map(String::as_str).collect();
    match args[..] {
        ["list"] => cases().iter().for_each(|case| println!("{}\t{}", case.name, case.times)),
        ["check"] => std::process::exit(!check() as i32),
        ["time", ..] => {
            let word = args.get(1).copied().unwrap_or("");
            cases().iter().filter(|case| case.name.contains(word)).for_each(time);
        }
        [name, side, times] => {
            let work = cases().iter().find(|case| case.name == name).expect("a case").work;
            let side = if side == "ours" { Side::Ours } else { Side::Hand };
            let times = times.parse().expect("a number");
            let tally = run(work, side, times);
            println!("{} {} {}", calls(work, times, tally), tally.begun, tally.rounds);
        }
        _ => panic!("bench list | check | CASE SIDE TIMES | time [WORD]"),
    }
}
