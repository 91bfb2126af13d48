//! Times the proved library against the fastest unproved versions of each job that are known: same machine, same input, both built for release, one run,
//! the thread's processor time. The versions are first checked to give the same answers. Buffers are lent anew to each call and not cleared first.
//! Prints the rows of the table in docs/BENCHMARKS.md: microseconds for doing the job once.
//!
//!     cargo bench
mod cases;
mod formulas;
mod printing;
mod reading;
mod same;
mod timing;
mod unproved;

use cases::{dense, hard, many, short_logs, snake, zigzag, Case, W, Z};
use rozsvelen::{Sheet, Way, ENTRIES, WALK, WORDS};
use std::hint::black_box;
use timing::{head, row, time, work};
use unproved::{bitsets, queue, steps, walks};

fn judging(name: &str, text: &str, log: &[u32]) {
    let sheet = Sheet::read(text.as_bytes()).unwrap();
    same::verdicts(name, &sheet, log);
    let table = sheet.numbers();
    let [mut a, mut b, mut c, mut d] = [[0u64; WORDS * ENTRIES]; 4];
    let [proved, by_bitsets, by_steps, by_queue] = time(
        1,
        [
            &mut work(|| rozsvelen::judge(&sheet, black_box(log), &mut a)),
            &mut work(|| bitsets::judge(table, black_box(log), &mut b)),
            &mut work(|| steps::judge(table, black_box(log), &mut c)),
            &mut work(|| queue::judge(table, black_box(log), &mut d)),
        ],
    );
    row(name, proved, &[("bitsets", by_bitsets), ("steps", by_steps), ("queue", by_queue)]);
}

/// A thousand logs of five entries one by one; the figures are for one of them.
fn short_by_itself() {
    let sheet = Sheet::read(Z.as_bytes()).unwrap();
    let table = sheet.numbers();
    let words = short_logs();
    let [mut a, mut b, mut c, mut d] = [0; 4].map(|_| vec![0u64; WORDS * words.len()]);
    let all = |verdicts: &mut [u64], judge: &mut dyn FnMut(&[u32], &mut [u64]) -> Option<usize>| -> Option<usize> {
        words.chunks(5).zip(verdicts.chunks_mut(5 * WORDS)).map(|(log, verdicts)| judge(black_box(log), verdicts)).sum()
    };
    let mut proved = || all(&mut a, &mut |log, verdicts| rozsvelen::judge(&sheet, log, verdicts).ok());
    let mut by_bitsets = || all(&mut b, &mut |log, verdicts| bitsets::judge(table, log, verdicts));
    let mut by_steps = || all(&mut c, &mut |log, verdicts| steps::judge(table, log, verdicts));
    let mut by_queue = || all(&mut d, &mut |log, verdicts| queue::judge(table, log, verdicts));
    assert_eq!([by_bitsets(), by_steps(), by_queue()], [proved(); 3], "short logs: the versions' counts differ");
    let times = time(10, [&mut work(proved), &mut work(by_bitsets), &mut work(by_steps), &mut work(by_queue)]);
    let [proved, by_bitsets, by_steps, by_queue] = times.map(|us| us / 1000.0);
    assert!(a == b && a == c && a == d, "short logs: the versions' verdicts differ");
    row("a log of five entries, sheet Z, by itself", proved, &[("bitsets", by_bitsets), ("steps", by_steps), ("queue", by_queue)]);
}

/// The same logs in one call; the figures are for one of them.
fn short_in_one_call() {
    let sheet = Sheet::read(Z.as_bytes()).unwrap();
    let table = sheet.numbers();
    let (words, lengths) = (short_logs(), [5; 1000]);
    let [mut a, mut b, mut c] = [0; 3].map(|_| (vec![0u64; WORDS * words.len()], vec![0u16; lengths.len()]));
    let mut proved = || rozsvelen::judge_logs(&sheet, black_box(&words), &lengths, &mut a.0, &mut a.1).ok();
    let mut by_bitsets = || bitsets::logs(table, black_box(&words), &lengths, &mut b.0, &mut b.1);
    let mut by_steps = || steps::logs(table, black_box(&words), &lengths, &mut c.0, &mut c.1);
    assert_eq!([proved(), by_bitsets(), by_steps()], [Some(()); 3], "short logs in one call: not all versions accept them");
    let times = time(10, [&mut work(proved), &mut work(by_bitsets), &mut work(by_steps)]);
    let [proved, by_bitsets, by_steps] = times.map(|us| us / 1000.0);
    assert!(a == b && a == c, "short logs in one call: the versions' verdicts or counts differ");
    row("a log of five entries, sheet Z, 1,000 in one call", proved, &[("bitsets", by_bitsets), ("steps", by_steps)]);
}

fn parts() {
    let sheet = Sheet::read(W.as_bytes()).unwrap();
    let plain = rozsvelen::plain_row(&sheet).unwrap();
    let (_, log) = hard(2);
    let [mut a, mut b, mut c] = [[0u64; 32 * WORDS]; 3];
    let mut proved = || log.chunks(32).rev().fold(plain, |row, part| rozsvelen::judge_part(&sheet, Way::Ahead, &row, part, &mut a).unwrap());
    let mut by_bitsets = || log.chunks(32).rev().fold(plain, |row, part| bitsets::part(sheet.numbers(), part, &mut b, &row, true).unwrap());
    let mut by_steps = || log.chunks(32).rev().fold(plain, |row, part| steps::part(sheet.numbers(), part, &mut c, &row, true).unwrap());
    assert_eq!([by_bitsets(), by_steps()], [proved(); 2], "the versions' rows differ");
    let [proved, by_bitsets, by_steps] = time(100, [&mut work(proved), &mut work(by_bitsets), &mut work(by_steps)]);
    assert!(a == b && a == c, "parts: the versions' verdicts differ");
    row("16 parts of 32 entries with rows, sheet W", proved, &[("bitsets", by_bitsets), ("steps", by_steps)]);
}

fn walking(name: &str, (text, log): (&str, &[u32]), node: usize, times: usize) {
    let sheet = Sheet::read(text.as_bytes()).unwrap();
    assert!(same::walk(name, &sheet, log, node), "{name}: there is no walk");
    let [mut a, mut b] = [[0u16; WALK]; 2];
    let [proved, unproved] = time(
        times,
        [
            &mut work(|| rozsvelen::walk(&sheet, black_box(log), node as u32, 0, &mut a)),
            &mut work(|| walks::walk(sheet.numbers(), black_box(log), node, 0, &mut b)),
        ],
    );
    row(name, proved, &[("walks", unproved)]);
}

fn main() {
    same::above_63();
    head();
    let case = |name: &str, (text, log): Case| judging(name, &text, &log);
    case("hard", hard(2));
    case("hard, 16 tested facts", hard(16));
    case("hard, 256 different edges", dense());
    case("16 automata of 16 edges, 3 nodes each", many());
    case("zigzag", zigzag());
    case("snake", snake());
    short_by_itself();
    short_in_one_call();
    parts();
    let (zigzag_text, zigzag_log) = zigzag();
    walking("walk on five entries, sheet Z", (Z, &[1, 2, 4, 1, 4]), 8, 1000);
    walking("walk of 511 edges, sheet W", (W, &zigzag_log), 2, 100);
    walking("walk on the zigzag", (&zigzag_text, &zigzag_log), 2, 5);
    reading::reading();
    printing::printing();
    formulas::reading();
    let (hard_text, hard_log) = hard(2);
    for entries in [64, 128, 256, 512] {
        judging(&format!("hard sheet on {entries} entries"), &hard_text, &hard_log[..entries]);
    }
}
