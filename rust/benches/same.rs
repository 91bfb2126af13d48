//! That the versions give the same answers.
use crate::cases::large;
use crate::unproved::{bitsets, formulas, printing, queue, steps, walks};
use rozsvelen::{Sheet, Way, ENTRIES, NODES, WALK, WORDS};

/// The words and the count of a log.
pub fn verdicts(name: &str, sheet: &Sheet, log: &[u32]) {
    let table = sheet.numbers();
    let [mut a, mut b, mut c, mut d] = [[0u64; WORDS * ENTRIES]; 4];
    let held = rozsvelen::judge(sheet, log, &mut a).ok();
    let others = [bitsets::judge(table, log, &mut b), steps::judge(table, log, &mut c), queue::judge(table, log, &mut d)];
    assert_eq!(others, [held; 3], "{name}: the versions' counts differ");
    assert!([&b, &c, &d].iter().all(|x| **x == a), "{name}: the versions' verdicts differ");
}

/// The walk of a node at entry 0; whether there is one.
pub fn walk(name: &str, sheet: &Sheet, log: &[u32], node: usize) -> bool {
    let [mut a, mut b] = [[0u16; WALK]; 2];
    let length = rozsvelen::walk(sheet, log, node as u32, 0, &mut a).ok();
    assert_eq!(length, walks::walk(sheet.numbers(), log, node, 0, &mut b), "{name}: the walks' lengths differ");
    assert!(a == b, "{name}: the walks differ");
    length.is_some()
}

/// The rule as text in so many bytes, and the bytes.
pub fn rule(sheet: &Sheet, room: usize) {
    let [mut a, mut b] = [0, 1].map(|_| vec![7; room]);
    let printed = rozsvelen::print_rule(sheet, &mut a).ok();
    assert_eq!(printed, printing::print_rule(sheet.numbers(), &mut b), "{sheet:?} in {room} bytes: the texts' lengths differ");
    assert!(a == b, "{sheet:?} in {room} bytes: the texts differ");
}

/// The table of a formula; 0, or the number by which it is refused.
pub fn formula(text: &[u8]) -> u8 {
    let proved = Sheet::from_formula(text).map(|sheet| *sheet.numbers()).map_err(|no| (no.number, no.place));
    let unproved = formulas::formula(text);
    assert!(proved == unproved, "formula {:?}: {:?} and {:?}", String::from_utf8_lossy(text), proved.err(), unproved.err());
    unproved.err().map_or(0, |(number, _)| number)
}

/// The words and the row of a part beside a row of many bits.
fn part(name: &str, sheet: &Sheet, way: Way, log: &[u32]) {
    let (table, ahead) = (sheet.numbers(), way == Way::Ahead);
    let row = std::array::from_fn(|k| (k * 40_503) as u16);
    let [mut a, mut b, mut c] = [[0u64; WORDS * ENTRIES]; 3];
    let next = rozsvelen::judge_part(sheet, way, &row, log, &mut a).ok();
    let others = [bitsets::part(table, log, &mut b, &row, ahead), steps::part(table, log, &mut c, &row, ahead)];
    assert_eq!(others, [next; 2], "{name}: the versions' rows differ");
    assert!(a == b && a == c, "{name}: the versions' verdicts differ");
}

/// Logs of five entries in one call.
fn logs(name: &str, sheet: &Sheet, words: &[u32]) {
    let (table, lengths) = (sheet.numbers(), vec![5; words.len() / 5]);
    let [mut a, mut b, mut c] = [0; 3].map(|_| (vec![0u64; WORDS * words.len()], vec![0u16; lengths.len()]));
    let proved = rozsvelen::judge_logs(sheet, words, &lengths, &mut a.0, &mut a.1).ok();
    let others = [bitsets::logs(table, words, &lengths, &mut b.0, &mut b.1), steps::logs(table, words, &lengths, &mut c.0, &mut c.1)];
    assert_eq!(others, [proved; 2], "{name}: not all versions accept them");
    assert!(a == b && a == c, "{name}: the versions' verdicts or counts differ");
}

/// Every job by sheets of 128 nodes: those that are timed have no node above 63.
pub fn above_63() {
    for (way, dir) in [(Way::Ahead, 1), (Way::Back, 2)] {
        let (text, log) = large(dir);
        let sheet = Sheet::read(text.as_bytes()).unwrap();
        for entries in [5, 64, 200] {
            verdicts("128 nodes", &sheet, &log[..entries]);
            part("a part by 128 nodes", &sheet, way, &log[..entries]);
        }
        logs("logs by 128 nodes", &sheet, &log);
        let shown = (0..NODES).filter(|node| walk("a walk by 128 nodes", &sheet, &log, *node)).count();
        assert!(shown > 0, "no walk by 128 nodes");
    }
}
