//! Compares the product with the independent checker on many random cases, and fails if a kind of case was never tried.
//!
//!     cargo test --release --test independent                       200,000 cases
//!     ROZSVELEN_CASES=2000000 cargo test --release --test independent
//!     ROZSVELEN_SEED=7 ..                                            other cases
mod checker;
mod compare;
mod generate;
mod kinds;
mod limits;

use checker::meaning::{Judged, Row};
use checker::sheets::{self, NODES};
use compare::counters::{compare_entry, compare_steps};
use compare::formulas::compare_formula;
use compare::judging::{compare_judging, compare_plain_row};
use compare::lists::{compare_logs, Logs};
use compare::looks::compare_looks;
use compare::pages::compare_page;
use compare::parts::{compare_part, compare_run, Part, Run};
use compare::printing::{compare_print, CAP};
use compare::profile::compare_profile;
use compare::texts::{compare_counted, compare_log, compare_sheet};
use compare::walks::compare_walk;
use compare::Table;
use generate::formulas::{damaged_formula, formula};
use generate::{counted_text, first_counter, largest_sheet, log, log_text, sheet, sheet_of, tangled_sheet, Looks, Random, Size};
use generate::{perhaps_damaged, perhaps_damaged_table, perhaps_padded};
use kinds::Kinds;
use rozsvelen::PAGE;

/// A random sheet that reads; its rule is printed.
fn any_sheet(random: &mut Random, kinds: &mut Kinds, looks: Looks) -> String {
    let text = sheet(random, looks);
    compare_print(kinds, &Table::of(&text), CAP);
    text
}

fn sheet_case(random: &mut Random, kinds: &mut Kinds) {
    let text = any_sheet(random, kinds, Looks::Both);
    let text = perhaps_padded(random, &text);
    compare_sheet(kinds, &perhaps_damaged(random, text));
}

fn log_case(random: &mut Random, kinds: &mut Kinds) {
    let entries = 1 + random.below(12);
    let text = log_text(&log(random, entries));
    let text = perhaps_padded(random, &text);
    let room = room_to_read(random, entries);
    compare_log(kinds, &perhaps_damaged(random, text), room);
}

/// How many words to lend for so many entries: now and then too few.
fn room_to_read(random: &mut Random, entries: usize) -> usize {
    if random.one_in(6) {
        random.below(entries)
    } else {
        entries + random.below(4)
    }
}

fn counted_case(random: &mut Random, kinds: &mut Kinds) {
    let entries = 1 + random.below(12);
    let words = log(random, entries);
    let text = counted_text(random, &words);
    let room = room_to_read(random, entries);
    compare_counted(kinds, &perhaps_damaged(random, text), room);
    steps_case(random, kinds);
    entry_case(random, kinds);
}

/// Any two counters, or two that are close.
fn steps_case(random: &mut Random, kinds: &mut Kinds) {
    let [earlier, other] = [0, 1].map(|_| random.next() as u16);
    let later = if random.one_in(2) { other } else { earlier.wrapping_add(other % 5).wrapping_sub(2) };
    compare_steps(kinds, earlier, later);
}

/// The entry that bears a counter: one of the log's, the one just before or behind it, or any.
fn entry_case(random: &mut Random, kinds: &mut Kinds) {
    let entries = match random.below(8) {
        0 => *random.pick(&[0, 1, 512, 513]),
        1 => random.next() as usize,
        2 => (1 << random.pick(&[16, 32])) + 1 + random.below(512),
        _ => 1 + random.below(512),
    };
    let first = first_counter(random, entries.clamp(1, 512)) as u16;
    let place = match random.below(6) {
        0 => u16::MAX,
        1 => entries as u16,
        2 => (entries as u16).wrapping_sub(1),
        3 => random.next() as u16,
        _ => random.below(entries.clamp(1, 512)) as u16,
    };
    compare_entry(kinds, first, entries, first.wrapping_add(place));
}

fn page_case(random: &mut Random, kinds: &mut Kinds) {
    let rules = any_sheet(random, kinds, Looks::Both);
    let entries = 1 + random.below(12);
    let steps = log_text(&log(random, entries));
    let [rules, steps] = [rules, steps].map(|text| perhaps_padded(random, &text));
    let rules = if random.one_in(3) { perhaps_damaged(random, rules) } else { rules.into_bytes() };
    let steps = if random.one_in(3) { perhaps_damaged(random, steps) } else { steps.into_bytes() };
    let room = if random.one_in(20) { random.below(PAGE + 2) } else { random.below(150) };
    compare_page(kinds, &rules, &steps, room);
}

/// How many entries: mostly few, now and then one over the limit.
fn entries(random: &mut Random, most: usize) -> usize {
    if random.one_in(100) {
        513
    } else {
        random.below(most + 1)
    }
}

fn judge_case(random: &mut Random, kinds: &mut Kinds) {
    let (looks, kind) = *random.pick(&[
        (Looks::Ahead, "judge: sheet looks ahead"),
        (Looks::Back, "judge: sheet looks back"),
        (Looks::Both, "judge: sheet looks both ways"),
    ]);
    let table = Table::of(&any_sheet(random, kinds, looks));
    let entries = entries(random, 10);
    let accepted = judge_and_show(random, kinds, &table, entries);
    kinds.saw_if(accepted, kind);
}

/// Judges a log of so many entries and shows some of its walks; whether judging was accepted.
fn judge_and_show(random: &mut Random, kinds: &mut Kinds, table: &Table, entries: usize) -> bool {
    let words = log(random, entries);
    let judged = table.judged(&words);
    let room = room_beside(random, 2 * entries);
    let accepted = compare_judging(kinds, table, &words, &judged, room);
    for _ in 0..4 {
        show(random, kinds, table, &words, &judged);
    }
    accepted
}

/// Shows the walk of a random node at a random entry, in a buffer of random length.
fn show(random: &mut Random, kinds: &mut Kinds, table: &Table, words: &[u32], judged: &Result<Judged, u8>) -> bool {
    let k = node_to_show(random, table);
    let i = match random.below(12) {
        0 => words.len() + random.below(100),
        1 => (1 + random.below(65535)) << 16 | random.below(words.len().max(1)),
        _ => random.below(words.len().max(1)),
    };
    let room = match random.below(8) {
        0 | 1 => random.below(2),
        2 => 100 + random.below(8100),
        _ => 20 + random.below(80),
    };
    compare_walk(kinds, table, words, judged, [k, i, room])
}

/// Mostly a D or B node, if there is one; now and then any, or one that is not on the sheet.
fn node_to_show(random: &mut Random, table: &Table) -> usize {
    let numbers = table.ours.numbers();
    let nodes = numbers[sheets::TABLE - 3] as usize;
    let modal: Vec<usize> = (0..nodes.min(NODES)).filter(|k| [b'D', b'B'].map(u16::from).contains(&numbers[3 * k])).collect();
    if random.one_in(24) {
        nodes + random.below(100)
    } else if random.one_in(24) {
        (1 + random.below(0xff_ffff)) << 8 | random.below(nodes.clamp(1, NODES))
    } else if modal.is_empty() || random.one_in(8) {
        random.below(nodes.max(1))
    } else {
        *random.pick(&modal)
    }
}

/// Sheets and logs as large as they may be.
fn largest_case(random: &mut Random, kinds: &mut Kinds) {
    let table = Table::of(&largest_sheet(random, NODES));
    compare_print(kinds, &table, CAP);
    let accepted = judge_and_show(random, kinds, &table, 8);
    kinds.saw_if(accepted, "judge: sheet at every limit");
    let table = Table::of(&any_sheet(random, kinds, Looks::Both));
    judge_and_show(random, kinds, &table, 512);
}

/// A fact that lies far ahead, and a zigzag towards it: walks of many edges.
fn long_case(random: &mut Random, kinds: &mut Kinds) {
    let table = Table::of(if random.one_in(2) {
        "T\nP,31\nM,1,0\nG,0\nE,0,1,0,0\nD,0,1\n"
    } else {
        "T\nP,31\nM,3,0\nG,2\nE,0,1,0,1\nE,1,1,0,2\nE,2,2,0,0\nD,0,1\nB,0,1\n"
    });
    let mut words = vec![0; if random.one_in(200) { 200 + random.below(313) } else { 22 + random.below(30) }];
    *words.last_mut().unwrap() = 1 << 31;
    let judged = table.judged(&words);
    for _ in 0..4 {
        show(random, kinds, &table, &words, &judged);
    }
}

/// Every call that is lent a table, on one that may have been changed.
fn table_case(random: &mut Random, kinds: &mut Kinds) {
    let looks = *random.pick(&[Looks::Ahead, Looks::Back, Looks::Both]);
    let read = *Table::of(&any_sheet(random, kinds, looks)).ours.numbers();
    let numbers = perhaps_damaged_table(random, read);
    let table = Table::from_numbers(numbers);
    let is_changed = numbers != read;
    compare_plain_row(kinds, &table);
    let looks_given = compare_looks(kinds, &table).is_some();
    kinds.saw_if(is_changed && looks_given, "rule_looks: changed table that some sheet gives");
    let printed = compare_print(kinds, &table, CAP);
    kinds.saw_if(is_changed && printed, "print_rule: changed table that some sheet gives");
    let words = log_of(random, 3);
    let judged = table.judged(&words);
    let accepted = compare_judging(kinds, &table, &words, &judged, 2 * words.len());
    kinds.saw_if(is_changed && accepted, "judge: changed table that some sheet gives");
    let shown = show(random, kinds, &table, &words, &judged);
    kinds.saw_if(is_changed && shown, "walk: changed table that some sheet gives");
    let accepted = part_of(random, kinds, &table, looks == Looks::Ahead);
    kinds.saw_if(is_changed && accepted, "judge_part: changed table that some sheet gives");
}

fn log_of(random: &mut Random, most: usize) -> Vec<u32> {
    let entries = entries(random, most);
    log(random, entries)
}

fn part_case(random: &mut Random, kinds: &mut Kinds) {
    let ahead = random.one_in(2);
    let looks = if random.one_in(6) { Looks::Both } else { looks_only(ahead) };
    let table = Table::of(&any_sheet(random, kinds, looks));
    let accepted = part_of(random, kinds, &table, ahead);
    kinds.saw_if(accepted, "judge_part: a row that no part gave");
}

fn looks_only(ahead: bool) -> Looks {
    if ahead {
        Looks::Ahead
    } else {
        Looks::Back
    }
}

/// Judges a part beside a row of random numbers; whether it was accepted.
fn part_of(random: &mut Random, kinds: &mut Kinds, table: &Table, ahead: bool) -> bool {
    let row = any_row(random);
    let words = log_of(random, 6);
    let room = room_beside(random, 2 * words.len());
    compare_part(kinds, table, &Part { ahead, row, words: &words, room }).is_some()
}

fn any_row(random: &mut Random) -> Row {
    std::array::from_fn(|_| random.next() as u16)
}

/// How many places to lend where so many are needed: now and then half of them, or one less.
fn room_beside(random: &mut Random, needed: usize) -> usize {
    match random.below(12) {
        0 => needed / 2,
        1 => needed.saturating_sub(1),
        _ => needed + random.below(3),
    }
}

fn run_case(random: &mut Random, kinds: &mut Kinds) {
    let entries = short_parts(random);
    one_way_run(random, kinds, &entries);
}

/// How many entries each part of a run has.
fn short_parts(random: &mut Random) -> Vec<usize> {
    (0..1 + random.below(5)).map(|_| random.below(6)).collect()
}

/// A run over parts of so many entries, by a sheet all of whose edges go one way.
fn one_way_run(random: &mut Random, kinds: &mut Kinds, entries: &[usize]) {
    let ahead = random.one_in(2);
    let table = Table::of(&any_sheet(random, kinds, looks_only(ahead)));
    let parts = parts_of(random, entries);
    compare_run(kinds, &table, &Run { ahead, parts: &parts, ignored: [0; NODES] });
}

/// Parts of so many entries, some of them lent too few places.
fn parts_of(random: &mut Random, entries: &[usize]) -> Vec<(Vec<u32>, usize)> {
    entries.iter().map(|n| (log(random, *n), room_beside(random, 2 * n))).collect()
}

/// A sheet whose automata look each its own way, so that a spare one may look the other way than the rule. Its logs are cut both ways; runs are given
/// rows with any bits in the ignored places.
fn spare_case(random: &mut Random, kinds: &mut Kinds) {
    let table = Table::of(&any_sheet(random, kinds, Looks::EachItsOwn));
    compare_plain_row(kinds, &table);
    compare_looks(kinds, &table);
    for ahead in [true, false] {
        if part_of(random, kinds, &table, ahead) {
            let entries = short_parts(random);
            let parts = parts_of(random, &entries);
            compare_run(kinds, &table, &Run { ahead, parts: &parts, ignored: any_row(random) });
        }
    }
}

/// Many logs of one sheet in one call; the table, the lengths, the words and the places lent may each be other than they should.
fn logs_case(random: &mut Random, kinds: &mut Kinds) {
    let read = *Table::of(&any_sheet(random, kinds, Looks::Both)).ours.numbers();
    let numbers = if random.one_in(4) { perhaps_damaged_table(random, read) } else { read };
    let table = Table::from_numbers(numbers);
    let mut lengths: Vec<u16> = (0..random.below(7)).map(|_| 1 + random.below(6) as u16).collect();
    if random.one_in(100) {
        lengths.push(512);
    }
    let words = log(random, lengths.iter().map(|n| *n as usize).sum());
    if random.one_in(4) {
        change_lengths(random, &mut lengths);
    }
    let rooms = [room_beside(random, 2 * words.len()), room_beside(random, lengths.len())];
    let accepted = compare_logs(kinds, &table, &Logs { words: &words, lengths: &lengths, rooms });
    kinds.saw_if(accepted && numbers != read, "judge_logs: changed table that some sheet gives");
}

/// A log more, a log less, or one of another length.
fn change_lengths(random: &mut Random, lengths: &mut Vec<u16>) {
    let length = *random.pick(&[0, 1, 2, 3, 512, 513, u16::MAX]);
    let at = random.below(lengths.len() + 1);
    match random.below(3) {
        0 if at < lengths.len() => lengths[at] = length,
        1 if at < lengths.len() => {
            lengths.remove(at);
        }
        _ => lengths.insert(at, length),
    }
}

/// The profile of a sheet, or of a table that may have been changed, and the profile of that. Sizes from which both, one or none can be made.
fn profile_case(random: &mut Random, kinds: &mut Kinds) {
    let nodes = match random.below(12) {
        0 => 60 + random.below(8),
        1 | 2 => 16 + random.below(32),
        _ => 3 + random.below(13),
    };
    let size = Size { leaves: 2, nodes, automata: random.below(4), states: 4 };
    let read = *Table::of(&sheet_of(random, Looks::Both, size)).ours.numbers();
    let numbers = if random.one_in(4) { perhaps_damaged_table(random, read) } else { read };
    let table = Table::from_numbers(numbers);
    let entries = 1 + random.below(8);
    let words = log(random, entries);
    compare_print(kinds, &table, CAP);
    let made = compare_profile(kinds, &table, &words);
    if let Some(made) = &made {
        compare_print(kinds, made, CAP);
    }
    kinds.saw_if(made.is_some() && numbers != read, "profile: of a changed table that some sheet gives");
    let again = made.and_then(|made| compare_profile(kinds, &made, &words));
    kinds.saw_if(again.is_some(), "profile: of a profile");
}

/// The rule of a sheet on which nodes are named again and again, or of a table that may have been changed.
fn print_case(random: &mut Random, kinds: &mut Kinds) {
    let read = *Table::of(&tangled_sheet(random)).ours.numbers();
    let numbers = if random.one_in(4) { perhaps_damaged_table(random, read) } else { read };
    compare_print(kinds, &Table::from_numbers(numbers), CAP);
}

/// A formula, and the same with damage, on a log of a few entries.
fn formula_case(random: &mut Random, kinds: &mut Kinds) {
    let text = formula(random);
    let entries = 1 + random.below(8);
    let words = log(random, entries);
    compare_formula(kinds, text.as_bytes(), &words);
    compare_formula(kinds, &damaged_formula(random, text), &words);
}

fn main() {
    let from = |name: &str, default: u64| std::env::var(name).ok().and_then(|v| v.parse().ok()).unwrap_or(default);
    let (cases, seed) = (from("ROZSVELEN_CASES", 200_000), from("ROZSVELEN_SEED", 1));
    let mut random = Random(seed);
    // lists of logs, counters, profiles, spare automata, rules as text and formulas have numbers of their own: the other cases are the same with
    // them and without them
    let [mut random_logs, mut random_counters, mut random_profiles] = [!seed, seed ^ 1 << 63, !seed ^ 1 << 63].map(Random);
    let [mut random_spares, mut random_rules, mut random_formulas] = [seed ^ 1 << 62, !seed ^ 1 << 62, seed ^ 1 << 61].map(Random);
    let mut kinds = Kinds::default();
    limits::all(&mut kinds);
    for case in 0..cases {
        if case % 1000 == 0 {
            largest_case(&mut random, &mut kinds);
            one_way_run(&mut random, &mut kinds, &[400, 0, 512]);
        }
        let one = match case % 9 {
            0 => sheet_case,
            1 => log_case,
            2 | 3 => judge_case,
            4 => table_case,
            5 => part_case,
            6 => run_case,
            7 => page_case,
            _ => long_case,
        };
        one(&mut random, &mut kinds);
        match case % 9 {
            0 => print_case(&mut random_rules, &mut kinds),
            1 => counted_case(&mut random_counters, &mut kinds),
            2 | 3 | 5 | 7 => formula_case(&mut random_formulas, &mut kinds),
            4 => profile_case(&mut random_profiles, &mut kinds),
            6 => spare_case(&mut random_spares, &mut kinds),
            _ => logs_case(&mut random_logs, &mut kinds),
        }
    }
    print!("{kinds}");
    let never = kinds.never_tried();
    assert!(never.is_empty(), "never tried: {never:?}");
    println!("{cases} random cases agree with the independent checker");
}
