//! Random sheets, formulas, logs, rows and damage, from a seed.
pub mod formulas;

use crate::checker::sheets::{AUTOMATA_AT, COUNTS_AT, EDGES_AT, NODES, TABLE};

/// A generator of numbers that is the same on every machine (SplitMix64).
pub struct Random(pub u64);

impl Random {
    pub fn next(&mut self) -> u64 {
        self.0 = self.0.wrapping_add(0x9e37_79b9_7f4a_7c15);
        let mut z = self.0;
        z = (z ^ (z >> 30)).wrapping_mul(0xbf58_476d_1ce4_e5b9);
        z = (z ^ (z >> 27)).wrapping_mul(0x94d0_49bb_1331_11eb);
        z ^ (z >> 31)
    }

    /// A number below n.
    pub fn below(&mut self, n: usize) -> usize {
        (self.next() % n as u64) as usize
    }

    /// Yes in one of n cases.
    pub fn one_in(&mut self, n: usize) -> bool {
        self.below(n) == 0
    }

    pub fn pick<'a, T>(&mut self, all: &'a [T]) -> &'a T {
        &all[self.below(all.len())]
    }
}

/// Which directions a sheet's edges may have: one, both, or in each automaton one of them.
#[derive(Clone, Copy, PartialEq, Eq)]
pub enum Looks {
    Ahead,
    Back,
    Both,
    EachItsOwn,
}

struct Writer<'a> {
    random: &'a mut Random,
    text: String,
    nodes: usize,
    plain: Vec<usize>,
    automata: usize,
    edges: usize,
}

/// How many nodes a sheet has, and how many of them are leaves that stand before all others; how many automata it may have, and how many states
/// each of them.
pub struct Size {
    pub leaves: usize,
    pub nodes: usize,
    pub automata: usize,
    pub states: usize,
}

/// A sheet that reads, of random size: mostly small; in one of six cases small behind so many leaves that its nodes are about or above number 63;
/// now and then near the limits.
pub fn sheet(random: &mut Random, looks: Looks) -> String {
    if random.one_in(60) {
        let nodes = *random.pick(&[64, 65, 96, NODES]);
        return sheet_of(random, looks, Size { leaves: 2, nodes, automata: 16, states: 16 });
    }
    let leaves = if random.one_in(6) { 52 + random.below(68) } else { 2 };
    let size = Size { leaves, nodes: leaves + 2 + random.below(8), automata: 1 + random.below(3), states: 4 };
    sheet_of(random, looks, size)
}

/// A sheet that reads, of 2 leaves and 3 nodes or more. Its automata are spread over it.
pub fn sheet_of(random: &mut Random, looks: Looks, size: Size) -> String {
    let mut w = Writer { random, text: String::new(), nodes: 0, plain: vec![], automata: 0, edges: 0 };
    for _ in 0..size.leaves {
        w.leaf();
    }
    let apart = ((size.nodes - size.leaves) / 16).max(3);
    while w.nodes < size.nodes - 1 {
        if w.automata < size.automata && w.edges < 220 && w.random.one_in(apart) {
            w.automaton(looks, size.states);
        } else {
            w.node();
        }
    }
    w.node();
    w.text
}

/// A sheet of so many nodes and at every other limit: 16 automata of 16 states, 256 edges. Half of the nodes and three more are leaves, which the
/// edges test.
pub fn largest_sheet(random: &mut Random, nodes: usize) -> String {
    let leaves = nodes / 2 + 3;
    let mut text: String = ["P,0\n", "P,1\n", "T\n"].into_iter().cycle().take(leaves).collect();
    for _ in 0..16 {
        text += &format!("M,16,{}\nG,{}\n", random.below(16), random.below(16));
        for s in 0..16 {
            text += &format!("E,{s},{},{},{}\n", random.below(3), random.below(leaves), random.below(16));
        }
    }
    for k in leaves..nodes {
        text += &format!("{},{},{}\n", random.pick(&['D', 'B']), random.below(16), random.below(k));
    }
    text
}

/// A sheet whose rule can have a text of any length: each node behind the leaves and automata names nodes of the last three before it, mostly the
/// last.
pub fn tangled_sheet(random: &mut Random) -> String {
    let most = if random.one_in(8) { NODES } else { 28 };
    let (leaves, automata) = (3, random.below(17));
    let mut w = Writer { random, text: String::new(), nodes: 0, plain: vec![], automata: 0, edges: 0 };
    (0..leaves).for_each(|_| w.leaf());
    (0..automata).for_each(|_| w.automaton(Looks::Both, 2));
    for k in leaves..leaves + 1 + w.random.below(most - leaves) {
        let [a, b] = [0, 1].map(|_| k - 1 - w.random.below(2) * w.random.below(3));
        let m = w.random.below(automata.max(1));
        w.text += &match w.random.below(if automata > 0 { 7 } else { 5 }) {
            0 => format!("N,{a}\n"),
            1 | 2 => format!("A,{a},{b}\n"),
            3 | 4 => format!("O,{a},{b}\n"),
            5 => format!("D,{m},{a}\n"),
            _ => format!("B,{m},{a}\n"),
        };
    }
    w.text
}

impl Writer<'_> {
    fn leaf(&mut self) {
        self.text += &match self.random.below(6) {
            0 => "T\n".to_string(),
            1 => "F\n".to_string(),
            _ => format!("P,{}\n", fact(self.random)),
        };
        self.plain.push(self.nodes);
        self.nodes += 1;
    }

    fn node(&mut self) {
        if self.random.one_in(4) {
            return self.leaf();
        }
        let [a, b] = [0, 1].map(|_| late(self.random, self.nodes));
        let is_plain = |k: &usize| self.plain.contains(k);
        let (line, plain) = match self.random.below(if self.automata > 0 { 9 } else { 3 }) {
            0 => (format!("N,{a}\n"), is_plain(&a)),
            1 => (format!("A,{a},{b}\n"), is_plain(&a) && is_plain(&b)),
            2 => (format!("O,{a},{b}\n"), is_plain(&a) && is_plain(&b)),
            n => {
                let m = self.random.below(self.automata);
                (format!("{},{m},{a}\n", if n % 2 == 0 { 'D' } else { 'B' }), false)
            }
        };
        self.text += &line;
        if plain {
            self.plain.push(self.nodes);
        }
        self.nodes += 1;
    }

    fn automaton(&mut self, looks: Looks, most_states: usize) {
        const AHEAD: [usize; 3] = [0, 1, 1];
        const BACK: [usize; 3] = [0, 2, 2];
        let directions = match looks {
            Looks::Ahead => AHEAD,
            Looks::Back => BACK,
            Looks::Both => [0, 1, 2],
            Looks::EachItsOwn => *self.random.pick(&[AHEAD, BACK]),
        };
        let states = 1 + self.random.below(most_states);
        self.text += &format!("M,{states},{}\n", self.random.below(states));
        let mut touched = vec![false; states];
        let mut extra = 1 + self.random.below(4);
        let mut accepting = vec![];
        while touched.contains(&false) || extra > 0 {
            let from = touched.iter().position(|t| !t).filter(|_| extra == 0).unwrap_or_else(|| self.random.below(states));
            let to = self.random.below(states);
            touched[from] = true;
            touched[to] = true;
            extra = extra.saturating_sub(1);
            self.edge(directions, from, to);
            let s = self.random.below(states);
            if self.random.one_in(3) && !accepting.contains(&s) {
                accepting.push(s);
                self.text += &format!("G,{s}\n");
            }
        }
        let s = self.random.below(states);
        if !accepting.contains(&s) && !self.random.one_in(8) {
            self.text += &format!("G,{s}\n");
        }
        self.automata += 1;
    }

    fn edge(&mut self, directions: [usize; 3], from: usize, to: usize) {
        let dir = *self.random.pick(&directions);
        let test = if dir == 0 { late(self.random, self.nodes) } else { self.plain[late(self.random, self.plain.len())] };
        self.text += &format!("E,{from},{dir},{test},{to}\n");
        self.edges += 1;
    }
}

/// A number below n: every second one among the last eight.
fn late(random: &mut Random, n: usize) -> usize {
    let first = if random.one_in(2) { n.saturating_sub(8) } else { 0 };
    first + random.below(n - first)
}

/// A fact for a sheet to speak of: often one of a few, so that nodes share it, else any.
fn fact(random: &mut Random) -> usize {
    if random.one_in(2) {
        random.below(4)
    } else {
        random.below(32)
    }
}

/// The words of a log of so many entries: each fact in one of four.
pub fn log(random: &mut Random, entries: usize) -> Vec<u32> {
    (0..entries).map(|_| (random.next() & random.next()) as u32).collect()
}

/// The text of a log.
pub fn log_text(words: &[u32]) -> String {
    let mut text = String::new();
    for w in words {
        let facts: Vec<String> = (0..32).filter(|f| w >> f & 1 == 1).map(|f| f.to_string()).collect();
        text += &if facts.is_empty() { "-".to_string() } else { facts.join(",") };
        text.push('\n');
    }
    text
}

/// A text; every second one with zeros before some of its numbers, now and then to four digits, which make no number.
pub fn perhaps_padded(random: &mut Random, text: &str) -> String {
    if random.one_in(2) {
        return text.to_string();
    }
    text.split_inclusive([',', '\n']).map(|field| padded(random, field)).collect()
}

/// A field and the byte that ends it, perhaps with zeros before it where it is a number.
fn padded(random: &mut Random, field: &str) -> String {
    let digits = field.trim_end_matches([',', '\n']).len();
    let is_number = digits > 0 && field.as_bytes()[..digits].iter().all(u8::is_ascii_digit);
    let wanted = match random.below(200) {
        0 => 4,
        1..=80 => 2 + random.below(2),
        _ => 0,
    };
    if is_number {
        "0".repeat(wanted.saturating_sub(digits)) + field
    } else {
        field.to_string()
    }
}

/// The first counter of a log of so many entries: in one of four the counter comes to 65,535 within the log, else it has any number of digits.
pub fn first_counter(random: &mut Random, entries: usize) -> usize {
    if random.one_in(4) {
        return 65_535 - random.below(entries);
    }
    let below = *random.pick(&[10, 1000, 65_536]);
    random.below(below)
}

/// The text of a log with counters. Its facts may be padded as those of another log; some lines have another counter than they should, or none.
pub fn counted_text(random: &mut Random, words: &[u32]) -> String {
    let facts = perhaps_padded(random, &log_text(words));
    let first = first_counter(random, words.len());
    facts.split_inclusive('\n').zip(first..).map(|(facts, n)| counted_line(random, n % 65_536, facts)).collect()
}

/// A line's facts, with LF, behind the counter n; now and then behind another, or behind none.
fn counted_line(random: &mut Random, n: usize, facts: &str) -> String {
    let n = match random.below(150) {
        0 => return facts.to_string(),
        1 => return format!("{n}\n"),
        2 => return format!(",{facts}"),
        3 => (n + 65_535) % 65_536,
        4 => n + 1,
        5 => n + (1 << random.below(17)),
        6 => 65_536 + random.below(2) * (n % 34_464),
        _ => n,
    };
    format!("{},{facts}", counter(random, n))
}

/// A counter, perhaps with zeros before it, now and then to six digits, which make none.
fn counter(random: &mut Random, n: usize) -> String {
    let digits = match random.below(150) {
        0 => 6,
        1..=60 => 2 + random.below(4),
        _ => 0,
    };
    format!("{n:0digits$}")
}

/// A text with a few bytes, numbers or lines changed, or cut short; one in four is left as it is.
pub fn perhaps_damaged(random: &mut Random, text: String) -> Vec<u8> {
    let mut bytes = text.into_bytes();
    if !random.one_in(4) {
        for _ in 0..1 + random.below(2) {
            bytes = damaged(random, bytes);
        }
    }
    bytes
}

fn damaged(random: &mut Random, mut bytes: Vec<u8>) -> Vec<u8> {
    let at = random.below(bytes.len().max(1));
    match random.below(9) {
        0..=2 => return other_lines(random, &bytes),
        3 | 4 => return other_number(random, &bytes),
        5 if !bytes.is_empty() => bytes[at] = byte(random),
        6 if !bytes.is_empty() => {
            bytes.remove(at);
        }
        7 => bytes.insert(at, byte(random)),
        _ => bytes.truncate(if random.one_in(2) { at } else { bytes.len().saturating_sub(1) }),
    }
    bytes
}

/// A byte of a text, or any.
fn byte(random: &mut Random) -> u8 {
    if random.one_in(4) {
        random.next() as u8
    } else {
        *random.pick(b"0123456789,\n-TFPNAODBMGE \r\0")
    }
}

/// One of the numbers becomes another, mostly about as large as some number may be.
fn other_number(random: &mut Random, bytes: &[u8]) -> Vec<u8> {
    let mut fields: Vec<&[u8]> = bytes.split_inclusive(|b| b",\n".contains(b)).collect();
    let numbers: Vec<usize> = (0..fields.len()).filter(|i| fields[*i][0].is_ascii_digit()).collect();
    if numbers.is_empty() {
        return bytes.to_vec();
    }
    let (i, below) = (*random.pick(&numbers), *random.pick(&[4, 18, 34, NODES + 2, 1000]));
    let end = fields[i].iter().position(|b| b",\n".contains(b)).unwrap_or(fields[i].len());
    let other = [random.below(below).to_string().as_bytes(), &fields[i][end..]].concat();
    fields[i] = &other;
    fields.concat()
}

/// A line twice, a line less, or two lines exchanged.
fn other_lines(random: &mut Random, bytes: &[u8]) -> Vec<u8> {
    let mut lines: Vec<&[u8]> = bytes.split_inclusive(|b| *b == b'\n').collect();
    if lines.is_empty() {
        return vec![];
    }
    let [i, j] = [0, 1].map(|_| random.below(lines.len()));
    match random.below(3) {
        0 => lines.insert(j, lines[i]),
        1 => {
            lines.remove(i);
        }
        _ => lines.swap(i, j),
    }
    lines.concat()
}

/// A table with up to two of its numbers changed.
pub fn perhaps_damaged_table(random: &mut Random, mut numbers: [u16; TABLE]) -> [u16; TABLE] {
    for _ in 0..random.below(3) {
        let [nodes, automata, edges] = [0, 1, 2].map(|i| numbers[COUNTS_AT + i] as usize);
        let at = match random.below(5) {
            0 => random.below(3 * nodes + 3).min(AUTOMATA_AT - 1),
            1 => (AUTOMATA_AT + random.below(6 * automata + 6)).min(EDGES_AT - 1),
            2 => (EDGES_AT + random.below(4 * edges + 4)).min(COUNTS_AT - 1),
            3 => COUNTS_AT + random.below(3),
            _ => random.below(numbers.len()),
        };
        numbers[at] = match random.below(4) {
            0 => numbers[at].wrapping_add(1),
            1 => numbers[at].wrapping_sub(1),
            2 => random.below(NODES + 6) as u16,
            _ => random.next() as u16,
        };
    }
    numbers
}
