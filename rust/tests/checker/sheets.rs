//! Questions 1 to 6, 71 to 76 and 8 to 11; and question 31: a table is one that some sheet gives if its own lines, written out, read to it again.
use super::{lines, number};
use std::ops::Range;

/// A refusal of a sheet: number, line, and for 71 to 76 the field, the letter being field 1; else 0.
pub type No = (u8, u32, u8);

/// As many nodes as a sheet may have.
pub const NODES: usize = 128;
/// Where a table has its automata, its edges and its counts, and how many numbers it is.
pub const AUTOMATA_AT: usize = 384;
pub const EDGES_AT: usize = 480;
pub const COUNTS_AT: usize = 1504;
pub const TABLE: usize = 1507;

/// What a number on a line is, and which question is about it.
#[derive(Clone, Copy)]
enum Kind {
    Fact = 71,
    Node = 72,
    Automaton = 73,
    State = 74,
    Direction = 75,
    States = 76,
}

/// What the numbers behind a letter of the table are, from the left.
fn kinds(letter: &[u8]) -> Option<&'static [Kind]> {
    use Kind::*;
    Some(match letter {
        b"T" | b"F" => &[],
        b"P" => &[Fact],
        b"N" => &[Node],
        b"A" | b"O" => &[Node, Node],
        b"D" | b"B" => &[Automaton, Node],
        b"M" => &[States, State],
        b"G" => &[State],
        b"E" => &[State, Direction, Node, State],
        _ => return None,
    })
}

#[derive(Clone, Copy, Debug, PartialEq, Eq)]
pub enum Line {
    True,
    False,
    Fact(usize),
    Not(usize),
    And(usize, usize),
    Or(usize, usize),
    Some(usize, usize),
    Every(usize, usize),
}

#[derive(Clone, Copy, Debug, PartialEq, Eq)]
pub struct Edge {
    pub from: usize,
    pub dir: usize,
    pub test: usize,
    pub to: usize,
}

#[derive(Clone, Debug, PartialEq, Eq)]
pub struct Automaton {
    pub states: usize,
    pub start: usize,
    pub accepting: Vec<usize>,
    pub edges: Vec<usize>,
    pub line: u32,
    pub nodes_above: usize,
}

#[derive(Clone, Debug, Default, PartialEq, Eq)]
pub struct Sheet {
    pub nodes: Vec<Line>,
    pub automata: Vec<Automaton>,
    pub edges: Vec<Edge>,
}

pub fn read(text: &[u8]) -> Result<Sheet, No> {
    if text.len() > 49_152 {
        return Err((1, 0, 0));
    }
    if text.last() != Some(&b'\n') {
        return Err((2, 0, 0));
    }
    let mut sheet = Sheet::default();
    let mut previous = b' ';
    let mut place = 0;
    for line in lines(text) {
        place += 1;
        let fields: Vec<&[u8]> = line.split(|b| *b == b',').collect();
        let letter = sheet.add(&fields, previous, place).map_err(|(q, field)| (q, place, field))?;
        previous = letter;
    }
    for m in &sheet.automata {
        let stands = |s: usize| m.edges.iter().any(|e| sheet.edges[*e].from == s || sheet.edges[*e].to == s);
        if !(0..m.states).all(stands) {
            return Err((10, m.line, 0));
        }
    }
    if b"MGE".contains(&previous) {
        return Err((11, place, 0));
    }
    Ok(sheet)
}

impl Sheet {
    /// One line more: its letter, or the number of the first question that gets a no, with the field where that is about one.
    fn add(&mut self, fields: &[&[u8]], previous: u8, place: u32) -> Result<u8, (u8, u8)> {
        let kinds = kinds(fields[0]).filter(|kinds| fields.len() == 1 + kinds.len()).ok_or((3, 0))?;
        let letter = fields[0][0];
        let n: Vec<usize> = fields[1..].iter().map(|f| number(f).map(|v| v as usize)).collect::<Option<_>>().ok_or((4, 0))?;
        let room = match letter {
            b'M' => self.automata.len() < 16,
            b'E' => self.edges.len() < 256,
            b'G' => true,
            _ => self.nodes.len() < NODES,
        };
        if !room {
            return Err((5, 0));
        }
        if b"GE".contains(&letter) && !b"MGE".contains(&previous) {
            return Err((6, 0));
        }
        // an M line's start is a state of its own automaton
        let states = if letter == b'M' { n[0] } else { self.automata.last().map_or(0, |m| m.states) };
        let is_wrong = |i: &usize| !self.range(kinds[*i], states).contains(&n[*i]);
        if let Some(i) = (0..n.len()).find(is_wrong) {
            return Err((kinds[i] as u8, i as u8 + 2));
        }
        if letter == b'G' && self.automata.last().unwrap().accepting.contains(&n[0]) {
            return Err((8, 0));
        }
        if letter == b'E' && n[1] > 0 && self.modal(n[2]) {
            return Err((9, 0));
        }
        self.take(letter, &n, place);
        Ok(letter)
    }

    /// The numbers of a kind that the next line may have, where its automaton has so many states.
    fn range(&self, kind: Kind, states: usize) -> Range<usize> {
        match kind {
            Kind::Fact => 0..32,
            Kind::Node => 0..self.nodes.len(),
            Kind::Automaton => 0..self.automata.len(),
            Kind::State => 0..states,
            Kind::Direction => 0..3,
            Kind::States => 1..17,
        }
    }

    /// Whether node k is a D or B, or built on one.
    pub fn modal(&self, k: usize) -> bool {
        match self.nodes[k] {
            Line::True | Line::False | Line::Fact(_) => false,
            Line::Not(a) => self.modal(a),
            Line::And(a, b) | Line::Or(a, b) => self.modal(a) || self.modal(b),
            Line::Some(..) | Line::Every(..) => true,
        }
    }

    fn take(&mut self, letter: u8, n: &[usize], place: u32) {
        let node = match letter {
            b'T' => Line::True,
            b'F' => Line::False,
            b'P' => Line::Fact(n[0]),
            b'N' => Line::Not(n[0]),
            b'A' => Line::And(n[0], n[1]),
            b'O' => Line::Or(n[0], n[1]),
            b'D' => Line::Some(n[0], n[1]),
            b'B' => Line::Every(n[0], n[1]),
            b'M' => {
                let nodes_above = self.nodes.len();
                self.automata.push(Automaton { states: n[0], start: n[1], accepting: vec![], edges: vec![], line: place, nodes_above });
                return;
            }
            b'G' => return self.automata.last_mut().unwrap().accepting.push(n[0]),
            _ => {
                self.automata.last_mut().unwrap().edges.push(self.edges.len());
                return self.edges.push(Edge { from: n[0], dir: n[1], test: n[2], to: n[3] });
            }
        };
        self.nodes.push(node);
    }

    /// The table's numbers: 128 node lines of letter and two operands, 16 automata of states, start, accepting states as bits, first edge, edges and
    /// nodes above, 256 edges of four numbers, and how many nodes, automata and edges there are.
    pub fn numbers(&self) -> [u16; TABLE] {
        let mut t = [0u16; TABLE];
        for (k, line) in self.nodes.iter().enumerate() {
            let (letter, a, b) = match *line {
                Line::True => (b'T', 0, 0),
                Line::False => (b'F', 0, 0),
                Line::Fact(f) => (b'P', f, 0),
                Line::Not(a) => (b'N', a, 0),
                Line::And(a, b) => (b'A', a, b),
                Line::Or(a, b) => (b'O', a, b),
                Line::Some(m, a) => (b'D', m, a),
                Line::Every(m, a) => (b'B', m, a),
            };
            t[3 * k..3 * k + 3].copy_from_slice(&[letter as u16, a as u16, b as u16]);
        }
        let mut first = 0;
        for (m, x) in self.automata.iter().enumerate() {
            let bits: u32 = x.accepting.iter().map(|s| 1 << s).sum();
            let six = [x.states, x.start, bits as usize, first, x.edges.len(), x.nodes_above].map(|v| v as u16);
            t[AUTOMATA_AT + 6 * m..][..6].copy_from_slice(&six);
            first += x.edges.len();
        }
        for (e, x) in self.edges.iter().enumerate() {
            t[EDGES_AT + 4 * e..][..4].copy_from_slice(&[x.from, x.dir, x.test, x.to].map(|v| v as u16));
        }
        t[COUNTS_AT..].copy_from_slice(&[self.nodes.len(), self.automata.len(), self.edges.len()].map(|v| v as u16));
        t
    }

    /// Whether an edge of automaton m has this direction.
    pub fn goes(&self, m: usize, dir: usize) -> bool {
        self.automata[m].edges.iter().any(|e| self.edges[*e].dir == dir)
    }
}

/// Question 31: the sheet that gives these numbers, if one does.
pub fn given(t: &[u16; TABLE]) -> Option<Sheet> {
    let text = written(t)?;
    let sheet = read(text.as_bytes()).ok()?;
    (sheet.numbers() == *t).then_some(sheet)
}

/// The lines that a table's numbers would come from, as far as they can be written.
fn written(t: &[u16; TABLE]) -> Option<String> {
    let [nodes, automata, edges] = [0, 1, 2].map(|i| t[COUNTS_AT + i] as usize);
    if nodes > NODES || automata > 16 || edges > 256 {
        return None;
    }
    let mut text = String::new();
    let mut next = 0;
    for k in 0..=nodes {
        while next < automata && t[AUTOMATA_AT + 6 * next + 5] as usize == k {
            text += &automaton(t, next)?;
            next += 1;
        }
        if k == nodes {
            break;
        }
        let [letter, a, b] = [t[3 * k], t[3 * k + 1], t[3 * k + 2]];
        text += &match u8::try_from(letter).ok()? {
            c @ (b'T' | b'F') => format!("{}\n", c as char),
            c @ (b'P' | b'N') => format!("{},{a}\n", c as char),
            c @ (b'A' | b'O' | b'D' | b'B') => format!("{},{a},{b}\n", c as char),
            _ => return None,
        };
    }
    Some(text)
}

fn automaton(t: &[u16; TABLE], m: usize) -> Option<String> {
    let x = &t[AUTOMATA_AT + 6 * m..][..6];
    let mut text = format!("M,{},{}\n", x[0], x[1]);
    for s in (0..16).filter(|s| x[2] >> s & 1 == 1) {
        text += &format!("G,{s}\n");
    }
    for e in x[3] as usize..x[3] as usize + x[4] as usize {
        let e = t.get(EDGES_AT + 4 * e..EDGES_AT + 4 * e + 4).filter(|_| e < 256)?;
        text += &format!("E,{},{},{},{}\n", e[0], e[1], e[2], e[3]);
    }
    Some(text)
}
