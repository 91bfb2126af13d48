//! What a verdict means, rows, and walks.
use super::sheets::{Line, Sheet, NODES};
use std::collections::BTreeMap;

/// A row: bit s of number k.
pub type Row = [u16; NODES];

/// A log or a part being judged: `holds[k][i]` for the nodes so far, the row beside it and which way it lies.
pub struct Judged<'a> {
    pub sheet: &'a Sheet,
    pub log: &'a [u32],
    pub holds: Vec<Vec<bool>>,
    row: Row,
}

/// The row beside a whole log: all bits of a B set, all of a D clear, whether the rule stands on them or not.
pub fn plain(sheet: &Sheet) -> Row {
    let mut row = [0; NODES];
    for (k, line) in sheet.nodes.iter().enumerate() {
        if let Line::Every(m, _) = line {
            row[k] = mask(sheet.automata[*m].states);
        }
    }
    row
}

/// A bit for each of so many states.
pub fn mask(states: usize) -> u16 {
    ((1u32 << states) - 1) as u16
}

/// An entry's words, from its verdicts in the order of the nodes: they are the digits of one number, whose lower 64 make the first word.
pub fn two_words(verdicts: impl Iterator<Item = bool>) -> [u64; 2] {
    let number: u128 = verdicts.enumerate().map(|(k, holds)| u128::from(holds) << k).sum();
    [number as u64, (number >> 64) as u64]
}

impl<'a> Judged<'a> {
    /// Judges all nodes in order, given the row of the entry just outside.
    pub fn new(sheet: &'a Sheet, log: &'a [u32], row: Row) -> Judged<'a> {
        let mut judged = Judged { sheet, log, holds: vec![], row };
        for k in 0..sheet.nodes.len() {
            let column = (0..log.len()).map(|i| judged.says(k, i)).collect();
            judged.holds.push(column);
        }
        judged
    }

    fn says(&self, k: usize, i: usize) -> bool {
        match self.sheet.nodes[k] {
            Line::True => true,
            Line::False => false,
            Line::Fact(f) => self.log[i] >> f & 1 == 1,
            Line::Not(a) => !self.holds[a][i],
            Line::And(a, b) => self.holds[a][i] && self.holds[b][i],
            Line::Or(a, b) => self.holds[a][i] || self.holds[b][i],
            Line::Some(m, _) | Line::Every(m, _) => self.started(k, self.sheet.automata[m].start, i),
        }
    }

    /// A D or B node k, started at state s, at entry i.
    fn started(&self, k: usize, s: usize, i: usize) -> bool {
        let (m, a, every) = match self.sheet.nodes[k] {
            Line::Some(m, a) => (m, a, false),
            Line::Every(m, a) => (m, a, true),
            _ => unreachable!(),
        };
        let (inside, outside) = self.reachable(m, s, i);
        let accepting = &self.sheet.automata[m].accepting;
        let mut ends = inside.iter().filter(|(u, _)| accepting.contains(u)).map(|(_, j)| self.holds[a][*j]);
        let mut exits = outside.iter().map(|u| self.row[k] >> u & 1 == 1);
        if every {
            ends.all(|h| h) && exits.all(|h| h)
        } else {
            ends.any(|h| h) || exits.any(|h| h)
        }
    }

    /// The configurations that walks from (s, i) come to, and the states by which they leave: closed by repetition, each time from what the last
    /// one added.
    fn reachable(&self, m: usize, s: usize, i: usize) -> (Vec<(usize, usize)>, Vec<usize>) {
        let mut met = vec![[false; 16]; self.log.len()];
        met[i][s] = true;
        let mut inside = vec![(s, i)];
        let mut outside = vec![];
        let mut done = 0;
        while done < inside.len() {
            let fresh = inside[done..].to_vec();
            done = inside.len();
            for (u, j) in fresh {
                for (_, to) in self.steps(m, u, j) {
                    match to {
                        (v, Some(l)) if !met[l][v] => {
                            met[l][v] = true;
                            inside.push((v, l));
                        }
                        (v, None) if !outside.contains(&v) => outside.push(v),
                        _ => (),
                    }
                }
            }
        }
        (inside, outside)
    }

    /// The edges that can be taken at (u, j), lowest first, and where they lead: a state, and an entry or outside.
    fn steps(&self, m: usize, u: usize, j: usize) -> Vec<(usize, (usize, Option<usize>))> {
        let mut all = vec![];
        for &e in &self.sheet.automata[m].edges {
            let edge = self.sheet.edges[e];
            if edge.from == u && self.holds[edge.test][j] {
                let entry = match edge.dir {
                    0 => Some(j),
                    1 => Some(j + 1).filter(|l| *l < self.log.len()),
                    _ => j.checked_sub(1),
                };
                all.push((e, (edge.to, entry)));
            }
        }
        all
    }

    /// Two words for each entry.
    pub fn words(&self) -> Vec<u64> {
        self.words_of(|_| true)
    }

    /// The same with 0 for the nodes that are not wanted.
    pub fn words_of(&self, is_wanted: impl Fn(usize) -> bool) -> Vec<u64> {
        let wanted: Vec<bool> = (0..self.holds.len()).map(is_wanted).collect();
        let words_at = |i: usize| two_words(self.holds.iter().zip(&wanted).map(|(column, wanted)| column[i] && *wanted));
        (0..self.log.len()).flat_map(words_at).collect()
    }

    /// How many entries the last node holds at.
    pub fn held(&self) -> usize {
        self.holds.last().unwrap().iter().filter(|h| **h).count()
    }

    /// The row that the part gives, for all nodes.
    pub fn next_row(&self, ahead: bool) -> Row {
        let mut row = [0; NODES];
        for (k, line) in self.sheet.nodes.iter().enumerate() {
            if let Line::Some(m, _) | Line::Every(m, _) = *line {
                let states = self.sheet.automata[m].states;
                row[k] = if self.log.is_empty() {
                    self.row[k] & mask(states)
                } else {
                    let i = if ahead { 0 } else { self.log.len() - 1 };
                    (0..states).map(|s| (self.started(k, s, i) as u16) << s).sum()
                };
            }
        }
        row
    }

    /// The walk that shows node k at entry i: walks are enumerated by length, and of those that come to one configuration only the first is kept.
    pub fn walk(&self, k: usize, i: usize) -> Option<Vec<u16>> {
        let (m, a, wanted) = match self.sheet.nodes[k] {
            Line::Some(m, a) => (m, a, true),
            Line::Every(m, a) => (m, a, false),
            _ => unreachable!(),
        };
        let x = &self.sheet.automata[m];
        let is_goal = |u: &usize, j: &usize| x.accepting.contains(u) && self.holds[a][*j] == wanted;
        if !self.reachable(m, x.start, i).0.iter().any(|(u, j)| is_goal(u, j)) {
            return None;
        }
        let mut layer = BTreeMap::from([((x.start, i), vec![])]);
        loop {
            let goals = layer.iter().filter(|((u, j), _)| is_goal(u, j));
            if let Some(walk) = goals.map(|(_, walk)| walk).min() {
                return Some(walk.clone());
            }
            let mut next: BTreeMap<(usize, usize), Vec<u16>> = BTreeMap::new();
            for ((u, j), walk) in &layer {
                for (e, (v, entry)) in self.steps(m, *u, *j) {
                    let Some(l) = entry else { continue };
                    let longer = [&walk[..], &[e as u16]].concat();
                    let kept = next.entry((v, l)).or_insert_with(|| longer.clone());
                    if longer < *kept {
                        *kept = longer;
                    }
                }
            }
            layer = next;
        }
    }
}
