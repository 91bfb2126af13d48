//! A log being judged, node by node: the bitsets of the nodes so far.
use super::bits::{fact, transpose, Bitset};
use super::marking::Marking;
use crate::unproved::{automaton, node, room, Automaton, Row, Words, COUNTS_AT, NODES, TABLE};
use std::mem::MaybeUninit;

/// A bitset for each node, and after them one for each group of edges that differ only in the node tested (at least two of the 256 edges each).
const BITSETS: usize = NODES + 128;

/// A log being judged.
pub struct Judging<const B: usize> {
    bitsets: [MaybeUninit<Bitset<B>>; BITSETS],
    pub(super) entries: usize,
    /// The entries that are there, and by direction those from which an edge does not leave its log.
    there: Bitset<B>,
    pub(super) goes: [Bitset<B>; 3],
    pub(super) edges: EdgeSets<B>,
}

/// An automaton's edges, made ready for the log at hand.
pub(super) struct EdgeSets<const B: usize> {
    automaton: usize,
    /// For state t at bit 16 d + s: whether an edge of direction d leads from state s to t; if so, the bitset of the entries where it can be taken.
    pub(super) into: [u64; 16],
    tests: [MaybeUninit<u8>; 16 * 48],
    /// The entries at which some edge leaves a state.
    pub(super) leaves: [Bitset<B>; 16],
}

impl<const B: usize> Judging<B> {
    #[inline(always)]
    pub fn new(entries: usize) -> Self {
        let there = std::array::from_fn(|w| match entries.saturating_sub(64 * w) {
            n @ 0..=63 => (1 << n) - 1,
            _ => u64::MAX,
        });
        Judging {
            bitsets: room(),
            entries,
            there,
            goes: [[u64::MAX; B]; 3],
            edges: EdgeSets { automaton: usize::MAX, into: [0; 16], tests: room(), leaves: [[0; B]; 16] },
        }
    }

    /// A bitset that was judged.
    #[inline(always)]
    pub fn bitset(&self, k: usize) -> &Bitset<B> {
        debug_assert!(k < BITSETS);
        unsafe { self.bitsets.get_unchecked(k).assume_init_ref() }
    }

    /// Judges the wanted nodes in order, each of which stands on wanted ones; with a row beside a part, gives the part's own.
    pub fn nodes(&mut self, t: &[u16; TABLE], log: &[u32], wanted: u128, row: Option<(&Row, bool)>) -> Row {
        let mut next = [0; NODES];
        for k in (0..t[COUNTS_AT] as usize).filter(|k| wanted >> k & 1 == 1) {
            let x = node(t, k);
            let (a, b) = (x.a as usize, x.b as usize);
            let bitset = match x.letter {
                b'T' => self.there,
                b'F' => [0; B],
                b'P' => fact(log, x.a),
                b'N' => std::array::from_fn(|w| self.there[w] & !self.bitset(a)[w]),
                b'A' => std::array::from_fn(|w| self.bitset(a)[w] & self.bitset(b)[w]),
                b'O' => std::array::from_fn(|w| self.bitset(a)[w] | self.bitset(b)[w]),
                letter => {
                    let m = automaton(t, a);
                    if self.edges.automaton != a {
                        self.learn(a, &m);
                    }
                    let (bitset, number) = self.modal(&m, letter == b'D', b, row.map(|(r, ahead)| (r[k], ahead)));
                    next[k] = number;
                    bitset
                }
            };
            self.bitsets[k].write(bitset);
        }
        next
    }

    /// Groups an automaton's edges by where they lead.
    fn learn(&mut self, number: usize, m: &Automaton) {
        self.edges.automaton = number;
        self.edges.into = [0; 16];
        self.edges.leaves = [[0; B]; 16];
        let mut groups = NODES;
        for e in m.edges.chunks_exact(4) {
            let (from, dir, test, to) = (e[0] as usize & 15, e[1] as usize % 3, e[2] as usize % NODES, e[3] as usize & 15);
            for w in 0..B {
                self.edges.leaves[from][w] |= self.bitset(test)[w];
            }
            let at = 16 * dir + from;
            if self.edges.into[to] >> at & 1 == 0 {
                self.edges.into[to] |= 1 << at;
                self.edges.tests[48 * to + at].write(test as u8);
                continue;
            }
            let old = self.edges.test(to, at);
            let either = std::array::from_fn(|w| self.bitset(old)[w] | self.bitset(test)[w]);
            if old >= NODES {
                self.bitsets[old].write(either);
            } else if old != test {
                self.bitsets[groups].write(either);
                self.edges.tests[48 * to + at].write(groups as u8);
                groups += 1;
            }
        }
    }

    /// A D or B node: its bitset, and with a number of the row beside a part its number in the part's own row.
    fn modal(&self, m: &Automaton, some: bool, goal: usize, row: Option<(u16, bool)>) -> (Bitset<B>, u16) {
        let turned = |c: &Bitset<B>| if some { *c } else { std::array::from_fn(|w| self.there[w] & !c[w]) };
        let goal = turned(self.bitset(goal));
        let all = ((1u32 << m.states) - 1) as u16;
        let mut marking = Marking::new(self, m, &goal, if row.is_some() { all } else { 1 << m.start });
        let mut number = 0;
        let exits = row.map_or(0, |(bits, _)| if some { bits } else { !bits } & all);
        if let Some((_, ahead)) = row {
            marking.exits(m, exits, ahead);
        }
        marking.spread();
        if let Some((_, ahead)) = row {
            let end = match self.entries {
                0 => exits,
                n => marking.states_at(m.states, if ahead { 0 } else { n - 1 }),
            };
            number = if some { end } else { !end & all };
        }
        (turned(&marking.marks[m.start]), number)
    }

    /// The words of each entry, of nodes that were judged.
    pub(super) fn write(&self, nodes: u128, words: &mut [Words]) {
        self.write_word(0, nodes as u64, words);
        self.write_word(1, (nodes >> 64) as u64, words);
    }

    /// One of the words of each entry: bit k for its node k.
    #[inline(always)]
    fn write_word(&self, word: usize, nodes: u64, words: &mut [Words]) {
        let is_one = |k: &usize| nodes >> k & 1 == 1;
        if words.len() * nodes.count_ones() as usize <= 512 {
            words.iter_mut().for_each(|w| w[word] = 0);
            for k in (0..64 - nodes.leading_zeros() as usize).filter(is_one) {
                let bitset = self.bitset(64 * word + k);
                for (i, w) in words.iter_mut().enumerate() {
                    w[word] |= (bitset[i / 64] >> (i % 64) & 1) << k;
                }
            }
            return;
        }
        for (b, words) in words.chunks_mut(64).enumerate() {
            let mut square = std::array::from_fn(|k| if is_one(&k) { self.bitset(64 * word + k)[b] } else { 0 });
            transpose(&mut square);
            words.iter_mut().zip(&square).for_each(|(w, column)| w[word] = *column);
        }
    }
}

impl<const B: usize> EdgeSets<B> {
    /// The bitset of an edge into state t that is there.
    #[inline(always)]
    pub(super) fn test(&self, t: usize, at: usize) -> usize {
        unsafe { self.tests[48 * t + at].assume_init() as usize }
    }

    /// The states from which an edge of each direction leads to state t.
    #[inline(always)]
    pub(super) fn sources(&self, t: usize) -> [u16; 3] {
        [0, 16, 32].map(|at| (self.into[t] >> at) as u16)
    }
}
