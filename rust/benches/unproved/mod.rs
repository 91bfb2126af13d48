//! Unproved versions of the library's jobs, written for speed, to compare the proved library with. All take the table's numbers and ask the same
//! questions as the library does, so that the same work is timed.
pub mod bitsets;
pub mod formulas;
pub mod given;
pub mod printing;
pub mod queue;
pub mod readers;
pub mod steps;
pub mod walks;

use std::mem::MaybeUninit;

/// As many nodes as a sheet may have.
pub const NODES: usize = 128;
/// Where a table has its automata, its edges and its counts, and how many numbers it is.
pub const AUTOMATA_AT: usize = 3 * NODES;
pub const EDGES_AT: usize = AUTOMATA_AT + 6 * 16;
pub const COUNTS_AT: usize = EDGES_AT + 4 * 256;
pub const TABLE: usize = COUNTS_AT + 3;
pub type Row = [u16; NODES];

/// The verdicts at an entry: nodes 0 to 63 in the first word, the others in the second.
pub type Words = [u64; 2];

/// The word and the bit of a node.
#[inline(always)]
pub fn place(node: usize) -> (usize, usize) {
    (node >> 6 & 1, node % 64)
}

/// A node's verdict.
#[inline(always)]
pub fn bit(words: &Words, node: usize) -> u64 {
    let (word, bit) = place(node);
    words[word] >> bit & 1
}

/// The words of so many entries in a lent buffer; none where it is too short.
#[inline(always)]
pub fn words_of(verdicts: &mut [u64], entries: usize) -> Option<&mut [Words]> {
    verdicts.as_chunks_mut().0.get_mut(..entries)
}

#[derive(Clone, Copy)]
pub struct Node {
    pub letter: u8,
    pub a: u8,
    pub b: u8,
}

#[derive(Clone, Copy)]
pub struct Automaton<'a> {
    pub states: usize,
    pub start: usize,
    pub accepting: u16,
    /// Four numbers each: from, direction, node tested, to.
    pub edges: &'a [u16],
}

pub fn node(t: &[u16; TABLE], k: usize) -> Node {
    Node { letter: t[3 * k] as u8, a: t[3 * k + 1] as u8, b: t[3 * k + 2] as u8 }
}

pub fn automaton(t: &[u16; TABLE], m: usize) -> Automaton<'_> {
    let x = &t[AUTOMATA_AT + 6 * m..][..6];
    let first = EDGES_AT + 4 * x[3] as usize;
    Automaton { states: x[0] as usize, start: x[1] as usize, accepting: x[2], edges: &t[first..first + 4 * x[4] as usize] }
}

/// A node that is no D or B, at every entry: one loop for each letter.
#[inline(always)]
pub fn plain_node(x: Node, k: usize, log: &[u32], words: &mut [Words]) {
    let (a, b, (word, k)) = (x.a as usize, x.b as usize, place(k));
    match x.letter {
        b'T' => words.iter_mut().for_each(|w| w[word] |= 1 << k),
        b'F' => (),
        b'P' => words.iter_mut().zip(log).for_each(|(w, facts)| w[word] |= ((facts >> (a & 31) & 1) as u64) << k),
        b'N' => words.iter_mut().for_each(|w| w[word] |= (bit(w, a) ^ 1) << k),
        b'A' => words.iter_mut().for_each(|w| w[word] |= (bit(w, a) & bit(w, b)) << k),
        _ => words.iter_mut().for_each(|w| w[word] |= (bit(w, a) | bit(w, b)) << k),
    }
}

/// The nodes that a line names, those that its automaton's edges test among them.
fn named(t: &[u16; TABLE], k: usize) -> u128 {
    let x = node(t, k);
    match x.letter {
        b'T' | b'F' | b'P' => 0,
        b'N' => 1 << x.a,
        b'A' | b'O' => 1 << x.a | 1 << x.b,
        _ => automaton(t, x.a as usize).edges.chunks_exact(4).fold(1 << x.b, |tested, e| tested | 1 << (e[2] & 127)),
    }
}

/// The nodes below node k that it stands on.
pub fn stands_on(t: &[u16; TABLE], k: usize) -> u128 {
    (0..k).rev().fold(named(t, k), |all, j| if all >> j & 1 == 1 { all | named(t, j) } else { all })
}

/// The nodes that are judged in a part, of a table that some sheet gives: the rule and those that it stands on; none where question 34 gets a no.
/// All edges of an automaton are looked at: an early exit would keep it at one edge a turn.
pub fn part_nodes(t: &[u16; TABLE], ahead: bool) -> Option<u128> {
    let wrong = if ahead { 2 } else { 1 };
    let rule = t[COUNTS_AT] as usize - 1;
    let nodes = 1 << rule | stands_on(t, rule);
    let lines = (0..=rule).filter(|k| nodes >> k & 1 == 1).map(|k| node(t, k));
    let automata = lines.filter(|x| [b'D', b'B'].contains(&x.letter)).fold(0u16, |all, x| all | 1 << x.a);
    let fits = |m: usize| automaton(t, m).edges.chunks_exact(4).fold(true, |fits, e| fits & (e[1] != wrong));
    (0..16).filter(|m| automata >> m & 1 == 1).all(fits).then_some(nodes)
}

/// Question 32 of a list of logs.
pub fn logs_fit(words: &[u32], lengths: &[u16]) -> bool {
    let all: usize = lengths.iter().map(|n| *n as usize).sum();
    lengths.len() < 65_536 && lengths.iter().fold(true, |fit, n| fit & (1..=512).contains(n)) && all == words.len()
}

/// Room that is not cleared.
#[inline(always)]
pub fn room<T, const N: usize>() -> [MaybeUninit<T>; N] {
    // an array of places without content has no content to be wrong; written as `[MaybeUninit::uninit(); N]` it would be cleared
    unsafe { MaybeUninit::<[MaybeUninit<T>; N]>::uninit().assume_init() }
}

/// Places that hold this.
#[inline(always)]
pub fn filled<T: Copy>(places: &mut [MaybeUninit<T>], with: T) -> &mut [T] {
    for place in places.iter_mut() {
        place.write(with);
    }
    // every place was written
    unsafe { &mut *(places as *mut [MaybeUninit<T>] as *mut [T]) }
}
