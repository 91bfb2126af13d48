//! The shortest walk with the lowest edges: only the nodes that the asked one stands on are judged; then breadth first backward over the edges that
//! enter a state until the start is met, and forward by the lowest edge that comes one nearer.
use super::bitsets::Judging;
use super::given::given;
use super::{automaton, filled, node, room, stands_on, AUTOMATA_AT, COUNTS_AT, NODES, TABLE};
use std::mem::MaybeUninit;

pub fn walk(t: &[u16; TABLE], log: &[u32], k: usize, i: usize, edges: &mut [u16]) -> Option<usize> {
    let n = log.len();
    if !given(t) || n == 0 || n > 512 || k >= t[COUNTS_AT] as usize || i >= n || ![b'D', b'B'].contains(&node(t, k).letter) {
        return None;
    }
    if n <= 64 {
        search::<1>(t, log, k, i, edges)
    } else {
        search::<8>(t, log, k, i, edges)
    }
}

/// Edges by a state: those of state s at `first[s]..first[s + 1]`, in their order.
struct Edges {
    first: [u16; 18],
    numbers: [MaybeUninit<u8>; 256],
}

impl Edges {
    /// By the state at place `place` of an edge: 0 leaves, 3 enters. Sorted by counting.
    fn by(edges: &[u16], place: usize) -> Edges {
        let mut by = Edges { first: [0; 18], numbers: room() };
        for e in edges.chunks_exact(4) {
            by.first[(e[place] & 15) as usize + 2] += 1;
        }
        for s in 0..16 {
            by.first[s + 2] += by.first[s + 1];
        }
        for (number, e) in edges.chunks_exact(4).enumerate() {
            let at = &mut by.first[(e[place] & 15) as usize + 1];
            by.numbers[*at as usize & 255].write(number as u8);
            *at += 1;
        }
        by
    }

    fn of(&self, s: usize) -> impl Iterator<Item = usize> + '_ {
        self.numbers[self.first[s] as usize..self.first[s + 1] as usize].iter().map(|x| unsafe { x.assume_init() } as usize)
    }
}

/// The entry beside j at which an edge of this direction arrives (`by` 1) or which it leaves (`by` -1); beyond the log where there is none.
#[inline(always)]
fn beside(j: usize, dir: u16, by: isize) -> usize {
    (j as isize + by * [0, 1, -1, 0][(dir & 3) as usize]) as usize
}

/// Distances to the goal, found breadth first.
struct Search<'a> {
    states: usize,
    distance: &'a mut [u16],
    queue: [MaybeUninit<(u16, u16)>; 8192],
    found: usize,
}

impl Search<'_> {
    #[inline(always)]
    fn find(&mut self, s: usize, j: usize, far: u16) {
        let at = j * self.states + s;
        if self.distance[at] == u16::MAX {
            self.distance[at] = far;
            self.queue[self.found & 8191].write((s as u16, j as u16));
            self.found += 1;
        }
    }
}

fn search<const B: usize>(t: &[u16; TABLE], log: &[u32], k: usize, i: usize, edges: &mut [u16]) -> Option<usize> {
    let (x, n) = (node(t, k), log.len());
    let mut judging = Judging::<B>::new(n);
    judging.nodes(t, log, stands_on(t, k), None);
    let holds = |node: u16, j: usize| judging.bitset(node as usize % NODES)[j / 64 % B] >> (j % 64) & 1 == 1;
    let m = automaton(t, x.a as usize);
    let edge = |number: usize| &m.edges[4 * number..4 * number + 4];

    let q = m.states;
    let mut places = room::<u16, 8192>();
    let mut search = Search { states: q, distance: filled(&mut places[..q * n], u16::MAX), queue: room(), found: 0 };
    for j in (0..n).filter(|j| holds(x.b as u16, *j) == (x.letter == b'D')) {
        (0..q).filter(|s| m.accepting >> s & 1 == 1).for_each(|s| search.find(s, j, 0));
    }
    let entering = Edges::by(m.edges, 3);
    let mut looked = 0;
    while looked < search.found && search.distance[i * q + m.start] == u16::MAX {
        let (u, j) = unsafe { search.queue[looked].assume_init() };
        looked += 1;
        let far = search.distance[j as usize * q + u as usize] + 1;
        for e in entering.of(u as usize).map(edge) {
            let p = beside(j as usize, e[1], -1);
            if p < n && holds(e[2], p) {
                search.find(e[0] as usize, p, far);
            }
        }
    }

    let long = search.distance[i * q + m.start];
    if long == u16::MAX || edges.len() < long as usize {
        return None;
    }
    let first = t[AUTOMATA_AT + 6 * x.a as usize + 3];
    let leaving = Edges::by(m.edges, 0);
    let (mut s, mut j) = (m.start, i);
    for (place, left) in (0..long).rev().enumerate() {
        let nearer = |number: &usize| {
            let e = edge(*number);
            let p = beside(j, e[1], 1);
            p < n && holds(e[2], j) && search.distance[p * q + e[3] as usize] == left
        };
        let number = leaving.of(s).find(nearer)?;
        edges[place] = first + number as u16;
        (s, j) = (edge(number)[3] as usize, beside(j, edge(number)[1], 1));
    }
    Some(long as usize)
}
