//! Marks spread backward along the edges, from the goals of one node.
use super::bits::{bits, fill_down, fill_up, Bitset};
use super::judging::Judging;
use crate::unproved::Automaton;

/// The marks of one node: by state, the entries from which a goal is reached.
pub struct Marking<'a, const B: usize> {
    judging: &'a Judging<B>,
    pub marks: [Bitset<B>; 16],
    /// Marks that have not spread yet, the states that have some, and for each of them the blocks that may have some.
    fresh: [Bitset<B>; 16],
    due: u16,
    blocks: [u8; 16],
    /// A state's marks are among these; the states that have them all; the states that are asked for.
    most: [Bitset<B>; 16],
    full: u16,
    wanted: u16,
}

impl<'a, const B: usize> Marking<'a, B> {
    /// The accepting states marked where the goal is.
    #[inline(always)]
    pub fn new(judging: &'a Judging<B>, m: &Automaton, goal: &Bitset<B>, wanted: u16) -> Self {
        let mut x = Marking { judging, marks: [[0; B]; 16], fresh: [[0; B]; 16], due: 0, blocks: [0; 16], most: [[0; B]; 16], full: 0, wanted };
        let any = goal.iter().fold(0, |a, b| a | b) != 0;
        x.due = if any { m.accepting } else { 0 };
        for s in 0..m.states {
            let accepts = 0u64.wrapping_sub((m.accepting >> s & 1) as u64);
            let mut lacks = 0;
            for w in 0..B {
                let seed = goal[w] & accepts;
                x.marks[s][w] = seed;
                x.fresh[s][w] = seed;
                x.most[s][w] = judging.edges.leaves[s][w] | seed;
                lacks |= x.most[s][w] ^ seed;
            }
            x.blocks[s] = accepts as u8;
            x.full |= ((lacks == 0) as u16) << s;
        }
        x
    }

    /// Marks what leaves the part into one of these states.
    pub fn exits(&mut self, m: &Automaton, exits: u16, ahead: bool) {
        let Some(last) = self.judging.entries.checked_sub(1) else { return };
        let (at, dir) = if ahead { (last, 1) } else { (0, 2) };
        for e in m.edges.chunks_exact(4).filter(|e| e[1] == dir && exits >> e[3] & 1 == 1) {
            let new = self.judging.bitset(e[2] as usize)[at / 64] & 1 << (at % 64);
            self.put(e[0] as usize, at / 64, new);
        }
    }

    /// Marks state s at these entries of one block.
    #[inline(always)]
    fn put(&mut self, s: usize, w: usize, entries: u64) {
        let new = entries & !self.marks[s][w];
        self.marks[s][w] |= new;
        self.fresh[s][w] |= new;
        self.due |= ((new != 0) as u16) << s;
        if B > 1 {
            self.blocks[s] |= ((new != 0) as u8) << w;
        }
    }

    pub fn states_at(&self, states: usize, i: usize) -> u16 {
        (0..states).map(|s| ((self.marks[s][i / 64] >> (i % 64) & 1) as u16) << s).sum()
    }

    /// Until nothing is fresh, or what is asked for can get no more.
    pub fn spread(&mut self) {
        while self.due != 0 && self.wanted & !self.full != 0 {
            let t = self.due.trailing_zeros() as usize & 15;
            self.due &= self.due - 1;
            let mut blocks = std::mem::take(&mut self.blocks[t]);
            if B > 1 && blocks == u8::MAX {
                blocks = (0..B).map(|w| ((self.fresh[t][w] != 0) as u8) << w).sum();
            }
            if B == 1 || blocks.is_power_of_two() {
                self.spread_block(t, blocks.trailing_zeros() as usize % B);
            } else {
                self.spread_bitset(t);
            }
        }
    }

    /// What is fresh of state t in one block; nothing is fresh in its other blocks.
    #[inline(always)]
    fn spread_block(&mut self, t: usize, w: usize) {
        let judging = self.judging;
        let edges = &judging.edges;
        let mut d = std::mem::take(&mut self.fresh[t][w]);
        if d.is_power_of_two() && edges.into[t].is_power_of_two() {
            return self.follow(t, 64 * w + d.trailing_zeros() as usize);
        }
        let [stay, ahead, back] = edges.sources(t);
        // edges from t to itself are followed at once as far as they go
        if ahead >> t & 1 == 1 {
            d |= fill_down(d, judging.bitset(edges.test(t, 16 + t))[w] & judging.goes[1][w]);
        }
        if back >> t & 1 == 1 {
            d |= fill_up(d, judging.bitset(edges.test(t, 32 + t))[w] & judging.goes[2][w]);
        }
        self.marks[t][w] |= d;
        for s in bits(stay & !self.full) {
            self.put(s, w, d & judging.bitset(edges.test(t, s))[w]);
        }
        for s in bits(ahead & !self.full) {
            let bitset = judging.bitset(edges.test(t, 16 + s));
            self.put(s, w, d >> 1 & judging.goes[1][w] & bitset[w]);
            if w > 0 && d & 1 == 1 {
                self.put(s, w - 1, d << 63 & judging.goes[1][w - 1] & bitset[w - 1]);
            }
        }
        for s in bits(back & !self.full) {
            let bitset = judging.bitset(edges.test(t, 32 + s));
            self.put(s, w, d << 1 & judging.goes[2][w] & bitset[w]);
            if w + 1 < B && d >> 63 == 1 {
                self.put(s, w + 1, d >> 63 & judging.goes[2][w + 1] & bitset[w + 1]);
            }
        }
        if B == 1 {
            for s in bits((stay | ahead | back | 1 << t) & !self.full) {
                self.full |= ((self.marks[s] == self.most[s]) as u16) << s;
            }
        } else if self.marks[t][w] == self.most[t][w] {
            self.full |= ((self.marks[t] == self.most[t]) as u16) << t;
        }
    }

    /// One configuration, as long as one edge alone leads to it.
    fn follow(&mut self, mut t: usize, mut j: usize) {
        let judging = self.judging;
        let edges = &judging.edges;
        while edges.into[t].is_power_of_two() {
            let at = edges.into[t].trailing_zeros() as usize;
            // 0 stays, 1 comes from the entry before, 2 from the one after
            j = (j as isize + [0, -1, 1, 0][at / 16]) as usize;
            if j >= judging.entries {
                return;
            }
            let (s, w) = (at % 16, j / 64 % B);
            let here = judging.bitset(edges.test(t, at))[w] & judging.goes[at / 16 % 3][w] & !self.marks[s][w] & 1 << (j % 64);
            if here == 0 {
                return;
            }
            self.marks[s][w] |= here;
            t = s;
        }
        self.marks[t][j / 64 % B] &= !(1 << (j % 64));
        self.put(t, j / 64 % B, 1 << (j % 64));
    }

    /// What is fresh of state t, in all blocks at once.
    fn spread_bitset(&mut self, t: usize) {
        let judging = self.judging;
        let edges = &judging.edges;
        let mut d = std::mem::replace(&mut self.fresh[t], [0; B]);
        let sources = edges.sources(t);
        if sources[1] >> t & 1 == 1 {
            let bitset = judging.bitset(edges.test(t, 16 + t));
            let mut carry = 0;
            for w in (0..B).rev() {
                let way = bitset[w] & judging.goes[1][w];
                d[w] |= fill_down(d[w] | carry & way, way);
                carry = d[w] << 63;
            }
        }
        if sources[2] >> t & 1 == 1 {
            let bitset = judging.bitset(edges.test(t, 32 + t));
            let mut carry = 0;
            for w in 0..B {
                let way = bitset[w] & judging.goes[2][w];
                d[w] |= fill_up(d[w] | carry & way, way);
                carry = d[w] >> 63;
            }
        }
        for w in 0..B {
            self.marks[t][w] |= d[w];
        }
        let next = |w: usize| if w + 1 < B { d[w + 1] } else { 0 };
        let before = |w: usize| if w > 0 { d[w - 1] } else { 0 };
        let moved: [Bitset<B>; 3] = [
            d,
            std::array::from_fn(|w| (d[w] >> 1 | next(w) << 63) & judging.goes[1][w]),
            std::array::from_fn(|w| (d[w] << 1 | before(w) >> 63) & judging.goes[2][w]),
        ];
        for dir in 0..3 {
            for s in bits(sources[dir] & !self.full) {
                self.put_bitset(s, &moved[dir], judging.bitset(edges.test(t, 16 * dir + s)));
            }
        }
        self.full |= ((self.marks[t] == self.most[t]) as u16) << t;
    }

    #[inline(always)]
    fn put_bitset(&mut self, s: usize, moved: &Bitset<B>, bitset: &Bitset<B>) {
        let (mut any, mut lacks) = (0, 0);
        for w in 0..B {
            let new = moved[w] & bitset[w] & !self.marks[s][w];
            self.marks[s][w] |= new;
            self.fresh[s][w] |= new;
            any |= new;
            lacks |= self.marks[s][w] ^ self.most[s][w];
        }
        self.due |= ((any != 0) as u16) << s;
        if any != 0 {
            self.blocks[s] = u8::MAX;
        }
        self.full |= ((lacks == 0) as u16) << s;
    }
}
