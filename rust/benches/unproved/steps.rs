//! Judging by step masks: a mask of states for each entry. For each automaton and each *kind* of entry (entries alike on the tested nodes) the edges
//! become once two matrices of 16 masks, test edges closed in beforehand; then marking an entry from those beside it is a matrix times a mask.
use super::given::given;
use super::{automaton, bit, filled, logs_fit, node, part_nodes, place, plain_node, room, words_of, Automaton, Row, Words, COUNTS_AT, NODES, TABLE};
use std::arch::x86_64::{_mm_and_si128, _mm_cmpeq_epi16, _mm_loadu_si128, _mm_movemask_epi8, _mm_packs_epi16, _mm_set1_epi16, _mm_setzero_si128};
use std::mem::MaybeUninit;

/// A row of states for each state.
type Matrix = [u16; 16];

/// What entries of one kind do: from which state an edge leads ahead or back to which states, after any tests; and the states from which tests lead
/// to an accepting one.
#[repr(C, align(32))]
#[derive(Clone, Copy)]
struct Kind {
    ahead: Matrix,
    back: Matrix,
    /// Which of the tested nodes hold.
    key: Words,
    goal: u16,
}

/// The states whose row meets the mask.
#[inline(always)]
fn pull(rows: &Matrix, mask: u16) -> u16 {
    unsafe {
        let (mask, zero) = (_mm_set1_epi16(mask as i16), _mm_setzero_si128());
        let [low, high] = [0, 1].map(|half| _mm_cmpeq_epi16(_mm_and_si128(_mm_loadu_si128(rows.as_ptr().add(8 * half).cast()), mask), zero));
        !(_mm_movemask_epi8(_mm_packs_epi16(low, high)) as u16)
    }
}

/// All ones where the bit is set.
#[inline(always)]
fn spread_bit(mask: u16, bit: usize) -> u16 {
    0u16.wrapping_sub(mask >> bit & 1)
}

/// Row s becomes the union of the rows of the states that `closed` has for s.
#[inline(always)]
fn compose(closed: &Matrix, rows: &Matrix, states: usize) -> Matrix {
    let mut out = [0; 16];
    for u in 0..states {
        for s in 0..16 {
            out[s] |= rows[u] & spread_bit(closed[s], u);
        }
    }
    out
}

/// Which states tests lead to from which, each from itself (Warshall).
#[inline(always)]
fn closed(mut stay: Matrix, states: usize) -> Matrix {
    for s in 0..16 {
        stay[s] |= 1 << s;
    }
    for u in 0..states {
        let row = stay[u];
        for s in 0..16 {
            stay[s] |= row & spread_bit(stay[s], u);
        }
    }
    stay
}

fn kind_of(m: &Automaton, looks: [bool; 3], key: Words) -> Kind {
    let mut rows = [[0; 16]; 4];
    for e in m.edges.chunks_exact(4) {
        rows[(e[1] & 3) as usize][(e[0] & 15) as usize] |= (bit(&key, e[2] as usize) as u16) << (e[3] & 15);
    }
    let [stay, mut ahead, mut back, _] = rows;
    let mut goal = m.accepting;
    if looks[0] {
        let stay = closed(stay, m.states);
        if looks[1] {
            ahead = compose(&stay, &ahead, m.states);
        }
        if looks[2] {
            back = compose(&stay, &back, m.states);
        }
        goal = pull(&stay, m.accepting);
    }
    Kind { ahead, back, key, goal }
}

/// What is known of one automaton on the log at hand: which directions its edges have, and each entry's kind.
struct Known {
    automaton: usize,
    looks: [bool; 3],
    kind: [MaybeUninit<u16>; 512],
    kinds: [MaybeUninit<Kind>; 512],
    count: usize,
}

impl Known {
    /// The kind of an entry of the log that was learnt.
    #[inline(always)]
    fn at(&self, i: usize) -> &Kind {
        unsafe { self.kinds.get_unchecked(self.kind.get_unchecked(i).assume_init() as usize).assume_init_ref() }
    }

    /// The key of a kind that is there.
    #[inline(always)]
    fn key(&self, kind: usize) -> Words {
        unsafe { self.kinds[kind & 511].assume_init_ref() }.key
    }

    fn add(&mut self, m: &Automaton, key: Words) -> usize {
        self.kinds[self.count].write(kind_of(m, self.looks, key));
        self.count += 1;
        self.count - 1
    }

    fn learn(&mut self, number: usize, m: &Automaton, words: &[Words]) {
        let (mut tested, mut directions) = ([0; 2], 0u32);
        for e in m.edges.chunks_exact(4) {
            let (word, at) = place(e[2] as usize);
            tested[word] |= 1 << at;
            directions |= 1 << (e[1] & 3);
        }
        self.automaton = number;
        self.looks = [0, 1, 2].map(|dir| directions >> dir & 1 == 1);
        self.count = 0;
        if words.len() <= 8 {
            self.find_kinds(m, words, tested);
        } else {
            self.hash_kinds(m, words, tested);
        }
    }

    /// Short logs: each key is looked for among those met.
    fn find_kinds(&mut self, m: &Automaton, words: &[Words], tested: Words) {
        for (i, w) in words.iter().enumerate() {
            let key = [w[0] & tested[0], w[1] & tested[1]];
            let kind = (0..self.count).find(|kind| self.key(*kind) == key).unwrap_or_else(|| self.add(m, key));
            self.kind[i].write(kind as u16);
        }
    }

    /// Keys met are in a table of at least twice as many places as there are entries, at the first free place from their hash on.
    fn hash_kinds(&mut self, m: &Automaton, words: &[Words], tested: Words) {
        const FREE: u16 = u16::MAX;
        let size = (2 * words.len()).next_power_of_two();
        let mut places = room::<u16, 1024>();
        let places = filled(&mut places[..size], FREE);
        for (i, w) in words.iter().enumerate() {
            let key = [w[0] & tested[0], w[1] & tested[1]];
            let mixed = (key[0] ^ key[1].rotate_left(32)).wrapping_mul(0x9e37_79b9_7f4a_7c15);
            let mut at = (mixed >> (64 - size.trailing_zeros())) as usize;
            while places[at] != FREE && self.key(places[at] as usize) != key {
                at = (at + 1) & (size - 1);
            }
            if places[at] == FREE {
                places[at] = self.add(m, key) as u16;
            }
            self.kind[i].write(places[at]);
        }
    }
}

pub fn judge(t: &[u16; TABLE], log: &[u32], verdicts: &mut [u64]) -> Option<usize> {
    if !given(t) || log.is_empty() || log.len() > 512 {
        return None;
    }
    Some(judge_given(t, log, words_of(verdicts, log.len())?, u128::MAX, None).0)
}

/// Many logs of one sheet: their words one after the other, and how many each has. The verdicts and the counts, where there is no refusal.
pub fn logs(t: &[u16; TABLE], words: &[u32], lengths: &[u16], verdicts: &mut [u64], held: &mut [u16]) -> Option<()> {
    if !given(t) || !logs_fit(words, lengths) || held.len() < lengths.len() {
        return None;
    }
    let verdicts = words_of(verdicts, words.len())?;
    let mut at = 0;
    for (n, held) in lengths.iter().zip(held) {
        let n = *n as usize;
        *held = judge_given(t, &words[at..at + n], &mut verdicts[at..at + n], u128::MAX, None).0 as u16;
        at += n;
    }
    Some(())
}

/// A part, given the row of the entry beside it; the row that it gives.
pub fn part(t: &[u16; TABLE], log: &[u32], verdicts: &mut [u64], row: &Row, ahead: bool) -> Option<Row> {
    if !given(t) {
        return None;
    }
    let wanted = part_nodes(t, ahead)?;
    if log.len() > 512 {
        return None;
    }
    Some(judge_given(t, log, words_of(verdicts, log.len())?, wanted, Some((row, ahead))).1)
}

/// The wanted nodes, with a table that was checked: the count held, and the row of a part.
fn judge_given(t: &[u16; TABLE], log: &[u32], words: &mut [Words], wanted: u128, row: Option<(&Row, bool)>) -> (usize, Row) {
    let mut known = Known { automaton: usize::MAX, looks: [false; 3], kind: room(), kinds: room(), count: 0 };
    let mut masks = room::<u16, 512>();
    let masks = filled(&mut masks[..log.len()], 0);
    let mut next = [0; NODES];
    let nodes = t[COUNTS_AT] as usize;
    words.fill([0; 2]);
    for k in (0..nodes).filter(|k| wanted >> k & 1 == 1) {
        let x = node(t, k);
        if x.letter != b'D' && x.letter != b'B' {
            plain_node(x, k, log, words);
            continue;
        }
        let m = automaton(t, x.a as usize);
        if known.automaton != x.a as usize {
            known.learn(x.a as usize, &m, words);
        }
        let some = x.letter == b'D';
        let all = ((1u32 << m.states) - 1) as u16;
        let exits = row.map_or(0, |(r, _)| if some { r[k] } else { !r[k] } & all);
        mark(&known, (x.b, some), exits, words, masks);
        let (word, at) = place(k);
        for (w, mask) in words.iter_mut().zip(masks.iter()) {
            w[word] |= ((*mask as u64 >> (m.start & 15) & 1) ^ !some as u64) << at;
        }
        if let Some((_, ahead)) = row {
            let end = if ahead { masks.first() } else { masks.last() }.map_or(exits, |mask| *mask);
            next[k] = if some { end } else { !end & all };
        }
    }
    (words.iter().map(|w| bit(w, nodes - 1) as usize).sum(), next)
}

/// The states from which a walk ends where the node is as wanted, or leaves the part into one of the exits.
#[inline]
fn mark(known: &Known, (node, some): (u8, bool), exits: u16, words: &[Words], masks: &mut [u16]) {
    let seed = |i: usize| known.at(i).goal & 0u16.wrapping_sub((bit(&words[i], node as usize) ^ !some as u64) as u16);
    match known.looks {
        [_, false, false] => (0..masks.len()).for_each(|i| masks[i] = seed(i)),
        [_, true, false] => {
            let mut mask = exits;
            for i in (0..masks.len()).rev() {
                mask = seed(i) | pull(&known.at(i).ahead, mask);
                masks[i] = mask;
            }
        }
        [_, false, true] => {
            let mut mask = exits;
            for i in 0..masks.len() {
                mask = seed(i) | pull(&known.at(i).back, mask);
                masks[i] = mask;
            }
        }
        _ => mark_both_ways(known, seed, masks),
    }
}

/// No exits: a part looks one way. First a sweep by the edges ahead; then a cursor takes what is new to the next entry by the edges back, and what is
/// new there at once to the entries before, as far as it goes.
fn mark_both_ways(known: &Known, seed: impl Fn(usize) -> u16, masks: &mut [u16]) {
    let n = masks.len();
    let mut places = room::<u16, 512>();
    // the states whose step to the next entry is due
    let due = filled(&mut places[..n], 0);
    let mut mask = 0;
    for i in (0..n).rev() {
        mask = seed(i) | pull(&known.at(i).ahead, mask);
        masks[i] = mask;
        due[i] = mask;
    }
    let mut i = 0;
    while i + 1 < n {
        let next = i + 1;
        let new = pull(&known.at(next).back, std::mem::take(&mut due[i])) & !masks[next];
        if new == 0 {
            i = next;
            continue;
        }
        masks[next] |= new;
        due[next] |= new;
        let mut down = new;
        i = next;
        while i > 0 {
            down = pull(&known.at(i - 1).ahead, down) & !masks[i - 1];
            if down == 0 {
                break;
            }
            i -= 1;
            masks[i] |= down;
            due[i] |= down;
        }
    }
}
