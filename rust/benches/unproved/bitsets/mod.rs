//! Judging by bitsets: a word says of 64 entries where a node holds, or where a state is marked. Marks spread from state to state, 64 entries or more at
//! a time, and only what is new spreads on. Many logs are judged as one long log in which no edge leads from one log to the next.
mod bits;
mod judging;
mod marking;

pub use judging::Judging;

use super::given::given;
use super::{bit, logs_fit, part_nodes, words_of, Row, Words, COUNTS_AT, NODES, TABLE};

pub fn judge(t: &[u16; TABLE], log: &[u32], verdicts: &mut [u64]) -> Option<usize> {
    if !given(t) || log.is_empty() || log.len() > 512 {
        return None;
    }
    let words = words_of(verdicts, log.len())?;
    Some(match log.len() {
        ..=64 => whole::<1>(t, log, words),
        ..=128 => whole::<2>(t, log, words),
        ..=256 => whole::<4>(t, log, words),
        _ => whole::<8>(t, log, words),
    })
}

fn whole<const B: usize>(t: &[u16; TABLE], log: &[u32], words: &mut [Words]) -> usize {
    let mut judging = Judging::<B>::new(log.len());
    judging.nodes(t, log, u128::MAX, None);
    let nodes = t[COUNTS_AT] as usize;
    judging.write(u128::MAX >> (NODES - nodes), words);
    judging.bitset(nodes - 1).iter().map(|c| c.count_ones() as usize).sum()
}

/// Many logs of one sheet: their words one after the other, and how many each has. The verdicts and the counts, where there is no refusal.
pub fn logs(t: &[u16; TABLE], words: &[u32], lengths: &[u16], verdicts: &mut [u64], held: &mut [u16]) -> Option<()> {
    if !given(t) || !logs_fit(words, lengths) || held.len() < lengths.len() {
        return None;
    }
    let verdicts = words_of(verdicts, words.len())?;
    let (mut first, mut at) = (0, 0);
    while first < lengths.len() {
        // as many logs as 512 entries take
        let (mut last, mut entries) = (first, 0);
        while last < lengths.len() && entries + lengths[last] as usize <= 512 {
            entries += lengths[last] as usize;
            last += 1;
        }
        joined(t, &words[at..at + entries], &lengths[first..last], &mut verdicts[at..at + entries], &mut held[first..last]);
        (first, at) = (last, at + entries);
    }
    Some(())
}

/// Logs of at most 512 entries in all.
fn joined(t: &[u16; TABLE], words: &[u32], lengths: &[u16], verdicts: &mut [Words], held: &mut [u16]) {
    let mut judging = Judging::<8>::new(words.len());
    let mut at = 0;
    for n in lengths {
        judging.goes[2][at / 64] &= !(1 << (at % 64));
        at += *n as usize;
        judging.goes[1][(at - 1) / 64] &= !(1 << ((at - 1) % 64));
    }
    judging.nodes(t, words, u128::MAX, None);
    let nodes = t[COUNTS_AT] as usize;
    judging.write(u128::MAX >> (NODES - nodes), verdicts);
    let mut left = &verdicts[..];
    for (n, held) in lengths.iter().zip(held) {
        let (log, rest) = left.split_at(*n as usize);
        *held = log.iter().map(|w| bit(w, nodes - 1) as u16).sum();
        left = rest;
    }
}

/// A part, given the row of the entry beside it; the row that it gives.
pub fn part(t: &[u16; TABLE], log: &[u32], verdicts: &mut [u64], row: &Row, ahead: bool) -> Option<Row> {
    if !given(t) {
        return None;
    }
    let wanted = part_nodes(t, ahead)?;
    if log.len() > 512 {
        return None;
    }
    let words = words_of(verdicts, log.len())?;
    Some(if log.len() <= 64 { one_part::<1>(t, log, words, wanted, (row, ahead)) } else { one_part::<8>(t, log, words, wanted, (row, ahead)) })
}

fn one_part<const B: usize>(t: &[u16; TABLE], log: &[u32], words: &mut [Words], wanted: u128, row: (&Row, bool)) -> Row {
    let mut judging = Judging::<B>::new(log.len());
    let next = judging.nodes(t, log, wanted, Some(row));
    judging.write(wanted, words);
    next
}
