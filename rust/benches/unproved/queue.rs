//! Judging by a queue of configurations: from the goals backward along the edges.
use super::given::given;
use super::{automaton, bit, node, place, plain_node, words_of, Automaton, Words, COUNTS_AT, TABLE};

pub fn judge(t: &[u16; TABLE], log: &[u32], verdicts: &mut [u64]) -> Option<usize> {
    if !given(t) || log.is_empty() || log.len() > 512 {
        return None;
    }
    let words = words_of(verdicts, log.len())?;
    let mut marks = vec![0u16; log.len()];
    let mut queue = Vec::with_capacity(16 * log.len());
    words.fill([0; 2]);
    let nodes = t[COUNTS_AT] as usize;
    for k in 0..nodes {
        let x = node(t, k);
        if x.letter != b'D' && x.letter != b'B' {
            plain_node(x, k, log, words);
            continue;
        }
        let m = automaton(t, x.a as usize);
        let some = x.letter == b'D';
        seed(&m, (x.b, some), words, &mut marks, &mut queue);
        spread(&m, words, &mut marks, &mut queue);
        let (word, k) = place(k);
        for (w, mark) in words.iter_mut().zip(&marks) {
            w[word] |= (((mark >> m.start & 1 == 1) == some) as u64) << k;
        }
    }
    Some(words.iter().filter(|w| bit(w, nodes - 1) == 1).count())
}

/// The accepting states where the node is as wanted.
fn seed(m: &Automaton, (node, some): (u8, bool), words: &[Words], marks: &mut [u16], queue: &mut Vec<(u16, u16)>) {
    queue.clear();
    for (i, w) in words.iter().enumerate() {
        marks[i] = if (bit(w, node as usize) == 1) == some { m.accepting } else { 0 };
        for s in (0..16).filter(|s| marks[i] >> s & 1 == 1) {
            queue.push((s, i as u16));
        }
    }
}

/// Backward from the queued configurations.
fn spread(m: &Automaton, words: &[Words], marks: &mut [u16], queue: &mut Vec<(u16, u16)>) {
    // the edges that enter each state
    let mut into: [Vec<[u16; 3]>; 16] = Default::default();
    for e in m.edges.chunks_exact(4) {
        into[e[3] as usize].push([e[0], e[1], e[2]]);
    }
    while let Some((u, j)) = queue.pop() {
        for [from, dir, test] in &into[u as usize] {
            let i = match dir {
                0 => j as usize,
                1 if j > 0 => j as usize - 1,
                2 if (j as usize) + 1 < words.len() => j as usize + 1,
                _ => continue,
            };
            if bit(&words[i], *test as usize) == 1 && marks[i] >> from & 1 == 0 {
                marks[i] |= 1 << from;
                queue.push((*from, i as u16));
            }
        }
    }
}
