//! Question 31: flags gathered without branches, unused places OR-ed in wide words, the nodes built on no D or B as the bits of two words.
use super::{bit, place, AUTOMATA_AT, COUNTS_AT, EDGES_AT, NODES, TABLE};

/// All zeros: one OR over the whole, which the compiler does in wide words.
#[inline]
fn none(numbers: &[u16]) -> bool {
    numbers.iter().fold(0, |a, b| a | b) == 0
}

/// Whether some sheet gives the table.
pub fn given(t: &[u16; TABLE]) -> bool {
    let [nodes, automata, edges] = [0, 1, 2].map(|i| t[COUNTS_AT + i] as usize);
    if nodes == 0 || nodes > NODES || automata > 16 || edges > 256 {
        return false;
    }
    let mut plain = [0; 2];
    for k in 0..nodes {
        let [letter, a, b] = [t[3 * k], t[3 * k + 1], t[3 * k + 2]];
        let (a, b) = (a as usize, b as usize);
        let (fits, is_plain) = match letter {
            0x54 | 0x46 => (a | b == 0, true),                                                         // T, F
            0x50 => (a < 32 && b == 0, true),                                                          // P
            0x4e => (a < k && b == 0, bit(&plain, a) == 1),                                            // N
            0x41 | 0x4f => (a < k && b < k, bit(&plain, a) & bit(&plain, b) == 1),                     // A, O
            0x44 | 0x42 => (a < automata && t[AUTOMATA_AT + 6 * a + 5] as usize <= k && b < k, false), // D, B
            _ => (false, false),
        };
        if !fits {
            return false;
        }
        let (word, at) = place(k);
        plain[word] |= (is_plain as u64) << at;
    }
    let (mut first, mut above) = (0usize, 0u16);
    for m in 0..automata {
        let x = &t[AUTOMATA_AT + 6 * m..][..6];
        let (states, count, before) = (x[0], x[4] as usize, x[5]);
        let fits = states.wrapping_sub(1) < 16 && x[1] < states && (x[2] as u32) < 1 << (states & 31) && x[3] as usize == first;
        if !fits || first + count > edges || before < above || before as usize >= nodes {
            return false;
        }
        let (mut touched, mut wrong) = (0u32, false);
        for e in t[EDGES_AT + 4 * first..][..4 * count].chunks_exact(4) {
            wrong |= e[0] >= states || e[1] > 2 || e[2] >= before || e[3] >= states || (e[1] > 0 && bit(&plain, e[2] as usize) == 0);
            touched |= 1 << (e[0] & 31) | 1 << (e[3] & 31);
        }
        if wrong || touched != (1 << states) - 1 {
            return false;
        }
        first += count;
        above = before;
    }
    let [lines, sixes, fours] = [3 * nodes..AUTOMATA_AT, AUTOMATA_AT + 6 * automata..EDGES_AT, EDGES_AT + 4 * edges..COUNTS_AT];
    first == edges && none(&t[lines]) & none(&t[sixes]) & none(&t[fours])
}
