//! Readers of logs and sheets that ask every question, in one pass that looks at each byte about once. A refusal alters nothing.
use super::{filled, room, AUTOMATA_AT, COUNTS_AT, EDGES_AT, NODES, TABLE};

/// The number of the question that got a no, and its line.
pub type No = (u8, u32);

/// The same of a sheet, and the field of 71 to 76, else 0.
pub type SheetNo = (u8, u32, u8);

/// A field from place p on: its value (1000 or more: no number) and the place of the byte that ends it (a comma or LF).
/// The text ends in LF, so a field's end is found before the text's.
#[inline(always)]
fn field(s: &[u8], mut p: usize) -> (u32, usize) {
    let d0 = s[p].wrapping_sub(b'0') as u32;
    if d0 < 10 {
        let b1 = s[p + 1];
        if b1 == b',' || b1 == b'\n' {
            return (d0, p + 1);
        }
        let d1 = b1.wrapping_sub(b'0') as u32;
        if d1 < 10 {
            let b2 = s[p + 2];
            if b2 == b',' || b2 == b'\n' {
                return (10 * d0 + d1, p + 2);
            }
            let d2 = b2.wrapping_sub(b'0') as u32;
            if d2 < 10 {
                let b3 = s[p + 3];
                if b3 == b',' || b3 == b'\n' {
                    return (100 * d0 + 10 * d1 + d2, p + 3);
                }
            }
        }
    }
    while s[p] != b',' && s[p] != b'\n' {
        p += 1;
    }
    (1000, p)
}

pub fn log(s: &[u8], words: &mut [u32]) -> Result<usize, No> {
    if s.len() > 49152 {
        return Err((21, 0));
    }
    if s.last() != Some(&b'\n') {
        return Err((22, 0));
    }
    let mut store = room::<u32, 512>();
    let store = filled(&mut store, 0);
    let (mut p, mut n) = (0, 0);
    while p < s.len() {
        if n == 512 {
            return Err((23, 513));
        }
        (store[n], p) = entry(s, p).map_err(|number| (number, n as u32 + 1))?;
        n += 1;
    }
    if words.len() < n {
        return Err((27, 0));
    }
    words[..n].copy_from_slice(&store[..n]);
    Ok(n)
}

/// The word of the line at place p, and the place of the next line.
#[inline(always)]
fn entry(s: &[u8], mut p: usize) -> Result<(u32, usize), u8> {
    if s[p] == b'-' && s[p + 1] == b'\n' {
        return Ok((0, p + 2));
    }
    let (mut word, mut most, mut falls, mut last) = (0u32, 0u32, false, -1i32);
    loop {
        let (fact, end) = field(s, p);
        if fact > 999 {
            return Err(24);
        }
        most |= fact;
        falls |= fact as i32 <= last;
        last = fact as i32;
        word |= 1 << (fact & 31);
        p = end + 1;
        if s[end] == b'\n' {
            break;
        }
    }
    // of all facts OR-ed, one above 31 leaves a bit above
    match (most > 31, falls) {
        (true, _) => Err(25),
        (_, true) => Err(26),
        _ => Ok((word, p)),
    }
}

/// How many fields follow the letter; 9: no letter of the table.
const COUNT: [u8; 256] = {
    let mut count = [9; 256];
    let letters = [(b'T', 0), (b'F', 0), (b'P', 1), (b'N', 1), (b'G', 1), (b'A', 2), (b'O', 2), (b'D', 2), (b'B', 2), (b'M', 2), (b'E', 4)];
    let mut i = 0;
    while i < letters.len() {
        count[letters[i].0 as usize] = letters[i].1;
        i += 1;
    }
    count
};

/// The line at place p: its letter, its numbers (absent 0), and the place of the next line. Questions 3 and 4.
#[inline(always)]
fn line(s: &[u8], p: usize) -> Result<(u8, [u32; 4], usize), u8> {
    let letter = s[p];
    if letter == b'\n' || letter == b',' || (s[p + 1] != b',' && s[p + 1] != b'\n') {
        return Err(3);
    }
    let (mut numbers, mut count, mut wrong, mut end) = ([0; 4], 0u8, false, p + 1);
    while s[end] == b',' {
        let (number, next) = field(s, end + 1);
        if count < 4 {
            numbers[count as usize] = number;
            wrong |= number > 999;
        }
        count = count.saturating_add(1);
        end = next;
    }
    if COUNT[letter as usize] != count {
        return Err(3);
    }
    if wrong {
        return Err(4);
    }
    Ok((letter, numbers, end + 1))
}

/// Of a line's numbers, each with the question about it, one is out of range: the number of the leftmost, and its field, in one. Away from the way
/// of a sheet that is read.
#[cold]
#[inline(never)]
fn leftmost(numbers: &[(bool, u16)]) -> u16 {
    let i = numbers.iter().position(|(fits, _)| !fits).unwrap();
    numbers[i].1 + 256 * (i as u16 + 2)
}

/// The table so far, and what the questions ask of the lines so far.
struct Reading {
    table: [u16; TABLE],
    nodes: usize,
    automata: usize,
    edges: usize,
    /// The nodes built on no D or B.
    plain: u128,
    /// Whether the line before is M, G or E; that automaton's states, and those that accept.
    inside: bool,
    states: u32,
    accepting: u32,
    /// Each automaton's M line, and its states that stand on some edge.
    lines: [u32; 16],
    touched: [u32; 16],
}

/// A sheet's table, where no question gets a no.
pub fn sheet(s: &[u8], out: &mut [u16; TABLE]) -> Result<(), SheetNo> {
    if s.len() > 49152 {
        return Err((1, 0, 0));
    }
    if s.last() != Some(&b'\n') {
        return Err((2, 0, 0));
    }
    let mut reading = Reading {
        table: [0; TABLE],
        nodes: 0,
        automata: 0,
        edges: 0,
        plain: 0,
        inside: false,
        states: 0,
        accepting: 0,
        lines: [0; 16],
        touched: [0; 16],
    };
    let (mut p, mut k) = (0, 0);
    while p < s.len() {
        k += 1;
        let (letter, numbers, next) = line(s, p).map_err(|number| (number, k, 0))?;
        p = next;
        reading.add(letter, numbers, k).map_err(|no| (no as u8, k, (no >> 8) as u8))?;
    }
    *out = reading.whole(k)?;
    Ok(())
}

impl Reading {
    /// Questions 5, 6, 71 to 76, 8 and 9 of a line, and the table with it; a refusal's number, and from bit 8 on its field.
    #[inline(always)]
    fn add(&mut self, letter: u8, numbers: [u32; 4], k: u32) -> Result<(), u16> {
        match letter {
            b'E' => self.edge(numbers),
            b'G' => self.accept(numbers[0]),
            b'M' => self.automaton(numbers[0], numbers[1], k),
            _ => self.node(letter, numbers[0], numbers[1]),
        }
    }

    #[inline(always)]
    fn edge(&mut self, [from, dir, test, to]: [u32; 4]) -> Result<(), u16> {
        if self.edges == 256 {
            return Err(5);
        }
        if !self.inside {
            return Err(6);
        }
        if from >= self.states || dir > 2 || test >= self.nodes as u32 || to >= self.states {
            return Err(leftmost(&[(from < self.states, 74), (dir <= 2, 75), (test < self.nodes as u32, 72), (to < self.states, 74)]));
        }
        if dir > 0 && self.plain >> (test & 127) & 1 == 0 {
            return Err(9);
        }
        let (at, m) = (EDGES_AT + 4 * self.edges, (self.automata - 1) & 15);
        self.table[at..at + 4].copy_from_slice(&[from as u16, dir as u16, test as u16, to as u16]);
        self.touched[m] |= 1 << (from & 31) | 1 << (to & 31);
        self.table[AUTOMATA_AT + 6 * m + 4] += 1;
        self.edges += 1;
        Ok(())
    }

    #[inline(always)]
    fn accept(&mut self, state: u32) -> Result<(), u16> {
        if !self.inside {
            return Err(6);
        }
        if state >= self.states {
            return Err(leftmost(&[(false, 74)]));
        }
        if self.accepting >> (state & 31) & 1 == 1 {
            return Err(8);
        }
        self.accepting |= 1 << (state & 31);
        self.table[AUTOMATA_AT + 6 * ((self.automata - 1) & 15) + 2] = self.accepting as u16;
        Ok(())
    }

    #[inline(always)]
    fn automaton(&mut self, states: u32, start: u32, k: u32) -> Result<(), u16> {
        if self.automata == 16 {
            return Err(5);
        }
        if states.wrapping_sub(1) > 15 || start >= states {
            return Err(leftmost(&[(states.wrapping_sub(1) <= 15, 76), (start < states, 74)]));
        }
        let at = AUTOMATA_AT + 6 * self.automata;
        self.table[at..at + 6].copy_from_slice(&[states as u16, start as u16, 0, self.edges as u16, 0, self.nodes as u16]);
        self.lines[self.automata] = k;
        self.automata += 1;
        (self.states, self.accepting, self.inside) = (states, 0, true);
        Ok(())
    }

    #[inline(always)]
    fn node(&mut self, letter: u8, a: u32, b: u32) -> Result<(), u16> {
        if self.nodes == NODES {
            return Err(5);
        }
        let n = self.nodes as u32;
        let (fits, is_plain) = match letter {
            b'T' | b'F' => (true, true),
            b'P' => (a < 32, true),
            b'N' => (a < n, self.plain >> (a & 127) & 1 == 1),
            b'A' | b'O' => (a < n && b < n, self.plain >> (a & 127) & self.plain >> (b & 127) & 1 == 1),
            _ => ((a as usize) < self.automata && b < n, false),
        };
        if !fits {
            let first = match letter {
                b'P' => (a < 32, 71),
                b'D' | b'B' => ((a as usize) < self.automata, 73),
                _ => (a < n, 72),
            };
            return Err(leftmost(&[first, (b < n, 72)]));
        }
        self.plain |= (is_plain as u128) << n;
        let at = 3 * self.nodes;
        self.table[at..at + 3].copy_from_slice(&[letter as u16, a as u16, b as u16]);
        self.nodes += 1;
        self.inside = false;
        Ok(())
    }

    /// Questions 10 and 11, after line k, the last.
    fn whole(mut self, k: u32) -> Result<[u16; TABLE], SheetNo> {
        for m in 0..self.automata {
            if self.touched[m] != (1u32 << self.table[AUTOMATA_AT + 6 * m]) - 1 {
                return Err((10, self.lines[m], 0));
            }
        }
        if self.inside {
            return Err((11, k, 0));
        }
        self.table[COUNTS_AT..].copy_from_slice(&[self.nodes as u16, self.automata as u16, self.edges as u16]);
        Ok(self.table)
    }
}
