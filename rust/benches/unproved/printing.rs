//! The rule as text: first the length of each node's text, from the first node on; then a function that calls itself on the nodes that a line names.
use super::given::given;
use super::{node, COUNTS_AT, NODES, TABLE};

pub fn print_rule(t: &[u16; TABLE], text: &mut [u8]) -> Option<usize> {
    if !given(t) {
        return None;
    }
    let rule = t[COUNTS_AT] as usize - 1;
    if length(t, rule) > text.len() as u64 {
        return None;
    }
    let mut printer = Printer { t, text, at: 0 };
    printer.node(rule);
    Some(printer.at)
}

/// How many bytes the text of a node has; the largest number where they are more.
fn length(t: &[u16; TABLE], k: usize) -> u64 {
    let mut lengths = [0u64; NODES];
    for j in 0..=k {
        let x = node(t, j);
        let of = |named: u8| lengths[named as usize % NODES];
        lengths[j] = match x.letter {
            b'T' => 4,
            b'F' => 5,
            b'P' => 1 + digits(x.a),
            b'N' => of(x.a).saturating_add(3),
            b'A' | b'O' => of(x.a).saturating_add(of(x.b)).saturating_add(3),
            _ => of(x.b).saturating_add(5 + digits(x.a)),
        };
    }
    lengths[k]
}

/// Those of a fact or an automaton.
fn digits(n: u8) -> u64 {
    1 + u64::from(n > 9)
}

/// Writes from place `at` on.
struct Printer<'a> {
    t: &'a [u16; TABLE],
    text: &'a mut [u8],
    at: usize,
}

impl Printer<'_> {
    fn node(&mut self, k: usize) {
        let x = node(self.t, k);
        match x.letter {
            b'T' => return self.put(b"true"),
            b'F' => return self.put(b"false"),
            b'P' => return self.numbered(b"f", x.a),
            b'N' => {
                self.put(b"(!");
                self.node(x.a as usize);
            }
            b'A' | b'O' => {
                self.put(b"(");
                self.node(x.a as usize);
                self.put(if x.letter == b'A' { b"&" } else { b"|" });
                self.node(x.b as usize);
            }
            _ => {
                let (before, behind) = if x.letter == b'D' { (b"(<m", b">") } else { (b"([m", b"]") };
                self.numbered(before, x.a);
                self.put(behind);
                self.node(x.b as usize);
            }
        }
        self.put(b")");
    }

    fn numbered<const N: usize>(&mut self, before: &[u8; N], n: u8) {
        self.put(before);
        if n > 9 {
            self.put(&[b'0' + n / 10]);
        }
        self.put(&[b'0' + n % 10]);
    }

    #[inline(always)]
    fn put<const N: usize>(&mut self, bytes: &[u8; N]) {
        self.text[self.at..self.at + N].copy_from_slice(bytes);
        self.at += N;
    }
}
