//! A reader of formulas that asks every question: recursive descent in one pass over the text, which looks at each byte about once and writes the
//! table as it goes. Past a limit it only counts on, for a later byte may still be refused by a number that is asked before.
use super::{room, AUTOMATA_AT, COUNTS_AT, EDGES_AT, NODES, TABLE};
use std::mem::MaybeUninit;

/// The number of the refusal, and the place of 51.
pub type No = (u8, u32);

/// At most so many bytes, marks open at once, automata, states of one, and edges.
const BYTES: usize = 4096;
const DEPTH: u32 = 16;
const AUTOMATA: usize = 16;
const STATES: u32 = 16;
const EDGES: usize = 256;

/// A formula's table, where no question gets a no.
pub fn formula(s: &[u8]) -> Result<[u16; TABLE], No> {
    if s.len() > BYTES {
        return Err((50, 0));
    }
    // made in the answer's place, and not copied there
    let mut answer = Ok([0; TABLE]);
    if let Ok(table) = &mut answer {
        if let Err(no) = Reader::read(s, table) {
            answer = Err(no);
        }
    }
    answer
}

/// A place of the text, and what was read before it: a node's number, or the states where a path starts and ends. None where a byte was refused.
/// A text's places are small, so that this fits two registers.
type Read<T> = Option<(u32, T)>;

/// The states where a path starts and ends.
type Ends = (u8, u8);

/// What stands for no node.
const NONE: u16 = u16::MAX;

/// The table so far, with node 0, and what the questions ask.
struct Reader<'a> {
    s: &'a [u8],
    table: &'a mut [u16; TABLE],
    /// The refusal by 51 or 52, once there is one.
    no: No,
    depth: u32,
    nodes: usize,
    automata: usize,
    edges: usize,
    /// The first edge of the automaton that is being read, as it stands so far, and its states.
    first: usize,
    states: u32,
    /// Whether a path mark stands within an ahead or back step, and whether an automaton has too many states.
    modal_step: bool,
    wide: bool,
    /// The `!` and the path marks whose formula is being read, the last on top: a letter and an automaton. More than a sheet has nodes are not kept.
    before: [MaybeUninit<(u8, u8)>; NODES],
    waiting: usize,
}

impl Reader<'_> {
    fn read(s: &[u8], table: &mut [u16; TABLE]) -> Result<(), No> {
        table[0] = b'T' as u16;
        let mut reader = Reader {
            s,
            table,
            no: (0, 0),
            depth: 0,
            nodes: 1,
            automata: 0,
            edges: 0,
            first: 0,
            states: 0,
            modal_step: false,
            wide: false,
            before: room(),
            waiting: 0,
        };
        match reader.formula(0) {
            None => Err(reader.no),
            Some((p, _)) if p as usize != s.len() => Err((51, p)),
            Some(_) => reader.whole(),
        }
    }

    /// Questions 54 and 53, each automaton's first edge, and the counts.
    fn whole(self) -> Result<(), No> {
        if self.modal_step {
            return Err((54, 0));
        }
        if self.nodes > NODES || self.automata > AUTOMATA || self.wide || self.edges > EDGES {
            return Err((53, 0));
        }
        let mut first = 0;
        for line in self.table[AUTOMATA_AT..EDGES_AT].chunks_exact_mut(6).take(self.automata) {
            line[3] = first;
            first += line[4];
        }
        self.table[COUNTS_AT..].copy_from_slice(&[self.nodes as u16, self.automata as u16, self.edges as u16]);
        Ok(())
    }

    /// The byte at a place; behind the text 0, which no formula has.
    #[inline(always)]
    fn byte(&self, p: u32) -> u8 {
        self.s.get(p as usize).copied().unwrap_or(0)
    }

    #[cold]
    #[inline(never)]
    fn no<T>(&mut self, number: u8, p: u32) -> Option<T> {
        self.no = (number, p);
        None
    }

    /// One mark more open.
    #[inline(always)]
    fn open(&mut self) -> Option<()> {
        self.depth += 1;
        if self.depth > DEPTH {
            return self.no(52, 0);
        }
        Some(())
    }

    /// The place behind the byte that closes the innermost mark.
    #[inline(always)]
    fn close(&mut self, p: u32, byte: u8) -> Option<u32> {
        if self.byte(p) != byte {
            return self.no(51, p);
        }
        self.depth -= 1;
        Some(p + 1)
    }

    /// A node line; its number.
    #[inline(always)]
    fn node(&mut self, letter: u8, a: u16, b: u16) -> u16 {
        let k = self.nodes;
        if k < NODES {
            self.table[3 * k..3 * k + 3].copy_from_slice(&[letter as u16, a, b]);
        }
        self.nodes = k + 1;
        k as u16
    }

    /// An edge of the automaton that is being read.
    #[inline(always)]
    fn edge(&mut self, from: u8, dir: u16, test: u16, to: u8) {
        if self.edges < EDGES {
            let at = EDGES_AT + 4 * self.edges;
            self.table[at..at + 4].copy_from_slice(&[from as u16, dir, test, to as u16]);
        }
        self.edges += 1;
    }

    /// Tests of node 0, all or none of them written.
    #[inline(always)]
    fn tests<const N: usize>(&mut self, edges: [Ends; N]) {
        if self.edges + N <= EDGES {
            let at = EDGES_AT + 4 * self.edges;
            for (edge, (from, to)) in self.table[at..at + 4 * N].chunks_exact_mut(4).zip(edges) {
                edge.copy_from_slice(&[from as u16, 0, 0, to as u16]);
            }
        }
        self.edges += N;
    }

    /// The next two states.
    #[inline(always)]
    fn two(&mut self) -> Ends {
        let s = self.states;
        self.states = s + 2;
        (s as u8, s as u8 + 1)
    }

    /// Operands joined by `&` and `|`.
    fn formula(&mut self, mut p: u32) -> Read<u16> {
        let (mut either, mut both) = (NONE, NONE);
        loop {
            let (end, mut node) = self.operand(p)?;
            if both != NONE {
                node = self.node(b'A', both, node);
            }
            let byte = self.byte(end);
            if byte == b'&' {
                both = node;
            } else {
                if either != NONE {
                    node = self.node(b'O', either, node);
                }
                if byte != b'|' {
                    return Some((end, node));
                }
                (either, both) = (node, NONE);
            }
            p = end + 1;
        }
    }

    /// An atom behind any `!` and path marks, which become nodes from the last to the first.
    #[inline(always)]
    fn operand(&mut self, mut p: u32) -> Read<u16> {
        let waiting = self.waiting;
        let (end, mut node) = loop {
            let byte = self.byte(p);
            let mark = match byte {
                b'(' => break self.brackets(p)?,
                b'f' => break self.fact(p + 1)?,
                b't' => break self.constant(p + 1)?,
                b'!' => {
                    p += 1;
                    (b'N', 0)
                }
                b'<' | b'[' => {
                    self.open()?;
                    let (letter, closing) = if byte == b'<' { (b'D', b'>') } else { (b'B', b']') };
                    let (end, m) = self.automaton(p + 1, closing)?;
                    p = end;
                    (letter, m)
                }
                _ => return self.no(51, p),
            };
            self.before[self.waiting % NODES].write(mark);
            self.waiting += 1;
        };
        while self.waiting > waiting {
            self.waiting -= 1;
            // it was written when it came to wait, or one NODES places on was
            let (letter, m) = unsafe { self.before[self.waiting % NODES].assume_init() };
            node = if letter == b'N' { self.node(letter, node, 0) } else { self.node(letter, m as u16, node) };
        }
        Some((end, node))
    }

    /// A formula in brackets.
    fn brackets(&mut self, p: u32) -> Read<u16> {
        self.open()?;
        let (end, node) = self.formula(p + 1)?;
        Some((self.close(end, b')')?, node))
    }

    /// A fact behind its `f`.
    #[inline(always)]
    fn fact(&mut self, p: u32) -> Read<u16> {
        let [first, second] = [p, p + 1].map(|at| self.byte(at).wrapping_sub(b'0') as u16);
        if first > 9 {
            return self.no(51, p);
        }
        if second > 9 {
            return Some((p + 1, self.node(b'P', first, 0)));
        }
        let number = 10 * first + second;
        if !(10..32).contains(&number) {
            return self.no(51, p + 1);
        }
        Some((p + 2, self.node(b'P', number, 0)))
    }

    /// `true` behind its `t`.
    #[inline(always)]
    fn constant(&mut self, p: u32) -> Read<u16> {
        let place = p as usize;
        if self.s.get(place..place + 3) == Some(b"rue") {
            return Some((p + 3, self.node(b'T', 0, 0)));
        }
        let right = b"rue".iter().zip(p..).take_while(|(letter, at)| self.byte(*at) == **letter).count();
        self.no(51, p + right as u32)
    }

    /// The path of a path mark, which is open, and the automaton's lines. Where it stands in a test of another path, that path's edges so far are
    /// those from `around` on: they come to stand behind its own and behind those of automata within it.
    #[inline(never)]
    fn automaton(&mut self, p: u32, closing: u8) -> Read<u8> {
        let (around, states, before) = (self.first, self.states, self.edges);
        (self.first, self.states) = (before, 0);
        let (end, (start, accepting)) = self.path(p)?;
        let end = self.close(end, closing)?;
        self.wide |= self.states > STATES;
        let m = self.automata;
        if m < AUTOMATA && self.edges <= EDGES && !self.wide {
            if before > around {
                self.table[EDGES_AT + 4 * around..EDGES_AT + 4 * self.edges].rotate_left(4 * (before - around));
            }
            let line = [self.states as u16, start as u16, 1 << accepting, 0, (self.edges - self.first) as u16, self.nodes as u16];
            self.table[AUTOMATA_AT + 6 * m..AUTOMATA_AT + 6 * m + 6].copy_from_slice(&line);
        }
        self.automata = m + 1;
        (self.first, self.states) = (self.edges - before + around, states);
        Some((end, m as u8))
    }

    /// Starred pieces joined by `;` and `+`.
    fn path(&mut self, mut p: u32) -> Read<Ends> {
        let (mut either, mut before): (Option<Ends>, Option<Ends>) = (None, None);
        loop {
            let (end, mut ends) = self.starred(p)?;
            if let Some(left) = before {
                self.tests([(left.1, ends.0)]);
                ends.0 = left.0;
            }
            let byte = self.byte(end);
            if byte == b';' {
                before = Some(ends);
            } else {
                if let Some(left) = either {
                    ends = self.either(left, ends);
                }
                if byte != b'+' {
                    return Some((end, ends));
                }
                (either, before) = (Some(ends), None);
            }
            p = end + 1;
        }
    }

    #[inline(always)]
    fn either(&mut self, p: Ends, q: Ends) -> Ends {
        let (start, end) = self.two();
        self.tests([(start, p.0), (start, q.0), (p.1, end), (q.1, end)]);
        (start, end)
    }

    /// A step or a path in brackets, and any `*` behind it.
    #[inline(always)]
    fn starred(&mut self, p: u32) -> Read<Ends> {
        let (mut p, mut ends) = match self.byte(p) {
            b'{' => self.step(p + 1)?,
            b'(' => {
                self.open()?;
                let (end, ends) = self.path(p + 1)?;
                (self.close(end, b')')?, ends)
            }
            _ => return self.no(51, p),
        };
        while self.byte(p) == b'*' {
            let (start, end) = self.two();
            self.tests([(start, ends.0), (ends.1, ends.0), (ends.1, end), (start, end)]);
            ends = (start, end);
            p += 1;
        }
        Some((p, ends))
    }

    /// A step behind its `{`.
    #[inline(always)]
    fn step(&mut self, p: u32) -> Read<Ends> {
        self.open()?;
        let automata = self.automata;
        let (end, node) = self.formula(p)?;
        let end = self.close(end, b'}')?;
        let (p, dir) = match self.byte(end) {
            b'-' => (end + 1, 2),
            b'?' => (end + 1, 0),
            _ => (end, 1),
        };
        self.modal_step |= dir > 0 && self.automata > automata;
        let ends = self.two();
        self.edge(ends.0, dir, node, ends.1);
        Some((p, ends))
    }
}
