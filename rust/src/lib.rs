//! A rule checker for job logs, proved in Rattle. This crate is a safe wrapper of its static library.
//!
//! A rule sheet says which entries of a job log must lie before or after which. Read both, judge the log, and ask for the walk
//! that shows a verdict:
//!
//! ```
//! use rozsvelen::{holds, judge, walk, Log, Sheet, WORDS};
//!
//! // `approved` is fact 1. The rule: from here some later entry (or this one) is an approval.
//! let sheet = Sheet::read(b"T\nP,1\nM,1,0\nG,0\nE,0,1,0,0\nD,0,1\n").unwrap();
//! let log = Log::read(b"0\n1\n2\n").unwrap();
//! let mut verdicts = [0u64; 3 * WORDS];
//! assert_eq!(judge(&sheet, log.words(), &mut verdicts), Ok(2));
//! assert_eq!([0, 1, 2].map(|entry| holds(&verdicts, entry, 2)), [true, true, false]);
//!
//! let mut edges = [0u16; 8];
//! assert_eq!(walk(&sheet, log.words(), 2, 0, &mut edges), Ok(1));
//! assert_eq!(edges[0], 0);
//! assert_eq!(walk(&sheet, log.words(), 2, 2, &mut edges).unwrap_err().number, 39);
//! ```
#![warn(missing_docs)]

mod boundary;
mod calls;

use std::error::Error;
use std::fmt;

/// How many numbers a table is.
pub const TABLE: usize = 1507;
/// At most so many nodes stand on a sheet.
pub const NODES: usize = 128;
/// How many numbers a row is, one for each node.
pub const ROW: usize = NODES;
/// How many verdict words an entry takes: a log of n entries needs `WORDS * n` of them. [`holds`] reads them.
pub const WORDS: usize = 2;
/// At most so many entries are judged at once.
pub const ENTRIES: usize = 512;
/// A buffer of so many places takes every walk.
pub const WALK: usize = 8191;
/// A buffer of so many bytes takes every page.
pub const PAGE: usize = 40_000;

/// A refusal: the number of the first question that got a no, and the line it is about (from 1; 0 for questions not about a line). Where many
/// logs are judged in one call (`judge_logs`), the number of the log stands in the line's place. A sheet's refusal by 71 to 76, of a number that is
/// not in range, also tells the field that has it, the letter being field 1; of every other refusal the field is 0.
///
/// ```
/// use rozsvelen::Refused;
/// let said = |number, line, field| Refused { number, line, field }.to_string();
/// assert_eq!(said(71, 1, 2), "refused by question 71 at line 1, field 2: no fact from 0 to 31");
/// assert_eq!(said(72, 2, 3), "refused by question 72 at line 2, field 3: no node of an earlier line");
/// assert_eq!(said(73, 2, 2), "refused by question 73 at line 2, field 2: no automaton of an earlier line");
/// assert_eq!(said(74, 3, 5), "refused by question 74 at line 3, field 5: no state below the automaton's count of states");
/// assert_eq!(said(75, 3, 3), "refused by question 75 at line 3, field 3: no direction from 0 to 2");
/// assert_eq!(said(76, 1, 2), "refused by question 76 at line 1, field 2: no count of states from 1 to 16");
/// assert_eq!(said(3, 2, 0), "refused by question 3 at line 2");
/// assert_eq!(said(2, 0, 0), "refused by question 2");
/// ```
#[derive(Clone, Copy, Debug, PartialEq, Eq)]
pub struct Refused {
    /// The question's number.
    pub number: u8,
    /// The line, or 0.
    pub line: u32,
    /// The field of 71 to 76, else 0.
    pub field: u8,
}

impl fmt::Display for Refused {
    fn fmt(&self, f: &mut fmt::Formatter<'_>) -> fmt::Result {
        write!(f, "refused by question {}", self.number)?;
        if self.line > 0 {
            write!(f, " at line {}", self.line)?;
        }
        if self.field > 0 {
            write!(f, ", field {}", self.field)?;
        }
        match self.number {
            71 => write!(f, ": no fact from 0 to 31"),
            72 => write!(f, ": no node of an earlier line"),
            73 => write!(f, ": no automaton of an earlier line"),
            74 => write!(f, ": no state below the automaton's count of states"),
            75 => write!(f, ": no direction from 0 to 2"),
            76 => write!(f, ": no count of states from 1 to 16"),
            _ => Ok(()),
        }
    }
}

impl Error for Refused {}

/// A refusal of a formula: the number of the first question that got a no, and of 51 the place, counted from 0, of the first byte with which no
/// formula can go on, or the text's length where it stops short.
///
/// ```
/// use rozsvelen::RefusedAt;
/// let no = RefusedAt { number: 51, place: 0 };
/// assert_eq!(no.to_string(), "refused by question 51 at place 0: no formula can go on there");
/// let no = RefusedAt { number: 52, place: 0 };
/// assert_eq!(no.to_string(), "refused by question 52: more than 16 marks are open");
/// ```
#[derive(Clone, Copy, Debug, PartialEq, Eq)]
pub struct RefusedAt {
    /// The question's number, 50 to 54.
    pub number: u8,
    /// The place of 51, else 0.
    pub place: u32,
}

impl fmt::Display for RefusedAt {
    fn fmt(&self, f: &mut fmt::Formatter<'_>) -> fmt::Result {
        write!(f, "refused by question {}", self.number)?;
        match self.number {
            50 => write!(f, ": more than 4,096 bytes"),
            51 => write!(f, " at place {}: no formula can go on there", self.place),
            52 => write!(f, ": more than 16 marks are open"),
            53 => write!(f, ": its sheet would be too large"),
            54 => write!(f, ": a path mark stands within an ahead or back step"),
            _ => Ok(()),
        }
    }
}

impl Error for RefusedAt {}

/// Which way the parts of a cut log are judged.
#[derive(Clone, Copy, Debug, PartialEq, Eq)]
pub enum Way {
    /// From the last to the first: no edge that the rule stands on goes back.
    Ahead,
    /// From the first to the last: no edge that the rule stands on goes ahead.
    Back,
}

/// Which ways a sheet's rule looks. The rule, the last node, stands on itself; on the nodes that a node it stands on names; and where that is a D
/// or B, on each edge of its automaton, reached or not, and on the node that the edge tests. Other nodes and automata of the sheet are spare.
#[derive(Clone, Copy, Debug, PartialEq, Eq)]
pub struct Looks {
    /// It stands on an edge that goes ahead.
    pub ahead: bool,
    /// It stands on an edge that goes back.
    pub back: bool,
}

impl Looks {
    /// Whether a log may be cut and its parts judged this way: whether the rule does not look the other way (question 34).
    pub fn may_cut(self, way: Way) -> bool {
        match way {
            Way::Ahead => !self.back,
            Way::Back => !self.ahead,
        }
    }
}

/// A rule sheet that was read.
#[derive(Clone, PartialEq, Eq)]
pub struct Sheet {
    table: [u16; TABLE],
}

impl fmt::Debug for Sheet {
    fn fmt(&self, f: &mut fmt::Formatter<'_>) -> fmt::Result {
        let [nodes, automata, edges] = [0, 1, 2].map(|i| self.table[TABLE - 3 + i]);
        write!(f, "Sheet {{ nodes: {nodes}, automata: {automata}, edges: {edges} }}")
    }
}

impl Sheet {
    /// Reads a sheet's text: its table, or the first question that gets a no, its line, and the field where a number is not in range.
    ///
    /// ```
    /// use rozsvelen::{Refused, Sheet};
    /// assert!(Sheet::read(b"T\nP,31\n").is_ok());
    /// // no fact has number 32; no node of an earlier line has number 1; a number has no x
    /// assert_eq!(Sheet::read(b"T\nP,32\n"), Err(Refused { number: 71, line: 2, field: 2 }));
    /// assert_eq!(Sheet::read(b"T\nA,0,1\n"), Err(Refused { number: 72, line: 2, field: 3 }));
    /// assert_eq!(Sheet::read(b"T\nP,x\n"), Err(Refused { number: 4, line: 2, field: 0 }));
    /// ```
    pub fn read(text: &[u8]) -> Result<Sheet, Refused> {
        let mut table = [0; TABLE];
        boundary::read_sheet(text, &mut table)?;
        Ok(Sheet { table })
    }

    /// Reads a rule that is one line of text, a formula: the sheet made of it, or the first question that gets a no and its place. A formula is
    /// `true`, a fact `f3`, `!`, `&`, `|`, brackets, or `<path>` or `[path]` before a formula; a path has steps `{formula}` ahead, `{formula}-` back,
    /// `{formula}?` as a test, and `;`, `+`, `*`, brackets. There is no space and no LF. docs/FORMULAS.md says what it means and how the sheet is
    /// numbered; the rule is the last node.
    ///
    /// ```
    /// use rozsvelen::{holds, judge, Log, RefusedAt, Sheet, WORDS};
    /// // fact 1, here or later
    /// let sheet = Sheet::from_formula(b"<{true}*>f1").unwrap();
    /// let by_hand = b"T\nT\nM,4,2\nG,3\nE,0,1,1,1\nE,2,0,0,0\nE,1,0,0,0\nE,1,0,0,3\nE,2,0,0,3\nP,1\nD,0,2\n";
    /// assert_eq!(sheet, Sheet::read(by_hand).unwrap());
    /// let log = Log::read(b"0\n1\n2\n").unwrap();
    /// let mut verdicts = [0; 3 * WORDS];
    /// assert_eq!(judge(&sheet, log.words(), &mut verdicts), Ok(2));
    /// assert_eq!([0, 1, 2].map(|entry| holds(&verdicts, entry, 3)), [true, true, false]);
    /// // no fact has number 32; the path is not closed; a path mark stands within a step
    /// assert_eq!(Sheet::from_formula(b"f1|f32"), Err(RefusedAt { number: 51, place: 5 }));
    /// assert_eq!(Sheet::from_formula(b"<{true}*"), Err(RefusedAt { number: 51, place: 8 }));
    /// assert_eq!(Sheet::from_formula(b"<{<{f1}>f2}>f3"), Err(RefusedAt { number: 54, place: 0 }));
    /// ```
    pub fn from_formula(text: &[u8]) -> Result<Sheet, RefusedAt> {
        let mut table = [0; TABLE];
        boundary::read_formula(text, &mut table)?;
        Ok(Sheet { table })
    }

    /// A table's numbers as a sheet. Every call asks of them whether some sheet gives them (question 31).
    ///
    /// ```
    /// use rozsvelen::{judge, Refused, Sheet, TABLE};
    /// let sheet = Sheet::from_numbers([0; TABLE]);
    /// assert_eq!(judge(&sheet, &[0], &mut [0]), Err(Refused { number: 31, line: 0, field: 0 }));
    /// ```
    pub fn from_numbers(table: [u16; TABLE]) -> Sheet {
        Sheet { table }
    }

    /// The table's numbers.
    pub fn numbers(&self) -> &[u16; TABLE] {
        &self.table
    }

    /// The sheet in the plain profile, where `N` stands directly on a fact. Node k gives two nodes, 2k with the same meaning and 2k + 1 with its
    /// opposite, and a last node repeats the rule's; the automata keep their places. 42 where these are more than 128 nodes.
    ///
    /// ```
    /// use rozsvelen::{Refused, Sheet};
    /// // the rule, node 3: from here on no entry has fact 1
    /// let sheet = Sheet::read(b"T\nP,1\nM,1,0\nG,0\nE,0,1,0,0\nD,0,1\nN,2\n").unwrap();
    /// let plain = Sheet::read(b"T\nF\nP,1\nN,2\nM,1,0\nG,0\nE,0,1,0,0\nD,0,2\nB,0,3\nB,0,3\nD,0,2\nB,0,3\n").unwrap();
    /// assert_eq!(sheet.profile(), Ok(plain));
    /// let large = Sheet::read(&b"T\n".repeat(64)).unwrap();
    /// assert_eq!(large.profile(), Err(Refused { number: 42, line: 0, field: 0 }));
    /// ```
    pub fn profile(&self) -> Result<Sheet, Refused> {
        let table = boundary::profile(&self.table)?;
        Ok(Sheet { table })
    }

    /// Whether the sheet is in the plain profile: each of its `N` lines, used or not, names a fact's line.
    ///
    /// ```
    /// use rozsvelen::Sheet;
    /// let in_profile = |text: &[u8]| Sheet::read(text).unwrap().is_in_profile();
    /// assert_eq!(in_profile(b"P,0\nN,0\n"), Ok(true));
    /// assert_eq!(in_profile(b"P,0\nN,0\nN,1\n"), Ok(false));
    /// assert_eq!(in_profile(b"F\nN,0\nT\n"), Ok(false));
    /// ```
    pub fn is_in_profile(&self) -> Result<bool, Refused> {
        boundary::is_in_profile(&self.table)
    }

    /// Which ways the rule looks, and so which way a log may be cut.
    ///
    /// ```
    /// use rozsvelen::{Looks, Sheet, Way};
    /// // the rule, node 3, goes ahead by automaton 0; automaton 1 goes back and is spare, for only node 2 uses it
    /// let sheet = Sheet::read(b"T\nP,1\nM,1,0\nG,0\nE,0,1,0,0\nM,1,0\nG,0\nE,0,2,0,0\nD,1,1\nD,0,1\n").unwrap();
    /// let looks = sheet.rule_looks().unwrap();
    /// assert_eq!(looks, Looks { ahead: true, back: false });
    /// assert!(looks.may_cut(Way::Ahead) && !looks.may_cut(Way::Back));
    /// ```
    pub fn rule_looks(&self) -> Result<Looks, Refused> {
        boundary::rule_looks(&self.table)
    }
}

/// A job log that was read: a word for each entry, bit f for fact f.
#[derive(Clone, Debug, PartialEq, Eq)]
pub struct Log {
    words: Vec<u32>,
}

impl Log {
    /// Reads a log's text: its words, or the first question that gets a no and its line.
    ///
    /// ```
    /// use rozsvelen::{Log, Refused};
    /// assert_eq!(Log::read(b"0,2\n-\n").unwrap().words(), [5, 0]);
    /// assert_eq!(Log::read(b"-\n1,1\n"), Err(Refused { number: 26, line: 2, field: 0 }));
    /// ```
    pub fn read(text: &[u8]) -> Result<Log, Refused> {
        let mut words = vec![0; ENTRIES];
        let count = boundary::read_log(text, &mut words)?;
        words.truncate(count);
        Ok(Log { words })
    }

    /// Reads the text of a log with a platesetter's counter before the facts of each line: its words and the first line's counter, or the first
    /// question that gets a no and its line.
    ///
    /// ```
    /// use rozsvelen::{Log, Refused};
    /// let (log, first) = Log::read_counted(b"65535,0,2\n0,-\n").unwrap();
    /// assert_eq!(log.words(), [5, 0]);
    /// assert_eq!(first, 65535);
    /// assert_eq!(Log::read_counted(b"7,-\n9,-\n"), Err(Refused { number: 29, line: 2, field: 0 }));
    /// ```
    pub fn read_counted(text: &[u8]) -> Result<(Log, u16), Refused> {
        let mut words = vec![0; ENTRIES];
        let (count, first) = boundary::read_counted(text, &mut words)?;
        words.truncate(count);
        Ok((Log { words }, first))
    }

    /// The entries' words.
    pub fn words(&self) -> &[u32] {
        &self.words
    }
}

/// Reads a log's text into lent words and says how many; a refusal alters nothing.
///
/// ```
/// let mut words = [7; 3];
/// assert_eq!(rozsvelen::read_log(b"0\n1\n", &mut words), Ok(2));
/// assert_eq!(words, [1, 2, 7]);
/// ```
pub fn read_log(text: &[u8], words: &mut [u32]) -> Result<usize, Refused> {
    boundary::read_log(text, words)
}

/// Reads the text of a log with counters into lent words; says how many, and the first line's counter. A refusal alters nothing.
///
/// ```
/// let mut words = [7; 3];
/// assert_eq!(rozsvelen::read_counted(b"00012,0\n13,1\n", &mut words), Ok((2, 12)));
/// assert_eq!(words, [1, 2, 7]);
/// ```
pub fn read_counted(text: &[u8], words: &mut [u32]) -> Result<(usize, u16), Refused> {
    boundary::read_counted(text, words)
}

/// The number of steps from an earlier counter to a later one. After 65,535 comes 0, so there is always one.
///
/// ```
/// use rozsvelen::steps_between;
/// assert_eq!(steps_between(3, 10), 7);
/// assert_eq!(steps_between(10, 3), 65529);
/// assert_eq!(steps_between(65535, 0), 1);
/// assert_eq!(steps_between(5, 5), 0);
/// ```
pub fn steps_between(earlier: u16, later: u16) -> u16 {
    boundary::steps_between(earlier, later).expect("no two counters are refused") as u16
}

/// The entry that bears a counter, in a log of so many entries whose first line has the counter `first`. 32 where a log has not so many entries,
/// 30 where no entry bears the counter.
///
/// ```
/// use rozsvelen::{entry_bearing, Refused};
/// assert_eq!(entry_bearing(65534, 3, 65535), Ok(1));
/// assert_eq!(entry_bearing(65534, 3, 0), Ok(2));
/// assert_eq!(entry_bearing(65534, 3, 1), Err(Refused { number: 30, line: 0, field: 0 }));
/// assert_eq!(entry_bearing(65534, 513, 1), Err(Refused { number: 32, line: 0, field: 0 }));
/// ```
pub fn entry_bearing(first: u16, entries: usize, counter: u16) -> Result<usize, Refused> {
    boundary::entry_bearing(first, entries, counter)
}

/// Whether a node holds at an entry, by the words that a judged log or part has: the one way to read a verdict. Of many logs judged in one call,
/// `verdicts` are the words from the log's first one on.
///
/// ```
/// use rozsvelen::{holds, judge, Sheet, WORDS};
/// // node 0 is fact 0; the rule, node 65, is fact 1
/// let text = ["P,0\n", &"T\n".repeat(64), "P,1\n"].concat();
/// let sheet = Sheet::read(text.as_bytes()).unwrap();
/// let mut verdicts = [0; 2 * WORDS];
/// assert_eq!(judge(&sheet, &[0b01, 0b10], &mut verdicts), Ok(1));
/// assert!(holds(&verdicts, 0, 0) && !holds(&verdicts, 1, 0));
/// assert!(holds(&verdicts, 1, 65) && !holds(&verdicts, 0, 65));
/// assert!(!holds(&verdicts, 1, 66), "a node that is not on the sheet holds nowhere");
/// ```
///
/// # Panics
///
/// Where not both words of the entry are there, and where no sheet has such a node, one of [`NODES`] or beyond.
///
/// ```should_panic
/// rozsvelen::holds(&[u64::MAX; 3], 1, 0); // entry 1 has words 2 and 3
/// ```
///
/// ```should_panic
/// rozsvelen::holds(&[u64::MAX; 8], 0, 128);
/// ```
#[track_caller]
pub fn holds(verdicts: &[u64], entry: usize, node: usize) -> bool {
    const BITS: usize = u64::BITS as usize;
    assert!(node < NODES, "node {node}: a sheet has at most {NODES} nodes");
    let Some(words) = verdicts.chunks_exact(WORDS).nth(entry) else {
        panic!("entry {entry}: these are the words of {} entries", verdicts.len() / WORDS);
    };
    words[node / BITS] >> (node % BITS) & 1 == 1
}

/// Judges a whole log: two words for each entry, [`WORDS`], in the first places of `verdicts`; the places behind them keep their content. Nodes 0
/// to 63 are the bits of an entry's first word, nodes 64 to 127 those of its second, and bits of nodes that are not there are 0: [`holds`] reads
/// them. Gives how many entries the rule holds at. 33 where `verdicts` has not twice the log's length. A refusal alters nothing.
///
/// ```
/// use rozsvelen::{holds, judge, Refused, Sheet, WORDS};
/// // the rule, node 1: there is a next entry
/// let sheet = Sheet::read(b"T\nM,2,0\nG,1\nE,0,1,0,1\nD,0,0\n").unwrap();
/// let mut verdicts = [9; 3 * WORDS + 1];
/// assert_eq!(judge(&sheet, &[0, 0, 0], &mut verdicts), Ok(2));
/// assert_eq!([0, 1, 2].map(|entry| holds(&verdicts, entry, 1)), [true, true, false]);
/// assert_eq!(verdicts, [0b11, 0, 0b11, 0, 0b01, 0, 9]);
/// assert_eq!(judge(&sheet, &[], &mut verdicts), Err(Refused { number: 32, line: 0, field: 0 }));
/// assert_eq!(judge(&sheet, &[0, 0, 0], &mut verdicts[..5]), Err(Refused { number: 33, line: 0, field: 0 }));
/// ```
pub fn judge(sheet: &Sheet, log: &[u32], verdicts: &mut [u64]) -> Result<usize, Refused> {
    boundary::judge(&sheet.table, log, verdicts)
}

/// Judges many logs of one sheet in one call, which asks once whether some sheet gives the table. `words` has the logs' entries one after the
/// other, `lengths` how many entries each log has. The verdict words of all logs, [`WORDS`] for each entry, take the first places of `verdicts` in
/// the same order, and the counts of entries at which the rule holds the first places of `held`, one for each log.
///
/// A refusal alters nothing; its `line` is the number of the log it is about, counted from 1, or 0 where it is about none. 32 is about the first
/// log that is not among the first 65,535, has not 1 to 512 entries, or lacks words; where words are left over, about the log after the last. 33 is
/// about the first log that lacks places in `verdicts` or `held`.
///
/// ```
/// use rozsvelen::{holds, judge_logs, Refused, Sheet, WORDS};
/// // the rule, node 1: there is a next entry
/// let sheet = Sheet::read(b"T\nM,2,0\nG,1\nE,0,1,0,1\nD,0,0\n").unwrap();
/// let (mut verdicts, mut held) = ([9; 4 * WORDS + 1], [9; 3]);
/// assert_eq!(judge_logs(&sheet, &[0; 4], &[3, 1], &mut verdicts, &mut held), Ok(()));
/// assert_eq!(verdicts, [0b11, 0, 0b11, 0, 0b01, 0, 0b01, 0, 9]);
/// assert_eq!(held, [2, 0, 9]);
/// let second = &verdicts[3 * WORDS..];
/// assert!(holds(&verdicts, 0, 1) && !holds(second, 0, 1));
/// assert_eq!(judge_logs(&sheet, &[0; 4], &[3, 1], &mut verdicts[..7], &mut held), Err(Refused { number: 33, line: 2, field: 0 }));
/// assert_eq!(judge_logs(&sheet, &[0; 4], &[3, 2], &mut verdicts, &mut held), Err(Refused { number: 32, line: 2, field: 0 }));
/// assert_eq!(judge_logs(&sheet, &[0; 4], &[3], &mut verdicts, &mut held), Err(Refused { number: 32, line: 2, field: 0 }));
/// assert_eq!(judge_logs(&sheet, &[], &[], &mut [], &mut []), Ok(()));
/// ```
pub fn judge_logs(sheet: &Sheet, words: &[u32], lengths: &[u16], verdicts: &mut [u64], held: &mut [u16]) -> Result<(), Refused> {
    boundary::judge_logs(&sheet.table, words, lengths, verdicts, held)
}

/// The row at the end of a log (looking back, at its start): the first part of a run gets it. All bits of a B that the rule stands on are set,
/// all others clear.
///
/// ```
/// use rozsvelen::{plain_row, Sheet};
/// // nodes 2 and 3 are Bs over an automaton of one state; node 3 is the rule, node 2 is spare
/// let sheet = Sheet::read(b"T\nF\nM,1,0\nG,0\nE,0,1,0,0\nB,0,1\nB,0,0\n").unwrap();
/// assert_eq!(plain_row(&sheet).unwrap()[..5], [0, 0, 0, 1, 0]);
/// ```
pub fn plain_row(sheet: &Sheet) -> Result<[u16; ROW], Refused> {
    boundary::plain_row(&sheet.table)
}

/// Judges a part of a log, given the row of the entry just outside it, and gives the row for the next part. The verdict words are as [`judge`] has
/// them, [`WORDS`] for each entry. Only the nodes that the rule stands on are judged: the verdict bits of the others are 0, and their bits of the row
/// are ignored and given as 0. 34 where the rule looks the other way (`Sheet::rule_looks`).
///
/// ```
/// use rozsvelen::{holds, judge_part, plain_row, Sheet, Way, WORDS};
/// let sheet = Sheet::read(b"T\nP,1\nM,1,0\nG,0\nE,0,1,0,0\nD,0,1\n").unwrap();
/// let mut verdicts = [0u64; 2 * WORDS];
/// let plain = plain_row(&sheet).unwrap();
/// let late = judge_part(&sheet, Way::Ahead, &plain, &[2, 4], &mut verdicts).unwrap();
/// assert!(holds(&verdicts, 0, 2) && !holds(&verdicts, 1, 2));
/// judge_part(&sheet, Way::Ahead, &late, &[1], &mut verdicts).unwrap();
/// assert!(holds(&verdicts, 0, 2));
/// ```
pub fn judge_part(sheet: &Sheet, way: Way, row: &[u16; ROW], words: &[u32], verdicts: &mut [u64]) -> Result<[u16; ROW], Refused> {
    boundary::judge_part(&sheet.table, way, row, words, verdicts)
}

/// The edge numbers of the walk that shows node `node` at entry `entry`, in the first places of `edges`: the shortest, with the lowest edges.
/// It ends where a D node's goal holds, or where a B node's goal fails. Gives how many edges it has. A refusal alters nothing.
///
/// ```
/// use rozsvelen::{walk, Refused, Sheet};
/// let sheet = Sheet::read(b"T\nP,1\nM,1,0\nG,0\nE,0,1,0,0\nD,0,1\n").unwrap();
/// let mut edges = [9; 3];
/// assert_eq!(walk(&sheet, &[0, 0, 2], 2, 0, &mut edges), Ok(2));
/// assert_eq!(edges, [0, 0, 9]);
/// assert_eq!(walk(&sheet, &[0, 0, 2], 1, 0, &mut edges), Err(Refused { number: 38, line: 0, field: 0 }));
/// assert_eq!(walk(&sheet, &[0, 0, 2], 256 + 2, 0, &mut edges), Err(Refused { number: 36, line: 0, field: 0 }));
/// ```
pub fn walk(sheet: &Sheet, log: &[u32], node: u32, entry: u32, edges: &mut [u16]) -> Result<usize, Refused> {
    boundary::walk(&sheet.table, log, node, entry, edges)
}

/// The rule as text, in the first places of `text`: each node in full brackets, automata as `m` and their number, down to the facts. The lines T, F,
/// P, N, A, O, D and B are `true`, `false`, `f3`, `(!f3)`, `(f1&f2)`, `(f1|f2)`, `(<m0>f1)` and `([m0]f1)`; there is no space and no LF. Gives how
/// many bytes the text has; the places behind it keep their content. A node that is named twice is printed twice, so that a text can be exponentially
/// longer than its sheet: 55 where it is longer than `text`. A refusal alters nothing.
///
/// ```
/// use rozsvelen::{print_rule, Refused, Sheet};
/// // Z of document 01: from here on, a plate is made only after an approval that follows the last change
/// let sheet = Sheet::read(b"P,0\nP,1\nP,2\nN,0\nT\nM,1,0\nG,0\nE,0,2,3,0\nD,0,1\nN,2\nO,6,5\nM,1,0\nG,0\nE,0,1,4,0\nB,1,7\n").unwrap();
/// let mut text = [b'#'; 24];
/// assert_eq!(print_rule(&sheet, &mut text), Ok(22));
/// assert_eq!(&text, b"([m1]((!f2)|(<m0>f1)))##");
/// assert_eq!(print_rule(&sheet, &mut text[..21]), Err(Refused { number: 55, line: 0, field: 0 }));
/// ```
pub fn print_rule(sheet: &Sheet, text: &mut [u8]) -> Result<usize, Refused> {
    boundary::print_rule(&sheet.table, text)
}

/// The page of a sheet and a log, as the program prints it.
///
/// ```
/// let page = rozsvelen::page(b"T\nM,2,0\nG,1\nE,0,1,0,1\nD,0,0\n", b"-\n-\n-\n");
/// assert_eq!(page, b"0,1\n1,1\n2,0\nrule,1,held,2,of,3\nwalk,1,0\n");
/// assert_eq!(rozsvelen::page(b"", b"-\n"), b"refused,2,0,0\n");
/// assert_eq!(rozsvelen::page(b"T\nA,0,1\n", b"-\n"), b"refused,72,2,3\n");
/// assert_eq!(rozsvelen::page(b"T\n", b"-\n32\n"), b"refused,25,2\n");
/// ```
pub fn page(rules: &[u8], steps: &[u8]) -> Vec<u8> {
    let mut page = vec![0; PAGE];
    let count = boundary::page(rules, steps, &mut page).expect("PAGE bytes take every page");
    page.truncate(count);
    page
}

/// The page of a sheet and a log in the first places of lent bytes, and how many they are. A page that does not fit is refused by 44, and
/// alters nothing.
///
/// ```
/// use rozsvelen::{page_in, Refused};
/// let mut bytes = [b'#'; 16];
/// assert_eq!(page_in(b"", b"", &mut bytes), Ok(14));
/// assert_eq!(&bytes, b"refused,2,0,0\n##");
/// assert_eq!(page_in(b"", b"", &mut bytes[..13]), Err(Refused { number: 44, line: 0, field: 0 }));
/// ```
pub fn page_in(rules: &[u8], steps: &[u8], page: &mut [u8]) -> Result<usize, Refused> {
    boundary::page(rules, steps, page)
}
