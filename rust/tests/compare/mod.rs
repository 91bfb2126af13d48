//! Every call on one case by the product and by the independent checker: the same answer, and the same content of every lent buffer.
pub mod counters;
pub mod formulas;
pub mod judging;
pub mod lists;
pub mod looks;
pub mod pages;
pub mod parts;
pub mod printing;
pub mod profile;
pub mod texts;
pub mod walks;

use crate::checker::meaning::{plain, Judged, Row};
use crate::checker::{sheets, No};
use rozsvelen::{Refused, Sheet};

/// The first node whose verdicts are in an entry's second word.
const SECOND: usize = 64;

/// A table as it is lent, and the sheet that gives it, if one does.
pub struct Table {
    pub ours: Sheet,
    pub theirs: Option<sheets::Sheet>,
}

impl Table {
    /// That of a sheet that reads.
    pub fn of(text: &str) -> Table {
        Table { ours: Sheet::read(text.as_bytes()).unwrap(), theirs: Some(sheets::read(text.as_bytes()).unwrap()) }
    }

    pub fn from_numbers(numbers: [u16; sheets::TABLE]) -> Table {
        Table { ours: Sheet::from_numbers(numbers), theirs: sheets::given(&numbers) }
    }

    pub fn sheet(&self) -> Result<&sheets::Sheet, u8> {
        self.theirs.as_ref().ok_or(31)
    }

    /// A whole log judged by the independent checker: questions 31 and 32.
    pub fn judged<'a>(&'a self, log: &'a [u32]) -> Result<Judged<'a>, u8> {
        let sheet = self.sheet()?;
        if (1..=512).contains(&log.len()) {
            Ok(Judged::new(sheet, log, plain(sheet)))
        } else {
            Err(32)
        }
    }
}

/// Whether an edge of these automata tests a node above 63.
fn tests_second(sheet: &sheets::Sheet, mut automata: impl Iterator<Item = usize>) -> bool {
    automata.any(|m| sheet.automata[m].edges.iter().any(|e| sheet.edges[*e].test >= SECOND))
}

/// Whether a number of a node above 63 is not 0.
fn sets_second(row: &Row) -> bool {
    row[SECOND..].iter().any(|number| *number != 0)
}

/// A refusal of anything but a sheet: it is about no field.
fn no(r: Refused) -> No {
    assert_eq!(r.field, 0, "{r}");
    (r.number, r.line)
}
