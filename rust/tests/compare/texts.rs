//! Sheets and logs as texts.
use super::no;
use crate::checker::{logs, sheets, No};
use crate::kinds::Kinds;
use rozsvelen::{Refused, Sheet};
use std::fmt::Debug;
use std::ops::RangeInclusive;

fn kinds_of_text(kinds: &mut Kinds, call: &str, text: &[u8]) {
    kinds.saw_if(text.last().is_some_and(|b| *b != b'\n'), &format!("{call}: cut short within a line"));
    kinds.saw_if(text.iter().any(|b| *b > 127), &format!("{call}: a byte above 127"));
}

/// Whether a field of the text is a number with a zero before it, of so many digits in all.
pub fn has_padded(text: &[u8], digits: RangeInclusive<usize>) -> bool {
    text.split(|b| b",\n".contains(b)).any(|f| digits.contains(&f.len()) && f[0] == b'0' && f.iter().all(u8::is_ascii_digit))
}

/// How many lines of a sheet are nodes.
pub fn nodes_of(text: &[u8]) -> usize {
    text.split(|b| *b == b'\n').filter(|line| line.first().is_some_and(|b| b"TFPNAODB".contains(b))).count()
}

/// The line of a text that a refusal names.
fn named(text: &[u8], line: u32) -> &[u8] {
    text.split(|b| *b == b'\n').nth(line as usize - 1).unwrap()
}

pub fn compare_sheet(kinds: &mut Kinds, text: &[u8]) {
    let ours = Sheet::read(text).map(|s| *s.numbers()).map_err(|no| (no.number, no.line, no.field));
    let theirs = sheets::read(text).map(|s| s.numbers());
    assert_eq!(ours, theirs, "sheet {:?}", String::from_utf8_lossy(text));
    kinds_of_text(kinds, "read_sheet", text);
    match ours {
        Ok(_) => {
            kinds.saw("read_sheet: read");
            kinds.saw_if(has_padded(text, 2..=3), "read_sheet: read with a padded number");
            kinds.saw_if(nodes_of(text) == sheets::NODES, "read_sheet: read with 128 nodes");
        }
        Err((q, line, field)) => {
            kinds.refused("read_sheet", q);
            kinds.saw_if(field > 0, &format!("read_sheet: {q} in field {field}"));
            kinds.saw_if(q == 4 && has_padded(named(text, line), 4..=4), "read_sheet: 4 of a padded number of four digits");
            kinds.saw_if(q == 5 && nodes_of(named(text, line)) == 1, "read_sheet: 5 of a node");
        }
    }
}

/// Reads a log into `room` lent words; the answer. `theirs` has the wanted answer and words.
fn compare_words<T: PartialEq + Debug>(
    text: &[u8],
    room: usize,
    ours: impl Fn(&[u8], &mut [u32]) -> Result<T, Refused>,
    theirs: Result<(T, Vec<u32>), No>,
) -> Result<T, No> {
    let before: Vec<u32> = (0..room as u32).map(|i| 0xdead_0000 + i).collect();
    let mut buffer = before.clone();
    let answer = ours(text, &mut buffer).map_err(no);
    let (wanted, words) = match theirs {
        Ok((wanted, words)) => (Ok(wanted), words),
        Err(refusal) => (Err(refusal), vec![]),
    };
    assert_eq!(answer, wanted, "log {:?}", String::from_utf8_lossy(text));
    assert_eq!(buffer, [&words, &before[words.len()..]].concat(), "the buffer of log {:?}", String::from_utf8_lossy(text));
    answer
}

pub fn compare_log(kinds: &mut Kinds, text: &[u8], room: usize) {
    let theirs = logs::read(text, room).map(|words| (words.len(), words));
    let answer = compare_words(text, room, rozsvelen::read_log, theirs);
    kinds_of_text(kinds, "read_log", text);
    match answer {
        Ok(n) => {
            kinds.saw("read_log: read");
            kinds.saw_if(has_padded(text, 2..=3), "read_log: read with a padded number");
            kinds.saw_if(n < room, "read_log: places beyond the words kept");
        }
        Err((q, line)) => {
            kinds.refused("read_log", q);
            kinds.saw_if(q == 24 && has_padded(named(text, line), 4..=4), "read_log: 24 of a padded number of four digits");
        }
    }
}

pub fn compare_counted(kinds: &mut Kinds, text: &[u8], room: usize) {
    let theirs = logs::read_counted(text, room).map(|(words, first)| ((words.len(), first), words));
    let answer = compare_words(text, room, rozsvelen::read_counted, theirs);
    kinds_of_text(kinds, "read_counted", text);
    match answer {
        Ok((n, first)) => {
            kinds.saw("read_counted: read");
            kinds.saw_if(text.split(|b| *b == b'\n').any(|line| has_padded(before_comma(line), 2..=5)), "read_counted: padded counter");
            kinds.saw_if(usize::from(first) + n > 65_536, "read_counted: counter goes round");
            kinds.saw_if(n < room, "read_counted: places beyond the words kept");
        }
        Err((q, line)) => {
            kinds.refused("read_counted", q);
            if line > 0 {
                kinds_of_line(kinds, text, q, line);
            }
        }
    }
}

/// What a line with a counter is before its first comma: all of it where there is none.
fn before_comma(line: &[u8]) -> &[u8] {
    line.split(|b| *b == b',').next().unwrap()
}

fn kinds_of_line(kinds: &mut Kinds, text: &[u8], number: u8, line: u32) {
    let field = before_comma(named(text, line));
    let are_digits = field.iter().all(u8::is_ascii_digit);
    let is_repeated = || logs::counter(field) == logs::counter(before_comma(named(text, line - 1)));
    kinds.saw_if(number == 24 && field == named(text, line), "read_counted: 24 of a line without a comma");
    kinds.saw_if(number == 28 && are_digits && field.len() == 5, "read_counted: 28 of five digits above 65535");
    kinds.saw_if(number == 28 && are_digits && field.len() == 6, "read_counted: 28 of six digits");
    kinds.saw_if(number == 29 && is_repeated(), "read_counted: 29 of a repeated counter");
}
