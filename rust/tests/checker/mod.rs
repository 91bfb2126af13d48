//! A second checker, written from documents 01 and 02 alone and by other means than the product's: texts are split as strings, verdicts come from
//! sets of configurations that are closed by repetition from each start, walks are enumerated by their length, each line of a profile comes by
//! recursion from the old lines, what the rule stands on by recursion from the rule, and the rule's text by a stack of what is still to be written.
//! Formulas (docs/FORMULAS.md with document 02) are read by stacks, and judged on the log by the sets of entries that paths lead to, without a sheet.
pub mod formulas;
pub mod logs;
pub mod meaning;
pub mod pages;
pub mod printing;
pub mod profile;
pub mod sheets;
pub mod stands;

/// A refusal of anything but a sheet: number and line.
pub type No = (u8, u32);

/// The number that a field is: one to three digits, zeros in front or not.
pub fn number(field: &[u8]) -> Option<u32> {
    number_up_to(3, field)
}

/// The number that a field is, of at most so many digits.
fn number_up_to(digits: usize, field: &[u8]) -> Option<u32> {
    let text = std::str::from_utf8(field).ok()?;
    let fits = (1..=digits).contains(&text.len()) && text.bytes().all(|b| b.is_ascii_digit());
    fits.then(|| text.parse().unwrap())
}

/// The lines of a text that ends in LF.
pub fn lines(text: &[u8]) -> Vec<&[u8]> {
    let mut all: Vec<&[u8]> = text.split(|b| *b == b'\n').collect();
    all.pop();
    all
}
