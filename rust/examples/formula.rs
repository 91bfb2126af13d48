//! Judges a folder's log by a rule that is one line of text. The folder has the rule, `rule.txt`, a formula (docs/FORMULAS.md) behind which one LF
//! may stand, and the log, `steps.txt`. Prints a line for each entry, as the page does: its number and the rule's verdict there.
//! A rule or a log that is refused is said on standard error, with the question's number and the place or line, and the program ends with status 1.
//!
//!     cargo run --example formula -- DIR
use rozsvelen::{holds, judge, Log, Sheet, TABLE, WORDS};
use std::error::Error;
use std::fs::File;
use std::io::{self, Read, Write};
use std::path::{Path, PathBuf};
use std::process::ExitCode;

/// One byte more than a log may have, so that a longer one is refused by its number; a rule has fewer.
const BYTES: u64 = 49_153;

/// A text; as on the page, only a missing file counts as empty.
fn content(path: &Path) -> io::Result<Vec<u8>> {
    let mut bytes = vec![];
    match File::open(path) {
        Err(e) if e.kind() == io::ErrorKind::NotFound => Ok(bytes),
        file => file?.take(BYTES).read_to_end(&mut bytes).map(|_| bytes),
    }
}

fn sheet(folder: &Path) -> Result<Sheet, Box<dyn Error>> {
    let text = content(&folder.join("rule.txt"))?;
    let formula = text.strip_suffix(b"\n").unwrap_or(&text);
    Ok(Sheet::from_formula(formula).map_err(|no| format!("rule.txt: {no}"))?)
}

fn log(folder: &Path) -> Result<Log, Box<dyn Error>> {
    let text = content(&folder.join("steps.txt"))?;
    Ok(Log::read(&text).map_err(|no| format!("steps.txt: {no}"))?)
}

/// A line for each entry.
fn lines(folder: &Path) -> Result<String, Box<dyn Error>> {
    let (sheet, log) = (sheet(folder)?, log(folder)?);
    let rule = sheet.numbers()[TABLE - 3] as usize - 1;
    let entries = log.words().len();
    let mut verdicts = vec![0; WORDS * entries];
    judge(&sheet, log.words(), &mut verdicts)?;
    Ok((0..entries).map(|entry| format!("{entry},{}\n", u8::from(holds(&verdicts, entry, rule)))).collect())
}

fn main() -> Result<ExitCode, Box<dyn Error>> {
    let folder = std::env::args_os().nth(1).map(PathBuf::from).ok_or("usage: formula DIR")?;
    match lines(&folder) {
        Err(no) => {
            eprintln!("{no}");
            Ok(ExitCode::FAILURE)
        }
        Ok(lines) => {
            io::stdout().write_all(lines.as_bytes())?;
            Ok(ExitCode::SUCCESS)
        }
    }
}
