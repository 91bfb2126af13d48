//! Judges every log of a folder by the folder's `rules.txt`, all of them in one call, and prints a line for each in the order of their names:
//! the rule's verdict at entry 0, at how many entries it holds and how many there are, or by which question the log's text is refused.
//! A sheet that is refused gives one line, `refused,number,line,field`, as on the page.
//! A log that cannot be read to its end is said on standard error; the others are judged all the same, and the program ends with status 1.
//!
//!     cargo run --example folder -- ../examples/night-batch
use rozsvelen::{holds, judge_logs, Log, Refused, Sheet, TABLE, WORDS};
use std::error::Error;
use std::fs::{read_dir, File};
use std::io::{self, Read, Write};
use std::path::{Path, PathBuf};
use std::process::ExitCode;

/// One byte more than a text may have, so that a longer one is refused by its number.
const BYTES: u64 = 49_153;

fn content(path: &Path) -> io::Result<Vec<u8>> {
    let mut bytes = vec![];
    File::open(path)?.take(BYTES).read_to_end(&mut bytes)?;
    Ok(bytes)
}

/// The sheet's text; as on the page, only a missing file counts as empty.
fn rules(path: &Path) -> io::Result<Vec<u8>> {
    match content(path) {
        Err(e) if e.kind() == io::ErrorKind::NotFound => Ok(vec![]),
        read => read,
    }
}

/// The folder's logs: every `.txt` but the sheet and, where it is said in one line too, the rule, in the order of their names.
fn logs(folder: &Path) -> io::Result<Vec<PathBuf>> {
    let all: Vec<PathBuf> = read_dir(folder)?.map(|entry| entry.map(|e| e.path())).collect::<io::Result<_>>()?;
    let is_log = |p: &PathBuf| p.extension().is_some_and(|x| x == "txt") && p.file_name().is_some_and(|n| n != "rules.txt" && n != "rule.txt");
    let mut logs: Vec<PathBuf> = all.into_iter().filter(is_log).collect();
    logs.sort();
    Ok(logs)
}

/// The logs that could be read, with their names, and whether all could be.
fn texts(folder: &Path) -> io::Result<(Vec<(String, Result<Log, Refused>)>, bool)> {
    let (mut texts, mut all_read) = (vec![], true);
    for path in logs(folder)? {
        match content(&path) {
            Ok(text) => texts.push((path.file_name().unwrap_or_default().to_string_lossy().into_owned(), Log::read(&text))),
            Err(e) => {
                eprintln!("{}: {e}", path.display());
                all_read = false;
            }
        }
    }
    Ok((texts, all_read))
}

/// A line for each log, from one judging of all those whose text is not refused.
fn print(sheet: &Sheet, texts: &[(String, Result<Log, Refused>)], out: &mut impl Write) -> Result<(), Box<dyn Error>> {
    let rule = sheet.numbers()[TABLE - 3] as usize - 1;
    let read: Vec<&[u32]> = texts.iter().flat_map(|(_, log)| log).map(Log::words).collect();
    let lengths: Vec<u16> = read.iter().map(|log| log.len() as u16).collect();
    let words = read.concat();
    let (mut verdicts, mut held) = (vec![0; WORDS * words.len()], vec![0; lengths.len()]);
    judge_logs(sheet, &words, &lengths, &mut verdicts, &mut held)?;
    let (mut first, mut held) = (0, held.iter());
    for (name, log) in texts {
        match log {
            Err(no) => writeln!(out, "{name},refused,{},{}", no.number, no.line)?,
            Ok(log) => {
                let held = held.next().expect("a count for each log that was judged");
                let verdict = u8::from(holds(&verdicts, first, rule));
                writeln!(out, "{name},rule,{verdict},held,{held},of,{}", log.words().len())?;
                first += log.words().len();
            }
        }
    }
    Ok(())
}

fn main() -> Result<ExitCode, Box<dyn Error>> {
    let folder = std::env::args_os().nth(1).map(PathBuf::from).ok_or("usage: folder DIR")?;
    let rules = rules(&folder.join("rules.txt"))?;
    let (texts, all_read) = texts(&folder)?;
    let mut out = io::BufWriter::new(io::stdout());
    match Sheet::read(&rules) {
        Err(no) => writeln!(out, "refused,{},{},{}", no.number, no.line, no.field)?,
        Ok(sheet) => print(&sheet, &texts, &mut out)?,
    }
    out.flush()?;
    Ok(if all_read { ExitCode::SUCCESS } else { ExitCode::FAILURE })
}
