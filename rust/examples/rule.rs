//! Prints the rule of a sheet as one line of text; of a sheet that is refused `refused,number,line,field`, as the page does.
//! A rule's text can be far longer than its sheet, so the buffer grows, up to 16 MB. A text that is longer is said on standard error, and the program
//! ends with status 1.
//!
//!     cargo run --example rule -- ../examples/plate-after-approval/rules.txt
use rozsvelen::{print_rule, Refused, Sheet};
use std::error::Error;
use std::fs::File;
use std::io::{self, Read, Write};
use std::path::{Path, PathBuf};

/// One byte more than a text may have, so that a longer one is refused by its number.
const BYTES: u64 = 49_153;
/// The first buffer's length, and the last one's.
const ROOM: usize = 4 << 10;
const MOST: usize = 16 << 20;

/// The sheet's text; as on the page, only a missing file counts as empty.
fn rules(path: &Path) -> io::Result<Vec<u8>> {
    let mut bytes = vec![];
    match File::open(path) {
        Err(e) if e.kind() == io::ErrorKind::NotFound => Ok(bytes),
        file => file?.take(BYTES).read_to_end(&mut bytes).map(|_| bytes),
    }
}

/// The rule's text, in a buffer that grows while the text is longer (55).
fn text(sheet: &Sheet) -> Result<Vec<u8>, Box<dyn Error>> {
    let mut text = vec![0; ROOM];
    loop {
        match print_rule(sheet, &mut text) {
            Err(Refused { number: 55, .. }) if text.len() < MOST => text.resize(4 * text.len(), 0),
            Err(Refused { number: 55, .. }) => return Err(format!("the rule's text is longer than {MOST} bytes").into()),
            answer => {
                text.truncate(answer?);
                return Ok(text);
            }
        }
    }
}

fn main() -> Result<(), Box<dyn Error>> {
    let path = std::env::args_os().nth(1).map(PathBuf::from).ok_or("usage: rule RULES")?;
    let mut line = match Sheet::read(&rules(&path)?) {
        Err(no) => format!("refused,{},{},{}", no.number, no.line, no.field).into_bytes(),
        Ok(sheet) => text(&sheet)?,
    };
    line.push(b'\n');
    io::stdout().write_all(&line)?;
    Ok(())
}
