//! Judges a job shift by shift, handing the row on, and compares with judging the whole log. The folder has the sheet, `rules.txt`; the shifts,
//! `shift-1.txt` to `shift-3.txt`; and the whole log, `steps.txt`. Which way the shifts are judged is asked of the rule.
//!
//!     cargo run --example shifts                                   the long job, ../examples/long-job-in-shifts
//!     cargo run --example shifts -- ../examples/spare-automaton    another folder
use rozsvelen::{holds, judge, judge_part, plain_row, Log, Looks, Sheet, Way, TABLE, WORDS};
use std::error::Error;
use std::path::{Path, PathBuf};

fn in_words(looks: Looks) -> &'static str {
    match (looks.ahead, looks.back) {
        (true, true) => "both ways",
        (true, false) => "ahead and not back",
        (false, true) => "back and not ahead",
        (false, false) => "neither way",
    }
}

fn log(folder: &Path, name: &str) -> Result<Log, Box<dyn Error>> {
    Ok(Log::read(&std::fs::read(folder.join(name))?)?)
}

/// The rule's verdicts: in parts the other nodes have theirs only where the rule stands on them.
fn of_rule(sheet: &Sheet, verdicts: &[u64]) -> Vec<u8> {
    let rule = sheet.numbers()[TABLE - 3] as usize - 1;
    (0..verdicts.len() / WORDS).map(|entry| u8::from(holds(verdicts, entry, rule))).collect()
}

/// The rule's verdicts at the entries of all shifts, in the order of the log.
fn by_shifts(sheet: &Sheet, folder: &Path, way: Way) -> Result<Vec<u8>, Box<dyn Error>> {
    let mut shifts = ["shift-1.txt", "shift-2.txt", "shift-3.txt"];
    if way == Way::Ahead {
        shifts.reverse();
    }
    let mut row = plain_row(sheet)?;
    let mut judged = vec![];
    for shift in shifts {
        let log = log(folder, shift)?;
        let mut verdicts = vec![0; WORDS * log.words().len()];
        row = judge_part(sheet, way, &row, log.words(), &mut verdicts)?;
        let verdicts = of_rule(sheet, &verdicts);
        println!("{shift}: {verdicts:?}");
        judged.push(verdicts);
    }
    if way == Way::Ahead {
        judged.reverse();
    }
    Ok(judged.concat())
}

fn main() -> Result<(), Box<dyn Error>> {
    let long_job = concat!(env!("CARGO_MANIFEST_DIR"), "/../examples/long-job-in-shifts");
    let folder = std::env::args_os().nth(1).map_or(long_job.into(), PathBuf::from);
    let sheet = Sheet::read(&std::fs::read(folder.join("rules.txt"))?)?;
    let looks = sheet.rule_looks()?;
    let way = [Way::Ahead, Way::Back].into_iter().find(|way| looks.may_cut(*way)).ok_or("the rule looks both ways: its log cannot be cut")?;
    let order = if way == Way::Ahead { "last to the first" } else { "first to the last" };
    println!("the rule looks {}: the shifts are judged from the {order}", in_words(looks));
    let by_shifts = by_shifts(&sheet, &folder, way)?;

    let log = log(&folder, "steps.txt")?;
    let mut whole = vec![0; WORDS * log.words().len()];
    let held = judge(&sheet, log.words(), &mut whole)?;
    assert_eq!(by_shifts, of_rule(&sheet, &whole), "cutting a log changes no verdict of the rule");
    println!("the rule holds at {held} of {} entries, by shifts and whole", log.words().len());
    Ok(())
}
