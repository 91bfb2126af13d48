//! Many logs of one sheet judged in one call.
use super::{no, Table, SECOND};
use crate::checker::meaning::{plain, Judged};
use crate::checker::sheets::Sheet;
use crate::checker::No;
use crate::kinds::Kinds;

/// Logs to be judged: their words one after the other, how many each has, and how many places are lent for the verdicts and the counts.
pub struct Logs<'a> {
    pub words: &'a [u32],
    pub lengths: &'a [u16],
    pub rooms: [usize; 2],
}

impl Logs<'_> {
    fn questions<'a>(&self, table: &'a Table) -> Result<&'a Sheet, No> {
        let sheet = table.sheet().map_err(|q| (q, 0))?;
        let mut left = self.words.len();
        for (number, n) in (1..).zip(self.lengths) {
            let n = *n as usize;
            if number > 65_535 || !(1..=512).contains(&n) || n > left {
                return Err((32, number));
            }
            left -= n;
        }
        if left > 0 {
            return Err((32, self.lengths.len() as u32 + 1));
        }
        let mut room = self.rooms[0];
        for (number, n) in (1..).zip(self.lengths) {
            let places = 2 * *n as usize;
            if places > room || number as usize > self.rooms[1] {
                return Err((33, number));
            }
            room -= places;
        }
        Ok(sheet)
    }

    /// The verdicts of each log judged alone, one after the other, and the count of each.
    fn judged(&self, sheet: &Sheet) -> (Vec<u64>, Vec<u16>) {
        let (mut verdicts, mut held, mut left) = (vec![], vec![], self.words);
        for n in self.lengths {
            let (log, rest) = left.split_at(*n as usize);
            let judged = Judged::new(sheet, log, plain(sheet));
            verdicts.extend(judged.words());
            held.push(judged.held() as u16);
            left = rest;
        }
        (verdicts, held)
    }
}

/// Judges the logs; whether they were accepted.
pub fn compare_logs(kinds: &mut Kinds, table: &Table, logs: &Logs) -> bool {
    let before: (Vec<u64>, Vec<u16>) = ((0..logs.rooms[0] as u64).map(|i| !i).collect(), (0..logs.rooms[1]).map(|i| !(i as u16)).collect());
    let (mut verdicts, mut held) = before.clone();
    let answer = rozsvelen::judge_logs(&table.ours, logs.words, logs.lengths, &mut verdicts, &mut held).map_err(no);
    let case = || format!("{:?} words {:?} lengths {:?} in {:?} places", table.theirs, logs.words, logs.lengths, logs.rooms);
    match logs.questions(table) {
        Err(refusal) => {
            assert_eq!(answer, Err(refusal), "{}", case());
            assert!((verdicts, held) == before, "{}", case());
            kinds_of_refusal(kinds, logs, refusal);
            false
        }
        Ok(sheet) => {
            assert_eq!(answer, Ok(()), "{}", case());
            let theirs = logs.judged(sheet);
            assert!(verdicts == [&theirs.0, &before.0[theirs.0.len()..]].concat(), "verdicts, {}", case());
            assert!(held == [&theirs.1, &before.1[theirs.1.len()..]].concat(), "held, {}", case());
            kinds_of_logs(kinds, logs);
            kinds.saw_if(logs.lengths.len() > 1 && sheet.nodes.len() > SECOND, "judge_logs: several logs of a rule above 63");
            true
        }
    }
}

fn kinds_of_logs(kinds: &mut Kinds, logs: &Logs) {
    kinds.saw(match logs.lengths.len() {
        0 => "judge_logs: no log",
        1 => "judge_logs: one log",
        65_535 => "judge_logs: 65535 logs",
        _ => "judge_logs: several logs",
    });
    kinds.saw_if(logs.lengths.contains(&512), "judge_logs: log of 512 entries");
    kinds.saw_if(logs.words.len() > 512, "judge_logs: more than 512 entries in all");
    kinds.saw_if(logs.rooms[0] > 2 * logs.words.len(), "judge_logs: places beyond the verdicts kept");
    kinds.saw_if(logs.rooms[1] > logs.lengths.len(), "judge_logs: places beyond the counts kept");
}

fn kinds_of_refusal(kinds: &mut Kinds, logs: &Logs, (number, line): No) {
    kinds.refused("judge_logs", number);
    match number {
        32 => kinds.saw(match logs.lengths.get(line as usize - 1) {
            None => "judge_logs: 32 of words left over",
            Some(_) if line > 65_535 => "judge_logs: 32 of log 65536",
            Some(0) => "judge_logs: 32 of a log without entries",
            Some(513..) => "judge_logs: 32 of more than 512 entries",
            Some(_) => "judge_logs: 32 of entries that are not there",
        }),
        33 => kinds.saw(if logs.rooms[0] < 2 * logs.words.len() { "judge_logs: 33 of the verdicts" } else { "judge_logs: 33 of the counts" }),
        _ => (),
    }
    kinds.saw_if(number == 32 && (2..=65_535).contains(&line), "judge_logs: 32 of a log after the first");
    kinds.saw_if(number == 33 && logs.rooms[0] + 1 == 2 * logs.words.len(), "judge_logs: 33 of one place too few");
}
