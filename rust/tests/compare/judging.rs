//! Whole logs judged, and plain rows.
use super::{no, sets_second, tests_second, Table, SECOND};
use crate::checker::meaning::{plain, Judged};
use crate::checker::sheets::{Line, Sheet, NODES};
use crate::checker::stands::Stands;
use crate::kinds::Kinds;

/// Judges a log; whether it was accepted.
pub fn compare_judging(kinds: &mut Kinds, table: &Table, log: &[u32], judged: &Result<Judged, u8>, room: usize) -> bool {
    let before: Vec<u64> = (0..room as u64).map(|i| !i).collect();
    let mut buffer = before.clone();
    let answer = rozsvelen::judge(&table.ours, log, &mut buffer).map_err(no);
    let theirs = judged.as_ref().map_err(|q| *q).and_then(|j| if room < 2 * log.len() { Err(33) } else { Ok(j) });
    match theirs {
        Err(q) => {
            assert_eq!(answer, Err((q, 0)), "{:?} log {log:?}", table.theirs);
            assert_eq!(buffer, before, "{:?} log {log:?}", table.theirs);
            kinds.refused("judge", q);
            kinds.saw_if(q == 33 && room == 2 * log.len() - 1, "judge: 33 of one place too few");
        }
        Ok(judged) => {
            assert_eq!(answer, Ok(judged.held()), "held count, {:?} log {log:?}", table.theirs);
            assert_eq!(buffer, [&judged.words(), &before[2 * log.len()..]].concat(), "{:?} log {log:?}", table.theirs);
            kinds.saw_if(room > 2 * log.len(), "judge: places beyond the verdicts kept");
            kinds.saw_if(room % 2 == 1, "judge: an odd number of places");
            kinds.saw_if(log.len() == 512, "judge: log of 512 entries");
            kinds_of_verdicts(kinds, judged);
            kinds_of_second(kinds, judged);
        }
    }
    theirs.is_ok()
}

fn kinds_of_verdicts(kinds: &mut Kinds, judged: &Judged) {
    for (line, column) in judged.sheet.nodes.iter().zip(&judged.holds) {
        let [holds, fails] = match line {
            Line::Some(..) => ["judge: D holds", "judge: D fails"],
            Line::Every(..) => ["judge: B holds", "judge: B fails"],
            Line::Fact(4..) => ["judge: fact above 3 holds", "judge: fact above 3 fails"],
            _ => continue,
        };
        column.iter().for_each(|h| kinds.saw(if *h { holds } else { fails }));
    }
}

fn kinds_of_second(kinds: &mut Kinds, judged: &Judged) {
    let second = judged.holds.iter().skip(SECOND).flatten();
    let named = judged.sheet.nodes.iter().filter_map(|line| match line {
        Line::Some(m, _) | Line::Every(m, _) => Some(*m),
        _ => None,
    });
    kinds.saw_if(second.clone().any(|h| *h), "judge: node above 63 holds");
    kinds.saw_if(second.clone().any(|h| !*h), "judge: node above 63 fails");
    kinds.saw_if(judged.holds.len() == SECOND, "judge: sheet of 64 nodes");
    kinds.saw_if(judged.holds.len() == SECOND + 1, "judge: sheet of 65 nodes");
    kinds.saw_if(judged.holds.len() == NODES, "judge: sheet of 128 nodes");
    kinds.saw_if(tests_second(judged.sheet, named), "judge: edge tests a node above 63");
}

pub fn compare_plain_row(kinds: &mut Kinds, table: &Table) {
    let of_rule = |sheet: &Sheet| Stands::of_rule(sheet).row(plain(sheet));
    let theirs = table.sheet().map(of_rule).map_err(|q| (q, 0));
    assert_eq!(rozsvelen::plain_row(&table.ours).map_err(no), theirs, "plain row, {:?}", table.theirs);
    match theirs {
        Ok(row) => {
            kinds.saw("plain_row: given");
            kinds.saw_if(row != plain(table.sheet().unwrap()), "plain_row: 0 at a spare B");
            kinds.saw_if(sets_second(&row), "plain_row: number above 63 set");
        }
        Err((q, _)) => kinds.refused("plain_row", q),
    }
}
