//! The plain profile of a table, the verdicts of its nodes, and whether a table is in the profile.
use super::looks::compare_looks;
use super::{no, Table, SECOND};
use crate::checker::meaning::{two_words, Judged};
use crate::checker::profile;
use crate::checker::sheets::{Line, Sheet};
use crate::kinds::Kinds;

/// Makes the profile of a table and judges a log of 1 to 512 entries by it; the profile's table, where it is made.
pub fn compare_profile(kinds: &mut Kinds, table: &Table, log: &[u32]) -> Option<Table> {
    compare_in_profile(kinds, table);
    let ours = table.ours.profile().map(|s| *s.numbers()).map_err(no);
    let theirs = table.sheet().and_then(profile::profile).map(|s| s.numbers()).map_err(|q| (q, 0));
    assert_eq!(ours, theirs, "profile of {:?}", table.theirs);
    match ours {
        Err((q, _)) => {
            kinds.refused("profile", q);
            None
        }
        Ok(numbers) => {
            let made = Table::from_numbers(numbers);
            assert_eq!(compare_in_profile(kinds, &made), Some(true), "profile of {:?}", table.theirs);
            assert_eq!(compare_looks(kinds, &made), compare_looks(kinds, table), "the ways that the profile looks, {:?}", table.theirs);
            compare_verdicts(&made, &table.judged(log).unwrap());
            kinds_of_sheet(kinds, table.sheet().unwrap());
            Some(made)
        }
    }
}

/// Whether a table that some sheet gives is in the profile.
fn compare_in_profile(kinds: &mut Kinds, table: &Table) -> Option<bool> {
    let ours = table.ours.is_in_profile().map_err(no);
    let theirs = table.sheet().map(profile::in_profile).map_err(|q| (q, 0));
    assert_eq!(ours, theirs, "whether {:?} is in the profile", table.theirs);
    match ours {
        Ok(yes) => kinds.saw(if yes { "in_profile: yes" } else { "in_profile: no" }),
        Err((q, _)) => kinds.refused("in_profile", q),
    }
    ours.ok()
}

/// The product's verdicts by a profile are the independent checker's by the sheet that the profile was made of: those of old node k at node 2k, the
/// opposite ones at node 2k + 1, and the rule's at the last.
fn compare_verdicts(made: &Table, old: &Judged) {
    let mut verdicts = vec![0; 2 * old.log.len()];
    let held = rozsvelen::judge(&made.ours, old.log, &mut verdicts).map_err(no);
    let case = || format!("by the profile of {:?} log {:?}", old.sheet, old.log);
    assert_eq!(held, Ok(old.held()), "held count {}", case());
    let wanted: Vec<u64> = (0..old.log.len()).flat_map(|i| doubled(old, i)).collect();
    assert_eq!(verdicts, wanted, "verdicts {}", case());
}

/// The words of a profile at an entry, from the verdicts of the old nodes.
fn doubled(old: &Judged, i: usize) -> [u64; 2] {
    let both = old.holds.iter().flat_map(|column| [column[i], !column[i]]);
    let rule = old.holds.last().map(|column| column[i]);
    two_words(both.chain(rule))
}

fn kinds_of_sheet(kinds: &mut Kinds, sheet: &Sheet) {
    let nodes = &sheet.nodes;
    // what an N line stands on
    let under = |line: &Line| if let Line::Not(a) = line { Some(nodes[*a]) } else { None };
    let rule_under = nodes.last().and_then(under);
    kinds.saw("profile: made");
    kinds.saw_if(nodes.iter().filter_map(under).any(|l| matches!(l, Line::Not(_))), "profile: of a sheet with an N on an N");
    kinds.saw_if(matches!(rule_under, Some(Line::Some(..) | Line::Every(..))), "profile: of a sheet whose rule is an N on a D or B");
    kinds.saw_if(sheet.edges.iter().any(|e| matches!(nodes[e.test], Line::Not(_))), "profile: an edge that tests an N line");
    kinds.saw_if(2 * nodes.len() > SECOND, "profile: has nodes above 63");
    kinds.saw_if(nodes.len() == 63, "profile: of 63 nodes");
}
