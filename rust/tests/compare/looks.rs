//! Which ways a rule looks.
use super::{no, Table};
use crate::checker::sheets::Sheet;
use crate::checker::stands::Stands;
use crate::kinds::Kinds;

/// Whether the rule of a table looks ahead, and whether back, where some sheet gives the table.
pub fn compare_looks(kinds: &mut Kinds, table: &Table) -> Option<[bool; 2]> {
    let ours = table.ours.rule_looks().map(|looks| [looks.ahead, looks.back]).map_err(no);
    let looks = |sheet: &Sheet| Stands::of_rule(sheet).looks();
    let theirs = table.sheet().map(looks).map_err(|q| (q, 0));
    assert_eq!(ours, theirs, "which ways the rule looks, {:?}", table.theirs);
    match ours {
        Err((q, _)) => kinds.refused("rule_looks", q),
        Ok([false, false]) => kinds.saw("rule_looks: neither way"),
        Ok([true, false]) => kinds.saw("rule_looks: ahead"),
        Ok([false, true]) => kinds.saw("rule_looks: back"),
        Ok([true, true]) => kinds.saw("rule_looks: both ways"),
    }
    ours.ok()
}
