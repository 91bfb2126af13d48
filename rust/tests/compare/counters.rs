//! Steps between counters, and the entry that bears one.
use super::no;
use crate::checker::logs;
use crate::kinds::Kinds;

pub fn compare_steps(kinds: &mut Kinds, earlier: u16, later: u16) {
    assert_eq!(rozsvelen::steps_between(earlier, later), logs::steps_between(earlier, later), "steps from {earlier} to {later}");
    kinds.saw_if(later < earlier, "steps_between: round the turn");
}

pub fn compare_entry(kinds: &mut Kinds, first: u16, entries: usize, counter: u16) {
    let ours = rozsvelen::entry_bearing(first, entries, counter).map_err(no);
    let theirs = logs::entry_bearing(first, entries, counter).map_err(|q| (q, 0));
    assert_eq!(ours, theirs, "counter {counter} of {entries} entries from {first} on");
    match ours {
        Ok(entry) => {
            kinds.saw("entry_bearing: found");
            kinds.saw_if(usize::from(first) + entry > 65_535, "entry_bearing: found behind the turn");
            kinds.saw_if((entries, entry) == (512, 511), "entry_bearing: the last of 512");
        }
        Err((q, _)) => kinds.refused("entry_bearing", q),
    }
}
