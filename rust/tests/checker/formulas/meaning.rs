//! What a formula means, on the log itself: the entries that a path leads to are sets, and `*` is closed by repetition. No sheet and no automaton.
use super::{Formula, Part, Path};
use std::collections::BTreeSet;

type Entries = BTreeSet<usize>;

/// A formula being judged on a log of so many entries: `holds[k][i]` for the parts so far.
struct Judged<'a> {
    formula: &'a Formula,
    entries: usize,
    holds: Vec<Vec<bool>>,
}

/// At which entries of a log each part of a formula holds: the last is the formula.
pub fn judge(formula: &Formula, log: &[u32]) -> Vec<Vec<bool>> {
    let mut judged = Judged { formula, entries: log.len(), holds: vec![] };
    for part in &formula.parts {
        let column = log.iter().enumerate().map(|(i, word)| judged.says(*part, i, *word)).collect();
        judged.holds.push(column);
    }
    judged.holds
}

impl Judged<'_> {
    fn says(&self, part: Part, i: usize, word: u32) -> bool {
        let holds = |a: usize| self.holds[a][i];
        match part {
            Part::True => true,
            Part::Fact(f) => word >> f & 1 == 1,
            Part::Not(a) => !holds(a),
            Part::And(a, b) => holds(a) && holds(b),
            Part::Or(a, b) => holds(a) || holds(b),
            Part::Some(p, a) => self.leads(p, &Entries::from([i])).iter().any(|j| self.holds[a][*j]),
            Part::Every(p, a) => self.leads(p, &Entries::from([i])).iter().all(|j| self.holds[a][*j]),
        }
    }

    /// Where a path leads from these entries. A step's formula is asked at the entry that the step leaves.
    fn leads(&self, p: usize, from: &Entries) -> Entries {
        let leaving = |a: usize| from.iter().copied().filter(move |i| self.holds[a][*i]);
        match self.formula.paths[p] {
            Path::Ahead(a) => leaving(a).map(|i| i + 1).filter(|i| *i < self.entries).collect(),
            Path::Back(a) => leaving(a).filter_map(|i| i.checked_sub(1)).collect(),
            Path::Test(a) => leaving(a).collect(),
            Path::Then(p, q) => self.leads(q, &self.leads(p, from)),
            Path::Either(p, q) => &self.leads(p, from) | &self.leads(q, from),
            Path::Any(p) => self.leads_any(p, from),
        }
    }

    /// Where a path leads by any number of times: from all that is met it is gone again, until nothing new is met.
    fn leads_any(&self, p: usize, from: &Entries) -> Entries {
        let mut met = from.clone();
        loop {
            let more = &met | &self.leads(p, &met);
            if more == met {
                return met;
            }
            met = more;
        }
    }
}
