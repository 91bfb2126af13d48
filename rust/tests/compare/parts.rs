//! Parts judged, and runs of them.
use super::{no, sets_second, tests_second, Table, SECOND};
use crate::checker::meaning::{plain, Judged, Row};
use crate::checker::sheets::{Line, NODES};
use crate::checker::stands::Stands;
use crate::kinds::Kinds;
use rozsvelen::Way;

/// A part to be judged: which way, the row beside it, its words, and how many places are lent for its verdicts.
pub struct Part<'a> {
    pub ahead: bool,
    pub row: Row,
    pub words: &'a [u32],
    pub room: usize,
}

impl Part<'_> {
    /// What the rule stands on, where the part is accepted.
    fn questions<'a>(&self, table: &'a Table) -> Result<Stands<'a>, u8> {
        let stands = Stands::of_rule(table.sheet()?);
        if !stands.may_cut(self.ahead) {
            Err(34)
        } else if self.words.len() > 512 {
            Err(32)
        } else if self.room < 2 * self.words.len() {
            Err(33)
        } else {
            Ok(stands)
        }
    }
}

/// Judges a part: the verdicts and the row, where it is accepted.
pub fn compare_part(kinds: &mut Kinds, table: &Table, part: &Part) -> Option<(Vec<u64>, Row)> {
    let before: Vec<u64> = (0..part.room as u64).map(|i| !i).collect();
    let mut buffer = before.clone();
    let way = if part.ahead { Way::Ahead } else { Way::Back };
    let answer = rozsvelen::judge_part(&table.ours, way, &part.row, part.words, &mut buffer).map_err(no);
    let case = || format!("{:?} words {:?} row {:?}", table.theirs, part.words, part.row);
    match part.questions(table) {
        Err(q) => {
            assert_eq!(answer, Err((q, 0)), "{}", case());
            assert_eq!(buffer, before, "{}", case());
            kinds.refused("judge_part", q);
            kinds.saw_if(q == 33 && part.room == 2 * part.words.len() - 1, "judge_part: 33 of one place too few");
            None
        }
        Ok(stands) => {
            let judged = Judged::new(stands.sheet, part.words, part.row);
            let next = stands.row(judged.next_row(part.ahead));
            let verdicts = stands.words(&judged);
            assert_eq!(answer, Ok(next), "the row of a part, {}", case());
            assert_eq!(buffer, [&verdicts, &before[verdicts.len()..]].concat(), "a part, {}", case());
            kinds_of_part(kinds, part);
            kinds_of_spares(kinds, &stands, part);
            kinds_of_second(kinds, &stands, part, &next);
            Some((verdicts, next))
        }
    }
}

fn kinds_of_part(kinds: &mut Kinds, part: &Part) {
    kinds.saw(if part.ahead { "judge_part: ahead" } else { "judge_part: back" });
    kinds.saw_if(part.words.is_empty(), "judge_part: no entry");
    kinds.saw_if(part.words.len() == 512, "judge_part: 512 entries");
    kinds.saw_if(part.room > 2 * part.words.len(), "judge_part: places beyond the verdicts kept");
}

fn kinds_of_spares(kinds: &mut Kinds, stands: &Stands, part: &Part) {
    let sheet = stands.sheet;
    let spare: Vec<usize> = (0..sheet.nodes.len()).filter(|k| !stands.nodes.contains(k)).collect();
    let given = |k: &usize| match sheet.nodes[*k] {
        Line::Every(m, _) => part.row[*k] >> sheet.automata[m].start & 1 == 1,
        _ => false,
    };
    // of an accepted part only a spare automaton has edges of the other direction
    let (other, other_way) = if part.ahead {
        (2, "judge_part: the rule looks ahead, a spare automaton back")
    } else {
        (1, "judge_part: the rule looks back, a spare automaton ahead")
    };
    let spare_looks = (0..sheet.automata.len()).any(|m| sheet.goes(m, other));
    kinds.saw(if spare.is_empty() { "judge_part: no spare node" } else { "judge_part: a spare node" });
    kinds.saw_if(spare.iter().any(given), "judge_part: a spare B's bit given, and 0 in the next row");
    kinds.saw_if(spare_looks && stands.looks() != [false, false], other_way);
}

fn kinds_of_second(kinds: &mut Kinds, stands: &Stands, part: &Part, next: &Row) {
    let set = if part.ahead { "judge_part: ahead, row number above 63 set" } else { "judge_part: back, row number above 63 set" };
    kinds.saw_if(stands.sheet.nodes.len() > SECOND, "judge_part: rule above 63");
    kinds.saw_if(sets_second(&stands.row(part.row)), "judge_part: row number above 63 given");
    kinds.saw_if(sets_second(next), set);
    kinds.saw_if(tests_second(stands.sheet, stands.automata.iter().copied()), "judge_part: edge tests a node above 63");
}

/// Parts of a run, each with the places lent for its verdicts; and the bits that each call finds in the ignored places of its row.
pub struct Run<'a> {
    pub ahead: bool,
    pub parts: &'a [(Vec<u32>, usize)],
    pub ignored: Row,
}

/// A run over these parts; how many entries the joined log has.
pub fn compare_run(kinds: &mut Kinds, table: &Table, run: &Run) -> usize {
    let stands = Stands::of_rule(table.sheet().unwrap());
    let counting = stands.counting();
    let mut row = rozsvelen::plain_row(&table.ours).unwrap();
    let mut joined: Vec<u32> = vec![];
    let mut verdicts: Vec<u64> = vec![];
    for (words, room) in run.parts {
        let given = std::array::from_fn(|k| row[k] & counting[k] | run.ignored[k] & !counting[k]);
        match compare_part(kinds, table, &Part { ahead: run.ahead, row: given, words, room: *room }) {
            None => kinds.saw("run: a refused call among them"),
            Some((part, next)) => {
                kinds.saw_if(!joined.is_empty() && !words.is_empty() && sets_second(&row), "run: row number above 63 handed on");
                row = next;
                let (words, part) = (&words[..], &part[..]);
                (joined, verdicts) = if run.ahead {
                    ([words, &joined].concat(), [part, &verdicts].concat())
                } else {
                    ([&joined, words].concat(), [&verdicts, part].concat())
                };
            }
        }
    }
    let whole = Judged::new(stands.sheet, &joined, plain(stands.sheet));
    let case = || format!("{:?} joined {joined:?} ignored {:?}", stands.sheet, run.ignored);
    assert_eq!(verdicts, stands.words(&whole), "a run, {}", case());
    assert_eq!(row, stands.row(whole.next_row(run.ahead)), "a run's row, {}", case());
    kinds.saw("run: equal to the whole log");
    kinds.saw_if(run.ignored != [0; NODES], "run: ignored bits of the row set");
    kinds.saw_if(joined.len() > 512, "run: more than 512 entries");
    joined.len()
}
