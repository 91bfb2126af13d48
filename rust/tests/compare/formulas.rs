//! Formulas read to sheets: refusals and their places; the table against the sheet that docs/FORMULAS.md fixes; and verdicts by that table against
//! what the formula means on the log.
use super::printing::{compare_print, CAP};
use super::Table;
use crate::checker::formulas::meaning::judge;
use crate::checker::formulas::{self, goes_on, numbering, written, Counts, Formula, Part, Path, BYTES, DEPTH, MOST};
use crate::checker::meaning::two_words;
use crate::checker::{printing, sheets, No};
use crate::kinds::Kinds;
use rozsvelen::Sheet;
use std::iter::once;

/// No longer text fits a sheet: 14 path marks over eight steps each make all nodes but two, and each leaf is in as many brackets as may be open.
const LONGEST: usize = 4082;

/// Reads a text, and judges a log of 1 to 512 entries by the sheet that is made of it.
pub fn compare_formula(kinds: &mut Kinds, text: &[u8], log: &[u32]) {
    let ours = from_formula(text);
    match formulas::read(text) {
        Err(no) => {
            assert_eq!(ours.err(), Some(no), "formula {:?}", String::from_utf8_lossy(text));
            kinds.refused("from_formula", no.0);
            kinds_of_refused(kinds, text, no);
        }
        Ok(formula) => {
            let sheet = ours.unwrap_or_else(|no| panic!("formula {:?} refused by {no:?}", String::from_utf8_lossy(text)));
            kinds.saw("from_formula: read");
            compare_table(kinds, text, &sheet, &formula);
            compare_verdicts(kinds, text, &sheet, &formula, log);
            kinds_of_text(kinds, text);
            kinds_of_formula(kinds, &formula);
            kinds_of_most(kinds, &formula.counts());
        }
    }
}

fn from_formula(text: &[u8]) -> Result<Sheet, No> {
    Sheet::from_formula(text).map_err(|no| (no.number, no.place))
}

/// The table is that of the sheet written out line by line; its rule is printed; and where it has no path mark, what is printed reads to it again.
fn compare_table(kinds: &mut Kinds, text: &[u8], sheet: &Sheet, formula: &Formula) {
    let lines = numbering::sheet(formula);
    let theirs = sheets::read(lines.as_bytes()).unwrap_or_else(|no| panic!("{lines:?} refused by {no:?}"));
    let case = || format!("the table of {:?}, sheet {lines:?}", String::from_utf8_lossy(text));
    assert!(Sheet::read(lines.as_bytes()).as_ref() == Ok(sheet), "{}", case());
    assert!(theirs.numbers() == *sheet.numbers(), "{}", case());
    if formula.paths.is_empty() {
        let (printed, _) = printing::print(&theirs);
        let again = from_formula(printed.as_bytes());
        assert!(again.map_err(|no| no.0) == if depth_of(printed.as_bytes()) > DEPTH { Err(52) } else { Ok(sheet.clone()) }, "{printed:?} again");
        kinds.saw("from_formula: a printed rule");
    }
    let table = Table { ours: sheet.clone(), theirs: Some(theirs) };
    assert!(compare_print(kinds, &table, CAP), "the rule of {}", case());
}

/// The verdicts of all nodes, the rule's among them: node 0 holds everywhere, and behind it stand the formula's parts in their order.
fn compare_verdicts(kinds: &mut Kinds, text: &[u8], sheet: &Sheet, formula: &Formula, log: &[u32]) {
    let columns = judge(formula, log);
    let rule = columns.last().unwrap();
    let mut verdicts = vec![0; 2 * log.len()];
    let held = rozsvelen::judge(sheet, log, &mut verdicts);
    let case = || format!("{:?} on {log:?}", String::from_utf8_lossy(text));
    assert_eq!(held, Ok(rule.iter().filter(|h| **h).count()), "entries held, {}", case());
    let by_sheet: Vec<bool> = (0..log.len()).map(|i| rozsvelen::holds(&verdicts, i, columns.len())).collect();
    assert_eq!(by_sheet, *rule, "the rule, {}", case());
    let wanted: Vec<u64> = (0..log.len()).flat_map(|i| two_words(once(true).chain(columns.iter().map(|column| column[i])))).collect();
    assert_eq!(verdicts, wanted, "all nodes, {}", case());
    kinds.saw_if(rule.contains(&true), "from_formula: rule holds");
    kinds.saw_if(rule.contains(&false), "from_formula: rule fails");
}

/// How many marks are open at most, in a text that writes a formula.
fn depth_of(text: &[u8]) -> usize {
    (0..=text.len()).map(|end| open_in(&text[..end])).max().unwrap()
}

/// How many marks a text leaves open that closes none but open ones.
fn open_in(text: &[u8]) -> usize {
    let count = |marks: &[u8]| text.iter().filter(|b| marks.contains(b)).count();
    count(b"({<[") - count(b")}>]")
}

fn kinds_of_text(kinds: &mut Kinds, text: &[u8]) {
    kinds.saw_if(depth_of(text) == DEPTH, "from_formula: depth 16");
    kinds.saw_if(text.len() > 3900, "from_formula: over 3900 bytes");
    kinds.saw_if(depth_of(text) == DEPTH && text.len() == LONGEST, "from_formula: depth 16 and 4082 bytes");
}

fn kinds_of_formula(kinds: &mut Kinds, formula: &Formula) {
    let is_test = |path: &Path| matches!(path, Path::Test(_));
    for part in &formula.parts {
        kinds.saw(match part {
            Part::True => "from_formula: true",
            Part::Fact(..=9) => "from_formula: a fact up to 9",
            Part::Fact(10..=30) => "from_formula: a fact from 10 to 30",
            Part::Fact(_) => "from_formula: fact 31",
            Part::Not(_) => "from_formula: !",
            Part::And(..) => "from_formula: &",
            Part::Or(..) => "from_formula: |",
            Part::Some(..) => "from_formula: < >",
            Part::Every(..) => "from_formula: [ ]",
        });
    }
    for path in &formula.paths {
        let any = |p: usize| matches!(formula.paths[p], Path::Any(_));
        kinds.saw(match *path {
            Path::Ahead(_) => "from_formula: a step ahead",
            Path::Back(_) => "from_formula: a step back",
            Path::Test(a) if formula.has(a, &is_test) => "from_formula: a test within a test",
            Path::Test(a) if formula.has(a, &|_| true) => "from_formula: a path mark within a test",
            Path::Test(_) => "from_formula: a test",
            Path::Then(..) => "from_formula: ;",
            Path::Either(..) => "from_formula: +",
            Path::Any(p) if any(p) => "from_formula: * on *",
            Path::Any(_) => "from_formula: *",
        });
    }
}

/// Sheet limits that are just met.
fn kinds_of_most(kinds: &mut Kinds, counts: &Counts) {
    kinds.saw_if(counts.nodes == MOST.nodes, "from_formula: 128 nodes");
    kinds.saw_if(counts.automata == MOST.automata, "from_formula: 16 automata");
    kinds.saw_if(counts.states == MOST.states, "from_formula: 16 states");
    kinds.saw_if(counts.edges == MOST.edges, "from_formula: 256 edges");
}

fn kinds_of_refused(kinds: &mut Kinds, text: &[u8], (number, place): No) {
    match number {
        50 => kinds.saw_if(text.len() == BYTES + 1 && goes_on(text, DEPTH).is_ok(), "from_formula: 50 of a formula of 4097 bytes"),
        51 => kinds_of_51(kinds, &text[..place as usize], text.get(place as usize)),
        52 => {
            kinds.saw_if(goes_on(text, DEPTH + 1).is_ok(), "from_formula: 52 of a formula of depth 17");
            kinds.saw_if(goes_on(text, BYTES).is_err(), "from_formula: 52 before a byte that would be 51");
        }
        54 => kinds_of_54(kinds, &written(text)),
        _ => kinds_of_53(kinds, text, &written(text).counts()),
    }
}

/// Of what stands before the place, and the byte there.
fn kinds_of_51(kinds: &mut Kinds, before: &[u8], byte: Option<&u8>) {
    let Some(byte) = byte else {
        kinds.saw("from_formula: 51 at the text's end");
        kinds.saw_if(before.is_empty(), "from_formula: 51 of the empty text");
        return kinds.saw_if(open_in(before) > 0, "from_formula: 51 at the text's end with marks open");
    };
    kinds.saw(if before.is_empty() { "from_formula: 51 at 0" } else { "from_formula: 51 in the middle" });
    kinds.saw_if([&b"t"[..], b"tr", b"tru"].iter().any(|word| before.ends_with(word)), "from_formula: 51 within true");
    kinds.saw_if(before.ends_with(b"f0") && byte.is_ascii_digit(), "from_formula: 51 of a padded fact");
    kinds.saw_if(before.ends_with(b"f3") && byte.is_ascii_digit(), "from_formula: 51 of a fact above 31");
    kinds.saw_if(before.ends_with(b"*") && b"-?".contains(byte), "from_formula: 51 of - or ? behind *");
    kinds.saw_if(open_in(before) == DEPTH && b"({<[".contains(byte), "from_formula: 51 of a mark that would be the 17th");
    kinds.saw_if(*byte > 127, "from_formula: 51 of a byte above 127");
}

fn kinds_of_54(kinds: &mut Kinds, formula: &Formula) {
    let has_mark = |a: usize| formula.has(a, &|_| true);
    kinds.saw_if(formula.paths.iter().any(|p| matches!(p, Path::Ahead(a) if has_mark(*a))), "from_formula: 54 of a step ahead");
    kinds.saw_if(formula.paths.iter().any(|p| matches!(p, Path::Back(a) if has_mark(*a))), "from_formula: 54 of a step back");
    kinds.saw_if(!formula.counts().fit(), "from_formula: 54 of a formula over a sheet limit");
}

/// Sheet limits that are just passed, and no other. States come in twos.
fn kinds_of_53(kinds: &mut Kinds, text: &[u8], counts: &Counts) {
    let fits_with = |changed: Counts| changed.fit();
    kinds.saw_if(counts.nodes == MOST.nodes + 1 && fits_with(Counts { nodes: 1, ..*counts }), "from_formula: 53 of 129 nodes");
    kinds.saw_if(counts.automata == MOST.automata + 1 && fits_with(Counts { automata: 1, ..*counts }), "from_formula: 53 of 17 automata");
    kinds.saw_if(counts.states == MOST.states + 2 && fits_with(Counts { states: 1, ..*counts }), "from_formula: 53 of 18 states");
    kinds.saw_if(counts.edges == MOST.edges + 1 && fits_with(Counts { edges: 1, ..*counts }), "from_formula: 53 of 257 edges");
    kinds.saw_if(text.starts_with(&[b'!'; 1001]), "from_formula: 53 of over 1000 ! in a row");
    kinds.saw_if(text.len() == BYTES, "from_formula: 53 of 4096 bytes");
}
