//! Rules as text.
use super::{no, Table};
use crate::checker::printing::{length, print};
use crate::checker::sheets::{Line, Sheet};
use crate::checker::stands::Stands;
use crate::kinds::Kinds;
use std::collections::BTreeSet;

/// Random rules are written out up to so many bytes.
pub const CAP: usize = 4096;

/// Prints the rule of a table in just as many bytes as its text has, in a byte less and in some more; where the text is longer than the cap, in as
/// many bytes as that. Whether some sheet gives the table.
pub fn compare_print(kinds: &mut Kinds, table: &Table, cap: usize) -> bool {
    match table.sheet() {
        Err(q) => {
            for room in [0, 1, cap] {
                compare_room(table, room, Err(q));
            }
            kinds.refused("print_rule", q);
        }
        Ok(sheet) if length(sheet) > cap as u128 => {
            compare_room(table, cap, Err(55));
            kinds.refused("print_rule", 55);
            kinds_beyond(kinds, length(sheet));
        }
        Ok(sheet) => compare_text(kinds, table, sheet),
    }
    table.theirs.is_some()
}

fn compare_text(kinds: &mut Kinds, table: &Table, sheet: &Sheet) {
    let (text, met) = print(sheet);
    assert_eq!(text.len() as u128, length(sheet), "the independent checker's own length, {sheet:?}");
    compare_room(table, text.len(), Ok(&text));
    compare_room(table, text.len() - 1, Err(55));
    compare_room(table, text.len() + 1 + text.len() % 7, Ok(&text));
    kinds.saw("print_rule: a text that just fits");
    kinds.saw("print_rule: 55 of a byte too few");
    kinds.saw("print_rule: bytes beyond the text kept");
    kinds.saw_if(text.len() == CAP, "print_rule: a text of 4096 bytes");
    kinds.saw_if(text.len() > 65_535, "print_rule: a text of more than 65535 bytes");
    kinds_of_nodes(kinds, sheet, &met);
}

/// The rule in so many lent bytes, which is wanted to be this text or this refusal; the bytes that it does not take are kept.
fn compare_room(table: &Table, room: usize, wanted: Result<&str, u8>) {
    let before: Vec<u8> = (0..room).map(|i| !(i as u8)).collect();
    let mut bytes = before.clone();
    let answer = rozsvelen::print_rule(&table.ours, &mut bytes).map_err(no);
    assert_eq!(answer, wanted.map(str::len).map_err(|q| (q, 0)), "the rule in {room} bytes, {:?}", table.theirs);
    let text = wanted.unwrap_or_default().as_bytes();
    assert!(bytes[..text.len()] == *text, "{:?} for the rule of {:?}", String::from_utf8_lossy(&bytes), table.theirs);
    assert!(bytes[text.len()..] == before[text.len()..], "the rest of {room} bytes, {:?}", table.theirs);
}

fn kinds_beyond(kinds: &mut Kinds, length: u128) {
    kinds.saw("print_rule: 55 of a text longer than the cap");
    kinds.saw_if(length > u32::MAX.into(), "print_rule: 55 of a length that 32 bits do not hold");
    kinds.saw_if(length > u64::MAX.into(), "print_rule: 55 of a length that 64 bits do not hold");
}

/// Of the nodes in the order in which they are printed.
fn kinds_of_nodes(kinds: &mut Kinds, sheet: &Sheet, met: &[usize]) {
    let printed: BTreeSet<usize> = met.iter().copied().collect();
    let tested_only = |stands: Stands| stands.nodes.iter().any(|k| !printed.contains(k));
    for k in &printed {
        kinds.saw(match sheet.nodes[*k] {
            Line::True => "print_rule: T",
            Line::False => "print_rule: F",
            Line::Fact(..=9) => "print_rule: P",
            Line::Fact(_) => "print_rule: P of a fact above 9",
            Line::Not(_) => "print_rule: N",
            Line::And(..) => "print_rule: A",
            Line::Or(..) => "print_rule: O",
            Line::Some(..=9, _) => "print_rule: D",
            Line::Some(..) => "print_rule: D of an automaton above 9",
            Line::Every(..=9, _) => "print_rule: B",
            Line::Every(..) => "print_rule: B of an automaton above 9",
        });
    }
    kinds.saw_if(printed.len() < met.len(), "print_rule: a node printed twice");
    kinds.saw_if(printed.len() < sheet.nodes.len(), "print_rule: a node not printed");
    kinds.saw_if(tested_only(Stands::of_rule(sheet)), "print_rule: a node that only an edge tests not printed");
}
