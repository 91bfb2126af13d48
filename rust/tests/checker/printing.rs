//! The rule as text, by a stack of what is still to be written; and its length, by sums alone.
use super::sheets::{Line, Sheet};

/// What is still to be written: a node, or bytes as they stand.
enum Due {
    Node(usize),
    Bytes(String),
}

/// The rule's text, and the nodes in the order in which they are met: one that is named twice is met twice.
pub fn print(sheet: &Sheet) -> (String, Vec<usize>) {
    let (mut text, mut met) = (String::new(), vec![]);
    let mut due = vec![Due::Node(sheet.nodes.len() - 1)];
    while let Some(next) = due.pop() {
        match next {
            Due::Bytes(bytes) => text += &bytes,
            Due::Node(k) => {
                met.push(k);
                // the first piece comes to lie on top
                due.extend(pieces(sheet.nodes[k]).into_iter().rev());
            }
        }
    }
    (text, met)
}

fn pieces(line: Line) -> Vec<Due> {
    let bytes = |text: &str| Due::Bytes(text.to_string());
    let both = |a: usize, sign: &str, b: usize| vec![bytes("("), Due::Node(a), bytes(sign), Due::Node(b), bytes(")")];
    let one = |before: &str, a: usize| vec![bytes(before), Due::Node(a), bytes(")")];
    match line {
        Line::True => vec![bytes("true")],
        Line::False => vec![bytes("false")],
        Line::Fact(f) => vec![bytes(&format!("f{f}"))],
        Line::Not(a) => one("(!", a),
        Line::And(a, b) => both(a, "&", b),
        Line::Or(a, b) => both(a, "|", b),
        Line::Some(m, a) => one(&format!("(<m{m}>"), a),
        Line::Every(m, a) => one(&format!("([m{m}]"), a),
    }
}

/// How many bytes the rule's text has; where they are too many for a number, the largest one.
pub fn length(sheet: &Sheet) -> u128 {
    let mut lengths: Vec<u128> = vec![];
    for line in &sheet.nodes {
        let (signs, named) = match *line {
            Line::True => (4, vec![]),
            Line::False => (5, vec![]),
            Line::Fact(f) => (1 + digits(f), vec![]),
            Line::Not(a) => (3, vec![a]),
            Line::And(a, b) | Line::Or(a, b) => (3, vec![a, b]),
            Line::Some(m, a) | Line::Every(m, a) => (5 + digits(m), vec![a]),
        };
        lengths.push(named.iter().fold(signs, |sum: u128, k| sum.saturating_add(lengths[*k])));
    }
    lengths[sheet.nodes.len() - 1]
}

/// How many digits a fact's or an automaton's number has.
fn digits(n: usize) -> u128 {
    if n < 10 {
        1
    } else {
        2
    }
}
