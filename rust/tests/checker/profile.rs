//! The plain profile, line by line: what a new line is, is asked of the old node alone, through its N lines down to what they stand on. No new
//! line is taken from another new line.
use super::sheets::{Automaton, Edge, Line, Sheet, NODES};

/// Whether each N line names a P line.
pub fn in_profile(sheet: &Sheet) -> bool {
    sheet.nodes.iter().all(|line| match line {
        Line::Not(a) => matches!(sheet.nodes[*a], Line::Fact(_)),
        _ => true,
    })
}

/// The sheet in the profile, or 42.
pub fn profile(sheet: &Sheet) -> Result<Sheet, u8> {
    let count = sheet.nodes.len();
    let mut nodes: Vec<Line> = (0..count).flat_map(|k| [same(sheet, k), opposite(sheet, k)]).collect();
    nodes.push(same(sheet, count - 1));
    if nodes.len() > NODES {
        return Err(42);
    }
    let edges = sheet.edges.iter().map(|e| Edge { test: 2 * e.test, ..*e }).collect();
    let automata = sheet.automata.iter().map(lowered).collect();
    Ok(Sheet { nodes, automata, edges })
}

/// The line that means what node k means.
fn same(sheet: &Sheet, k: usize) -> Line {
    match sheet.nodes[k] {
        Line::Not(a) => opposite(sheet, a),
        Line::And(a, b) => Line::And(2 * a, 2 * b),
        Line::Or(a, b) => Line::Or(2 * a, 2 * b),
        Line::Some(m, a) => Line::Some(m, 2 * a),
        Line::Every(m, a) => Line::Every(m, 2 * a),
        leaf @ (Line::True | Line::False | Line::Fact(_)) => leaf,
    }
}

/// The line that means the opposite of what node k means.
fn opposite(sheet: &Sheet, k: usize) -> Line {
    match sheet.nodes[k] {
        Line::True => Line::False,
        Line::False => Line::True,
        Line::Fact(_) => Line::Not(2 * k),
        Line::Not(a) => same(sheet, a),
        Line::And(a, b) => Line::Or(2 * a + 1, 2 * b + 1),
        Line::Or(a, b) => Line::And(2 * a + 1, 2 * b + 1),
        Line::Some(m, a) => Line::Every(m, 2 * a + 1),
        Line::Every(m, a) => Line::Some(m, 2 * a + 1),
    }
}

/// An automaton at its place: above its M line there are now two lines for each node, so that line lies that much lower.
fn lowered(x: &Automaton) -> Automaton {
    Automaton { line: x.line + x.nodes_above as u32, nodes_above: 2 * x.nodes_above, ..x.clone() }
}
