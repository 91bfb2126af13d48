//! What the rule stands on, by recursion from the rule; which ways it looks by that; and what is left of a part's words and rows.
use super::meaning::{mask, Judged, Row};
use super::sheets::{Line, Sheet, NODES};
use std::collections::BTreeSet;

/// The nodes and the automata that a sheet's rule stands on.
pub struct Stands<'a> {
    pub sheet: &'a Sheet,
    pub nodes: BTreeSet<usize>,
    pub automata: BTreeSet<usize>,
}

impl<'a> Stands<'a> {
    pub fn of_rule(sheet: &'a Sheet) -> Stands<'a> {
        let mut stands = Stands { sheet, nodes: BTreeSet::new(), automata: BTreeSet::new() };
        stands.visit(sheet.nodes.len() - 1);
        stands
    }

    /// Takes a node in with all that it stands on, unless it was met before.
    fn visit(&mut self, k: usize) {
        if !self.nodes.insert(k) {
            return;
        }
        let sheet = self.sheet;
        match sheet.nodes[k] {
            Line::True | Line::False | Line::Fact(_) => (),
            Line::Not(a) => self.visit(a),
            Line::And(a, b) | Line::Or(a, b) => [a, b].into_iter().for_each(|n| self.visit(n)),
            Line::Some(m, a) | Line::Every(m, a) => {
                self.visit(a);
                self.automata.insert(m);
                sheet.automata[m].edges.iter().for_each(|e| self.visit(sheet.edges[*e].test));
            }
        }
    }

    /// Whether the rule looks ahead, and whether back.
    pub fn looks(&self) -> [bool; 2] {
        [1, 2].map(|dir| self.automata.iter().any(|m| self.sheet.goes(*m, dir)))
    }

    /// Question 34.
    pub fn may_cut(&self, ahead: bool) -> bool {
        let [looks_ahead, looks_back] = self.looks();
        if ahead {
            !looks_back
        } else {
            !looks_ahead
        }
    }

    /// The words of a part: bits of spare nodes are 0.
    pub fn words(&self, part: &Judged) -> Vec<u64> {
        part.words_of(|k| self.nodes.contains(&k))
    }

    /// A row as it is returned: the bits that count are as in this one, the ignored ones are 0.
    pub fn row(&self, row: Row) -> Row {
        let counting = self.counting();
        std::array::from_fn(|k| row[k] & counting[k])
    }

    /// The bits of a row that count: those of states of the D and B nodes that the rule stands on.
    pub fn counting(&self) -> Row {
        let mut row = [0; NODES];
        for &k in &self.nodes {
            if let Line::Some(m, _) | Line::Every(m, _) = self.sheet.nodes[k] {
                row[k] = mask(self.sheet.automata[m].states);
            }
        }
        row
    }
}
