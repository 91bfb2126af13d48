//! The sheet of a formula as text, by recursion from the whole: its lines come in the order that docs/FORMULAS.md fixes.
use super::{Formula, Part, Path};

/// The lines of a sheet so far, and how many nodes and automata they have.
struct Lines<'a> {
    formula: &'a Formula,
    text: String,
    nodes: usize,
    automata: usize,
}

/// The states of an automaton so far, and its E lines, which stand behind the lines of all that its path needs.
#[derive(Default)]
struct Automaton {
    states: usize,
    edges: String,
}

/// The states where a path starts and ends.
type Ends = (usize, usize);

/// The sheet of a formula that fits one.
pub fn sheet(formula: &Formula) -> String {
    let mut lines = Lines { formula, text: "T\n".to_string(), nodes: 1, automata: 0 };
    lines.part(formula.parts.len() - 1);
    lines.text
}

impl Lines<'_> {
    /// Writes all that a part needs, the left side first, and then its line; its node.
    fn part(&mut self, k: usize) -> usize {
        let line = match self.formula.parts[k] {
            Part::True => "T".to_string(),
            Part::Fact(f) => format!("P,{f}"),
            Part::Not(a) => format!("N,{}", self.part(a)),
            Part::And(a, b) => format!("A,{},{}", self.part(a), self.part(b)),
            Part::Or(a, b) => format!("O,{},{}", self.part(a), self.part(b)),
            Part::Some(p, a) => format!("D,{},{}", self.automaton(p), self.part(a)),
            Part::Every(p, a) => format!("B,{},{}", self.automaton(p), self.part(a)),
        };
        self.text += &format!("{line}\n");
        self.nodes += 1;
        self.nodes - 1
    }

    /// Writes the nodes of a path's formulas and then its lines M, G and E; its automaton.
    fn automaton(&mut self, p: usize) -> usize {
        let mut automaton = Automaton::default();
        let (start, end) = self.path(p, &mut automaton);
        self.text += &format!("M,{},{start}\nG,{end}\n{}", automaton.states, automaton.edges);
        self.automata += 1;
        self.automata - 1
    }

    fn path(&mut self, p: usize, automaton: &mut Automaton) -> Ends {
        match self.formula.paths[p] {
            Path::Ahead(a) => automaton.step(1, self.part(a)),
            Path::Back(a) => automaton.step(2, self.part(a)),
            Path::Test(a) => automaton.step(0, self.part(a)),
            Path::Then(p, q) => {
                let [p, q] = [p, q].map(|side| self.path(side, automaton));
                automaton.join(&[(p.1, q.0)]);
                (p.0, q.1)
            }
            Path::Either(p, q) => {
                let [p, q] = [p, q].map(|side| self.path(side, automaton));
                let (start, end) = automaton.two();
                automaton.join(&[(start, p.0), (start, q.0), (p.1, end), (q.1, end)]);
                (start, end)
            }
            Path::Any(p) => {
                let p = self.path(p, automaton);
                let (start, end) = automaton.two();
                automaton.join(&[(start, p.0), (p.1, p.0), (p.1, end), (start, end)]);
                (start, end)
            }
        }
    }
}

impl Automaton {
    /// The next two states.
    fn two(&mut self) -> Ends {
        self.states += 2;
        (self.states - 2, self.states - 1)
    }

    /// A step of this direction, by the node of its formula.
    fn step(&mut self, dir: usize, node: usize) -> Ends {
        let (start, end) = self.two();
        self.edges += &format!("E,{start},{dir},{node},{end}\n");
        (start, end)
    }

    /// Tests of node 0.
    fn join(&mut self, edges: &[Ends]) {
        for (from, to) in edges {
            self.edges += &format!("E,{from},0,0,{to}\n");
        }
    }
}
