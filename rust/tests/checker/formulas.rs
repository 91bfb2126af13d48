//! Formulas as text: 50 to 54, and the formula that a text writes. Which byte may come next is asked of the byte before it and of the mark that is
//! innermost of those open; the formula then comes by what is whole and what is due on stacks; 54 and 53 by counts over it.
pub mod meaning;
pub mod numbering;

use super::sheets::NODES;
use super::No;

/// A text has at most so many bytes, and so many marks open at once.
pub const BYTES: usize = 4096;
pub const DEPTH: usize = 16;

/// A part of a formula; it names other parts, and a path, by their places.
#[derive(Clone, Copy, Debug, PartialEq, Eq)]
pub enum Part {
    True,
    Fact(usize),
    Not(usize),
    And(usize, usize),
    Or(usize, usize),
    Some(usize, usize),
    Every(usize, usize),
}

/// A path; it names paths and parts by their places.
#[derive(Clone, Copy, Debug, PartialEq, Eq)]
pub enum Path {
    Ahead(usize),
    Back(usize),
    Test(usize),
    Then(usize, usize),
    Either(usize, usize),
    Any(usize),
}

/// A formula as its parts and paths, each behind those that it names: the last part is the whole.
#[derive(Debug, Default)]
pub struct Formula {
    pub parts: Vec<Part>,
    pub paths: Vec<Path>,
}

/// What the sheet of a formula has: nodes, automata, the states of its largest automaton, and edges.
#[derive(Debug, PartialEq, Eq)]
pub struct Counts {
    pub nodes: usize,
    pub automata: usize,
    pub states: usize,
    pub edges: usize,
}

/// As much as a sheet may have.
pub const MOST: Counts = Counts { nodes: NODES, automata: 16, states: 16, edges: 256 };

/// The formula that a text writes, or the first refusal and its place.
pub fn read(text: &[u8]) -> Result<Formula, No> {
    if text.len() > BYTES {
        return Err((50, 0));
    }
    goes_on(text, DEPTH)?;
    let formula = written(text);
    if formula.has_modal_step() {
        return Err((54, 0));
    }
    if !formula.counts().fit() {
        return Err((53, 0));
    }
    Ok(formula)
}

/// The formula that a text writes which goes on to its end.
pub fn written(text: &[u8]) -> Formula {
    let mut reader = Reader::default();
    let mut rest = text;
    while let [byte, behind @ ..] = rest {
        rest = reader.take(*byte, behind);
    }
    reader.join(1);
    reader.formula
}

/// A mark that is open: brackets of a formula or of a path, a step, or a path mark.
#[derive(Clone, Copy, PartialEq, Eq)]
enum Mark {
    Formula,
    Path,
    Step,
    Some,
    Every,
}

/// What the text has come to: a formula or a path is due, a word or a number is begun, or one of them is whole.
#[derive(Clone, Copy)]
enum Last {
    FormulaDue,
    /// The letters that are due.
    Word(&'static [u8]),
    NumberDue,
    /// The digits that may still follow, or anything that may follow a formula.
    Number(&'static [u8]),
    PathDue,
    /// A step's `}`, which `-` or `?` may follow.
    Step,
    Path,
}

const FORMULA: Last = Last::Number(b"");

/// Questions 51 and 52 of a text in which so many marks may be open at once: at the first byte that gets a no, or at the text's end.
pub fn goes_on(text: &[u8], depth: usize) -> Result<(), No> {
    let (mut last, mut open) = (Last::FormulaDue, vec![]);
    for (place, byte) in text.iter().enumerate() {
        last = next(last, *byte, &mut open).ok_or((51, place as u32))?;
        if open.len() > depth {
            return Err((52, 0));
        }
    }
    if matches!(last, Last::Number(_)) && open.is_empty() {
        Ok(())
    } else {
        Err((51, text.len() as u32))
    }
}

/// What the text comes to by one byte more, where a formula can have it there; every text that comes to something can be gone on with to a formula.
fn next(last: Last, byte: u8, open: &mut Vec<Mark>) -> Option<Last> {
    if let Some((mark, next)) = opened(last, byte) {
        open.push(mark);
        return Some(next);
    }
    if let Some(next) = closed(last, byte, open.last().copied()) {
        open.pop();
        return Some(next);
    }
    within(last, byte)
}

/// By a byte that opens a mark.
fn opened(last: Last, byte: u8) -> Option<(Mark, Last)> {
    match (last, byte) {
        (Last::FormulaDue, b'(') => Some((Mark::Formula, Last::FormulaDue)),
        (Last::FormulaDue, b'<') => Some((Mark::Some, Last::PathDue)),
        (Last::FormulaDue, b'[') => Some((Mark::Every, Last::PathDue)),
        (Last::PathDue, b'(') => Some((Mark::Path, Last::PathDue)),
        (Last::PathDue, b'{') => Some((Mark::Step, Last::FormulaDue)),
        _ => None,
    }
}

/// By a byte that opens and closes nothing.
fn within(last: Last, byte: u8) -> Option<Last> {
    match (last, byte) {
        (Last::FormulaDue, b'!') => Some(Last::FormulaDue),
        (Last::FormulaDue, b't') => Some(Last::Word(b"rue")),
        (Last::Word([due, rest @ ..]), _) if byte == *due => Some(if rest.is_empty() { FORMULA } else { Last::Word(rest) }),
        (Last::FormulaDue, b'f') => Some(Last::NumberDue),
        (Last::NumberDue, b'0' | b'4'..=b'9') => Some(FORMULA),
        (Last::NumberDue, b'1' | b'2') => Some(Last::Number(b"0123456789")),
        (Last::NumberDue, b'3') => Some(Last::Number(b"01")),
        (Last::Number(digits), _) if digits.contains(&byte) => Some(FORMULA),
        (Last::Number(_), b'&' | b'|') => Some(Last::FormulaDue),
        (Last::Step, b'-' | b'?') => Some(Last::Path),
        (Last::Step | Last::Path, b'*') => Some(Last::Path),
        (Last::Step | Last::Path, b';' | b'+') => Some(Last::PathDue),
        _ => None,
    }
}

/// By a byte that closes the innermost mark.
fn closed(last: Last, byte: u8, innermost: Option<Mark>) -> Option<Last> {
    match (last, byte, innermost?) {
        (Last::Number(_), b')', Mark::Formula) => Some(FORMULA),
        (Last::Number(_), b'}', Mark::Step) => Some(Last::Step),
        (Last::Step | Last::Path, b')', Mark::Path) => Some(Last::Path),
        (Last::Step | Last::Path, b'>', Mark::Some) => Some(Last::FormulaDue),
        (Last::Step | Last::Path, b']', Mark::Every) => Some(Last::FormulaDue),
        _ => None,
    }
}

/// What is due where all that stands behind it is whole: an operator, a path mark with its path, or what an open mark waits for.
#[derive(Clone, Copy)]
enum Due {
    Not,
    And,
    Or,
    Some(usize),
    Every(usize),
    Then,
    Either,
    Close(Mark),
}

impl Due {
    /// How closely it binds: what binds more closely than what follows is done first.
    fn binds(self) -> u8 {
        match self {
            Due::Not | Due::Some(_) | Due::Every(_) => 3,
            Due::And | Due::Then => 2,
            Due::Or | Due::Either => 1,
            Due::Close(_) => 0,
        }
    }
}

/// Reads a text that writes a formula.
#[derive(Default)]
struct Reader {
    formula: Formula,
    /// The places of the parts and the paths that no other names yet.
    parts: Vec<usize>,
    paths: Vec<usize>,
    due: Vec<Due>,
}

impl Reader {
    /// Takes a byte, and the rest of a word or number that it begins; what is left of the text.
    fn take<'t>(&mut self, byte: u8, behind: &'t [u8]) -> &'t [u8] {
        match byte {
            b't' => {
                self.atom(Part::True);
                return &behind[3..];
            }
            b'f' => {
                let digits = behind.iter().take_while(|b| b.is_ascii_digit()).count();
                let number = std::str::from_utf8(&behind[..digits]).unwrap();
                self.atom(Part::Fact(number.parse().unwrap()));
                return &behind[digits..];
            }
            b'!' => self.due.push(Due::Not),
            b'&' => self.operator(Due::And),
            b'|' => self.operator(Due::Or),
            b';' => self.operator(Due::Then),
            b'+' => self.operator(Due::Either),
            b'*' => self.on_path(Path::Any),
            b'(' => self.due.push(Due::Close(if self.is_in_path() { Mark::Path } else { Mark::Formula })),
            b'{' => self.due.push(Due::Close(Mark::Step)),
            b'<' => self.due.push(Due::Close(Mark::Some)),
            b'[' => self.due.push(Due::Close(Mark::Every)),
            b'-' | b'?' => (), // taken with their step
            _ => self.close(behind.first()),
        }
        behind
    }

    /// Whether the innermost open mark is one of a path.
    fn is_in_path(&self) -> bool {
        let open = self.due.iter().rev().find_map(|due| if let Due::Close(mark) = due { Some(*mark) } else { None });
        matches!(open, Some(Mark::Path | Mark::Some | Mark::Every))
    }

    fn part(&mut self, part: Part) {
        self.parts.push(self.formula.parts.len());
        self.formula.parts.push(part);
    }

    fn path(&mut self, path: Path) {
        self.paths.push(self.formula.paths.len());
        self.formula.paths.push(path);
    }

    /// A part that `!` and path marks before it stand on.
    fn atom(&mut self, part: Part) {
        self.part(part);
        self.join(3);
    }

    /// An operator: what is due and binds as closely or more closely comes first, so that equal ones group to the left.
    fn operator(&mut self, due: Due) {
        self.join(due.binds());
        self.due.push(due);
    }

    /// Does what is due and binds so closely.
    fn join(&mut self, binds: u8) {
        while let Some(due) = self.due.pop_if(|due| due.binds() >= binds) {
            match due {
                Due::Not => self.on_part(Part::Not),
                Due::And => self.on_parts(Part::And),
                Due::Or => self.on_parts(Part::Or),
                Due::Some(p) => self.on_part(|a| Part::Some(p, a)),
                Due::Every(p) => self.on_part(|a| Part::Every(p, a)),
                Due::Then => self.on_paths(Path::Then),
                Due::Either => self.on_paths(Path::Either),
                Due::Close(_) => unreachable!("an open mark binds nothing"),
            }
        }
    }

    fn on_part(&mut self, made: impl Fn(usize) -> Part) {
        let a = self.parts.pop().unwrap();
        self.part(made(a));
    }

    fn on_parts(&mut self, made: impl Fn(usize, usize) -> Part) {
        let b = self.parts.pop().unwrap();
        self.on_part(|a| made(a, b));
    }

    fn on_path(&mut self, made: impl Fn(usize) -> Path) {
        let p = self.paths.pop().unwrap();
        self.path(made(p));
    }

    fn on_paths(&mut self, made: impl Fn(usize, usize) -> Path) {
        let q = self.paths.pop().unwrap();
        self.on_path(|p| made(p, q));
    }

    /// Closes the innermost mark, before this byte.
    fn close(&mut self, before: Option<&u8>) {
        self.join(1);
        let Some(Due::Close(mark)) = self.due.pop() else { unreachable!("a mark is open") };
        match mark {
            Mark::Formula => self.join(3),
            Mark::Path => (),
            Mark::Step => {
                let a = self.parts.pop().unwrap();
                self.path(match before {
                    Some(b'-') => Path::Back(a),
                    Some(b'?') => Path::Test(a),
                    _ => Path::Ahead(a),
                });
            }
            Mark::Some | Mark::Every => {
                let p = self.paths.pop().unwrap();
                self.due.push(if mark == Mark::Some { Due::Some(p) } else { Due::Every(p) });
            }
        }
    }
}

impl Formula {
    /// Question 54: whether a path mark stands within an ahead or back step.
    fn has_modal_step(&self) -> bool {
        let mut modal: Vec<bool> = vec![];
        for part in &self.parts {
            modal.push(match *part {
                Part::True | Part::Fact(_) => false,
                Part::Not(a) => modal[a],
                Part::And(a, b) | Part::Or(a, b) => modal[a] || modal[b],
                Part::Some(..) | Part::Every(..) => true,
            });
        }
        self.paths.iter().any(|path| matches!(path, Path::Ahead(a) | Path::Back(a) if modal[*a]))
    }

    /// Whether a path that is wanted stands within a part.
    pub fn has(&self, k: usize, is_wanted: &dyn Fn(&Path) -> bool) -> bool {
        match self.parts[k] {
            Part::True | Part::Fact(_) => false,
            Part::Not(a) => self.has(a, is_wanted),
            Part::And(a, b) | Part::Or(a, b) => self.has(a, is_wanted) || self.has(b, is_wanted),
            Part::Some(p, a) | Part::Every(p, a) => self.has_on(p, is_wanted) || self.has(a, is_wanted),
        }
    }

    fn has_on(&self, p: usize, is_wanted: &dyn Fn(&Path) -> bool) -> bool {
        let path = &self.paths[p];
        is_wanted(path)
            || match *path {
                Path::Ahead(a) | Path::Back(a) | Path::Test(a) => self.has(a, is_wanted),
                Path::Then(p, q) | Path::Either(p, q) => self.has_on(p, is_wanted) || self.has_on(q, is_wanted),
                Path::Any(p) => self.has_on(p, is_wanted),
            }
    }

    pub fn counts(&self) -> Counts {
        let mut sizes: Vec<[usize; 2]> = vec![];
        for path in &self.paths {
            let both = |p: usize, q: usize, more: [usize; 2]| [0, 1].map(|i| sizes[p][i] + sizes[q][i] + more[i]);
            sizes.push(match *path {
                Path::Ahead(_) | Path::Back(_) | Path::Test(_) => [2, 1],
                Path::Then(p, q) => both(p, q, [0, 1]),
                Path::Either(p, q) => both(p, q, [2, 4]),
                Path::Any(p) => [sizes[p][0] + 2, sizes[p][1] + 4],
            });
        }
        let automata: Vec<[usize; 2]> = self.marked().map(|p| sizes[p]).collect();
        Counts {
            nodes: 1 + self.parts.len(),
            automata: automata.len(),
            states: automata.iter().map(|x| x[0]).max().unwrap_or(0),
            edges: automata.iter().map(|x| x[1]).sum(),
        }
    }

    /// The whole paths: those of path marks.
    fn marked(&self) -> impl Iterator<Item = usize> + '_ {
        self.parts.iter().filter_map(|part| match part {
            Part::Some(p, _) | Part::Every(p, _) => Some(*p),
            _ => None,
        })
    }
}

impl Counts {
    /// Question 53.
    pub fn fit(&self) -> bool {
        self.nodes <= MOST.nodes && self.automata <= MOST.automata && self.states <= MOST.states && self.edges <= MOST.edges
    }
}
