//! Random formulas as text, of every shape and about every limit, and damage to them.
use super::{fact, Random};

/// A text that writes a formula: mostly a small one; now and then a large one, or one about a limit. Some are refused by 50, 52, 53 or 54.
pub fn formula(random: &mut Random) -> String {
    match random.below(40) {
        0 => about_nodes(random),
        1 => about_automata(random),
        2 => about_states(random),
        3 => about_edges(random),
        4 => about_depth(random),
        5 if random.one_in(4) => about_bytes(random),
        6 if random.one_in(4) => many_nots(random),
        7 => any_formula(random, 100),
        8..=12 => any_formula(random, 40),
        _ => any_formula(random, 12),
    }
}

/// A formula of up to so many nodes, by the rules of the grammar; mostly no path mark stands within an ahead or back step.
fn any_formula(random: &mut Random, most_nodes: usize) -> String {
    let most_open = match random.below(8) {
        0 => random.below(5),
        1 => 17 + random.below(4),
        _ => 16,
    };
    let modal_steps = random.one_in(3);
    let size = 1 + random.below(most_nodes);
    let mut writer = Writer { random, text: String::new(), open: 0, most_open, steps_around: 0, modal_steps };
    writer.formula(size);
    writer.text
}

struct Writer<'a> {
    random: &'a mut Random,
    text: String,
    /// How many marks are open, and how many may be.
    open: usize,
    most_open: usize,
    /// How many ahead and back steps stand around, and whether path marks may stand within them.
    steps_around: usize,
    modal_steps: bool,
}

impl Writer<'_> {
    fn within(&mut self, open: char, close: char, write: impl FnOnce(&mut Self)) {
        self.open += 1;
        self.text.push(open);
        write(self);
        self.text.push(close);
        self.open -= 1;
    }

    fn may_open(&self, marks: usize) -> bool {
        self.open + marks <= self.most_open
    }

    /// A formula of about so many nodes.
    fn formula(&mut self, size: usize) {
        if size >= 3 && self.random.one_in(3) {
            let left = 1 + self.random.below(size - 2);
            self.formula(left);
            self.text.push('|');
            self.conjunction(size - 1 - left);
        } else {
            self.conjunction(size);
        }
    }

    fn conjunction(&mut self, size: usize) {
        if size >= 3 && self.random.one_in(3) {
            let left = 1 + self.random.below(size - 2);
            self.conjunction(left);
            self.text.push('&');
            self.operand(size - 1 - left);
        } else {
            self.operand(size);
        }
    }

    fn operand(&mut self, size: usize) {
        let may_mark = self.may_open(2) && (self.steps_around == 0 || self.modal_steps);
        match self.random.below(8) {
            0..=3 if size >= 3 && may_mark => {
                let in_path = 1 + self.random.below(size - 2);
                let (open, close) = *self.random.pick(&[('<', '>'), ('[', ']')]);
                self.within(open, close, |w| w.path_of(in_path));
                self.operand(size - 1 - in_path);
            }
            4 if self.may_open(1) => self.within('(', ')', |w| w.formula(size)),
            5..=7 if size >= 3 && self.may_open(1) => self.within('(', ')', |w| w.formula(size)),
            _ if size >= 2 => {
                self.text.push('!');
                self.operand(size - 1);
            }
            _ => self.leaf(),
        }
    }

    fn leaf(&mut self) {
        self.text += &leaf(self.random);
    }

    /// A path whose formulas have about so many nodes.
    fn path_of(&mut self, size: usize) {
        let pieces = 1 + self.random.below(size.min(4));
        self.path(pieces, size / pieces);
    }

    /// A path of so many pieces, whose formulas have about so many nodes each.
    fn path(&mut self, pieces: usize, size: usize) {
        if pieces >= 2 && self.random.one_in(2) {
            let left = 1 + self.random.below(pieces - 1);
            self.path(left, size);
            self.text.push('+');
            self.sequence(pieces - left, size);
        } else {
            self.sequence(pieces, size);
        }
    }

    fn sequence(&mut self, pieces: usize, size: usize) {
        if pieces >= 2 && !self.random.one_in(3) {
            let left = 1 + self.random.below(pieces - 1);
            self.sequence(left, size);
            self.text.push(';');
            self.starred(pieces - left, size);
        } else {
            self.starred(pieces, size);
        }
    }

    fn starred(&mut self, pieces: usize, size: usize) {
        if self.may_open(2) && (pieces >= 2 || self.random.one_in(8)) {
            self.within('(', ')', |w| w.path(pieces, size));
        } else {
            self.step(size);
        }
        let stars = *self.random.pick(&[0, 0, 0, 1, 1, 2]);
        self.text += &"*".repeat(stars);
    }

    fn step(&mut self, size: usize) {
        let sign = *self.random.pick(&["", "", "-", "-", "?", "?", "?"]);
        let size = if sign == "?" { size } else { 1 + self.random.below(size) };
        self.steps_around += usize::from(sign != "?");
        self.within('{', '}', |w| w.formula(size));
        self.steps_around -= usize::from(sign != "?");
        self.text += sign;
    }
}

fn leaf(random: &mut Random) -> String {
    if random.one_in(5) {
        "true".to_string()
    } else {
        format!("f{}", fact(random))
    }
}

/// Facts joined by `&` and `|`, with `!` before some of them, that make 126 to 130 nodes.
fn about_nodes(random: &mut Random) -> String {
    let nodes = 126 + random.below(5);
    let leaves = 1 + random.below(nodes / 2);
    let mut nots = vec![0; leaves];
    for _ in 0..nodes - 2 * leaves {
        nots[random.below(leaves)] += 1;
    }
    let operands: Vec<String> = nots.iter().map(|n| "!".repeat(*n) + &leaf(random)).collect();
    let mut text = operands[0].clone();
    for operand in &operands[1..] {
        text = text + *random.pick(&["&", "|"]) + operand;
    }
    text
}

/// A path mark before what follows.
fn marked(random: &mut Random, path: &str, behind: &str) -> String {
    if random.one_in(2) {
        format!("<{path}>{behind}")
    } else {
        format!("[{path}]{behind}")
    }
}

/// 15 to 18 path marks, some with facts or `!` between them.
fn about_automata(random: &mut Random) -> String {
    let mut text = leaf(random);
    for _ in 0..15 + random.below(4) {
        let units = 1 + random.below(3);
        let path = path_of_units(random, units, 2).0;
        text = marked(random, &path, &text);
        text = match random.below(6) {
            0 => format!("!{text}"),
            1 => format!("{}&{text}", leaf(random)),
            _ => text,
        };
    }
    text
}

/// One of a few path marks has an automaton of 14 to 20 states.
fn about_states(random: &mut Random) -> String {
    let units = 7 + random.below(4);
    let path = path_of_units(random, units, 1).0;
    let behind = any_formula(random, 6);
    marked(random, &path, &format!("({behind})"))
}

/// Ten or eleven automata of 14 or 16 states, many of them by `*`, so that there are about 256 edges.
fn about_edges(random: &mut Random) -> String {
    let mut text = leaf(random);
    for _ in 0..10 + random.below(2) {
        let units = 7 + random.below(2);
        let path = path_of_units(random, units, 5).0;
        text = marked(random, &path, &text);
    }
    text
}

/// A path of so many steps, `+` and `*`, each of which makes two states, and how it binds: 1 by `+`, 2 by `;`, 3 as a piece or by `*`. Of `*` there
/// are more, the larger the last number.
fn path_of_units(random: &mut Random, units: usize, stars: usize) -> (String, u8) {
    let in_brackets = |(path, binds): (String, u8), least: u8| if binds < least { format!("({path})") } else { path };
    let kind = random.below(2 + stars);
    match kind {
        _ if units == 1 => (format!("{{{}}}{}", leaf(random), random.pick(&["", "-", "?"])), 3),
        0 if units >= 3 => {
            let left = 1 + random.below(units - 2);
            let [p, q] = [left, units - 1 - left].map(|n| path_of_units(random, n, stars));
            (format!("{}+{}", p.0, in_brackets(q, 2)), 1)
        }
        1 => {
            let left = 1 + random.below(units - 1);
            let [p, q] = [left, units - left].map(|n| path_of_units(random, n, stars));
            (format!("{};{}", in_brackets(p, 2), in_brackets(q, 3)), 2)
        }
        _ => {
            let p = path_of_units(random, units - 1, stars);
            (in_brackets(p, 3) + "*", 3)
        }
    }
}

/// Marks of every sort within each other, 15 to 18 deep.
fn about_depth(random: &mut Random) -> String {
    let depth = 15 + random.below(4);
    deep_formula(random, depth)
}

fn deep_formula(random: &mut Random, depth: usize) -> String {
    if depth == 0 {
        return leaf(random);
    }
    match random.below(6) {
        0 => format!("!{}", deep_formula(random, depth)),
        1 => format!("{}|{}", leaf(random), deep_formula(random, depth)),
        2 | 3 if depth >= 2 => {
            let (path, behind) = (deep_path(random, depth - 1), leaf(random));
            marked(random, &path, &behind)
        }
        _ => format!("({})", deep_formula(random, depth - 1)),
    }
}

/// A path so deep; as good as always its steps are tests.
fn deep_path(random: &mut Random, depth: usize) -> String {
    if depth >= 2 && random.one_in(2) {
        let sign = *random.pick(&["", "", "", "*"]);
        return format!("({}){sign}", deep_path(random, depth - 1));
    }
    let sign = if random.one_in(40) { "-" } else { "?" };
    format!("{{{}}}{sign}", deep_formula(random, depth - 1))
}

/// Path marks over eight steps each, all steps in many brackets: 14 marks fit a sheet, and make up to 4,082 bytes; 15 do not, and make 4,095 to 4,097.
fn about_bytes(random: &mut Random) -> String {
    let (marks, bytes) = if random.one_in(2) { (14, 3900 + random.below(183)) } else { (15, 4095 + random.below(3)) };
    let mut leaves = vec!["true"; 8 * marks + 1];
    let mut brackets = vec![14; leaves.len()];
    let mut missing = long_rule(&leaves, &brackets).len() - bytes;
    while missing > 0 {
        let at = random.below(leaves.len());
        if missing == 1 {
            // a fact for one of those that are `true` still
            leaves[at] = if leaves[at] == "true" { "f31" } else { continue };
            missing -= 1;
        } else if leaves[at] == "true" && random.one_in(4) {
            leaves[at] = *random.pick(&["f0", "f9"]);
            missing -= 2;
        } else if brackets[at] > 0 {
            brackets[at] -= 1;
            missing -= 2;
        }
    }
    long_rule(&leaves, &brackets)
}

/// These leaves in so many brackets each: eight to a path mark as steps back and tests, and the last behind all marks, in two brackets more.
pub fn long_rule(leaves: &[&str], brackets: &[usize]) -> String {
    let atom = |i: usize| "(".repeat(brackets[i]) + leaves[i] + &")".repeat(brackets[i]);
    let step = |i: usize| format!("{{{}}}{}", atom(i), if i % 2 == 0 { "-" } else { "?" });
    let path = |m: usize| (8 * m..8 * m + 8).map(step).collect::<Vec<_>>().join(";");
    let last = leaves.len() - 1;
    let marks: String = (0..last / 8).map(|m| if m % 2 == 0 { format!("<{}>", path(m)) } else { format!("[{}]", path(m)) }).collect();
    format!("{marks}(({}))", atom(last))
}

/// A run of over a thousand `!`.
fn many_nots(random: &mut Random) -> String {
    "!".repeat(1001 + random.below(3090)) + &leaf(random)
}

/// A text with a byte or two changed, left out, doubled or put in, or cut short.
pub fn damaged_formula(random: &mut Random, text: String) -> Vec<u8> {
    let mut bytes = text.into_bytes();
    for _ in 0..1 + random.below(2) {
        let at = random.below(bytes.len().max(1));
        match random.below(5) {
            0 if !bytes.is_empty() => bytes[at] = byte(random),
            1 if !bytes.is_empty() => {
                bytes.remove(at);
            }
            2 if !bytes.is_empty() => bytes.insert(at, bytes[at]),
            3 => bytes.truncate(at),
            _ => bytes.insert(at, byte(random)),
        }
    }
    bytes
}

/// A byte of formulas, or any.
fn byte(random: &mut Random) -> u8 {
    if random.one_in(10) {
        random.next() as u8
    } else {
        *random.pick(b"truef0123456789!&|()<>[]{}-?;+*")
    }
}
