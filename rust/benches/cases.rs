//! The sheets, formulas and logs that are timed.

/// Document 01's sheet Z: a B over D and or.
pub const Z: &str = "P,0\nP,1\nP,2\nN,0\nT\nM,1,0\nG,0\nE,0,2,3,0\nD,0,1\nN,2\nO,6,5\nM,1,0\nG,0\nE,0,1,4,0\nB,1,7\n";
/// Document 01's sheet W, which looks only ahead.
pub const W: &str = "T\nP,1\nM,1,0\nG,0\nE,0,1,0,0\nD,0,1\n";

/// A rule of 4,093 bytes: a D and a B of opposites of facts in 29 bytes, and seven times two of what stands before.
pub const LONG_RULE: &str = "P,1\nP,20\nN,0\nN,1\nM,1,0\nG,0\nE,0,1,0,0\nD,0,2\nB,0,3\nO,4,5\nN,6\n\
    A,7,7\nO,8,8\nA,9,9\nO,10,10\nA,11,11\nO,12,12\nA,13,13\n";

/// The rule of sheet Z as a formula: from here on, every plate lies after an approval that follows the last change of the artwork.
pub const Z_FORMULA: &str = "[{true}*](!f2|<{!f0}-*>f1)";

/// The other rules of the desk in docs/FORMULAS.md.
pub const DESK: [&str; 11] = [
    "[{true}*](!f0|<{true}*>f1)",
    "[{true}*](!f0|[{!f1}*](f1|!f2))",
    "[{true}*](!f2|<{!f0}-*;{f1&!f0}-;{!f0}-*>f1)",
    "[{true}*](!f1|<{!f0}-*>f5&<{!f0}-*>f6)",
    "[{true}*](!f3|<{true}+{true};{true}+{true};{true};{true}>(f1|f4))",
    "[{true}*](!f4|[{true};{!f0}*](f0|!f3))",
    "[{true}*](!f2|!<{!f8}-*>f7)",
    "[{true}*](!f9|[{true}*]!f0)",
    "<{true}-*;{[{true}-]!true}?>f0",
    "<{true}*;{[{true}]!true}?>f9",
    "[{true}*](!f2|<{true}+{true}->f2)",
];

/// So many path marks over eight steps each, and `true` behind them; every `true` in as many brackets as may be open. Of 14 marks it is the longest
/// formula that fits a sheet: 4,082 bytes, 128 nodes and 14 automata.
pub fn long_formula(marks: usize) -> String {
    let in_brackets = |n: usize| "(".repeat(n) + "true" + &")".repeat(n);
    let steps = vec![format!("{{{}}}-", in_brackets(14)); 8].join(";");
    format!("<{steps}>").repeat(marks) + &in_brackets(16)
}

/// A sheet's text and a log.
pub type Case = (String, Vec<u32>);

/// Words of which each bit is set in about half of the entries.
fn mixed(entries: u32) -> Vec<u32> {
    (0..entries).map(|i| i.wrapping_mul(2654435761) >> 9).collect()
}

fn facts(count: usize) -> String {
    (0..count).map(|f| format!("P,{f}\n")).collect()
}

/// D and B in turn.
fn letter(k: usize) -> char {
    ['D', 'B'][k % 2]
}

/// How many nodes the sheets have on which each node is a D or B of the one before.
const IN_A_ROW: usize = 64;

/// 16 states and 256 edges in three directions that test so many facts, led to their states by `to`; each further node is a D or B of the one before.
fn nodes_in_a_row(tested: usize, to: fn(usize) -> usize) -> Case {
    let mut text = facts(tested) + "M,16,0\nG,15\n";
    for e in 0..256 {
        text += &format!("E,{},{},{},{}\n", e % 16, e % 3, e % tested, to(e) % 16);
    }
    for k in tested..IN_A_ROW {
        text += &format!("{},0,{}\n", letter(k - tested), k - 1);
    }
    (text, mixed(512))
}

/// Edges repeat: 48 of the 256 are different, and from each state they lead to one other.
pub fn hard(tested: usize) -> Case {
    nodes_in_a_row(tested, |e| e * 7 + 3)
}

/// All 256 edges are different, and from each state they lead to all others.
pub fn dense() -> Case {
    nodes_in_a_row(2, |e| e * 7 + e / 48 * 5 + 3)
}

/// 16 automata, each a ring of 16 edges in three directions, with three nodes each.
pub fn many() -> Case {
    let mut text = facts(8);
    for m in 0..16 {
        text += "M,16,0\nG,15\n";
        for e in 0..16 {
            text += &format!("E,{},{},{},{}\n", e, (e + m) % 3, (e * 5 + m) % 8, (e + 1) % 16);
        }
    }
    for k in 0..48 {
        text += &format!("{},{},{}\n", letter(k), k / 3, k % 8);
    }
    (text, mixed(512).iter().zip(0..).map(|(w, i)| w | i % 3 * 3).collect())
}

/// Two edges ahead, one back, over a ring of 15 states: the marks of 62 D nodes travel to and fro from the last entry.
pub fn zigzag() -> Case {
    let mut text = "T\nP,1\nM,15,0\nG,14\n".to_string();
    for s in 0..15 {
        text += &format!("E,{s},{},0,{}\n", [1, 1, 2][s % 3], (s + 1) % 15);
    }
    text += &"D,0,1\n".repeat(62);
    (text, (0..512).map(|i| if i == 511 { 2 } else { 0 }).collect())
}

/// State s goes over the whole log, ahead or back in turn, and at its end becomes state s + 1: marks go over the log once for each of 16 states.
/// The other edges lead back to lower states and reach nothing new, but are there to be looked at. 59 D nodes, each of the one before.
pub fn snake() -> Case {
    let mut text = "T\nP,0\nP,1\nP,2\nF\nM,16,0\nG,15\n".to_string();
    for s in 0..16 {
        text += &format!("E,{s},{},0,{s}\n", 1 + s % 2);
        if s < 15 {
            text += &format!("E,{s},0,{},{}\n", 1 + s % 2, s + 1);
        }
    }
    let lower = (0..16).flat_map(|s| (0..s).flat_map(move |t| (0..3).map(move |d| (s, d, t))));
    for (s, d, t) in lower.take(256 - 31) {
        text += &format!("E,{s},{d},0,{t}\n");
    }
    text += "D,0,3\n";
    for k in 5..63 {
        text += &format!("D,0,{k}\n");
    }
    // fact 0 at the last entry, fact 1 at the first; fact 2, the goal, at the first
    let mut log = vec![0; 512];
    log[511] = 1;
    log[0] = 0b110;
    (text, log)
}

/// 128 nodes: facts and their opposites up to node 71, then D and B nodes that stand on each other, by four automata whose edges stay or go this
/// way and test nodes below and above 63. To be judged and not timed.
pub fn large(dir: usize) -> Case {
    let mut text: String = (0..72).map(|k| if k % 3 == 2 { format!("N,{}\n", k - 1) } else { format!("P,{}\n", k % 32) }).collect();
    for m in 0..4 {
        text += "M,8,0\nG,7\n";
        for e in 0..16 {
            text += &format!("E,{},{},{},{}\n", e % 8, e / 4 % 2 * dir, (e * 13 + m * 7) % 72, (e * 3 + 1 + e / 8) % 8);
        }
    }
    for k in 72..128 {
        text += &format!("{},{},{}\n", letter(k), k % 4, k * 5 % 72 + (k - 72) / 8 * 8);
    }
    (text, mixed(200))
}

/// A thousand different logs of five entries for sheet Z.
pub fn short_logs() -> Vec<u32> {
    mixed(5000).iter().map(|w| w % 8).collect()
}
