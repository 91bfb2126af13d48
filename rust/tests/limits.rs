//! Sheets, formulas, profiles, what rules stand on, rules as text, logs, counters, lists of logs, pages and walks at the limits.
use crate::checker::sheets::NODES;
use crate::compare::counters::{compare_entry, compare_steps};
use crate::compare::formulas::compare_formula;
use crate::compare::judging::compare_judging;
use crate::compare::lists::{compare_logs, Logs};
use crate::compare::looks::compare_looks;
use crate::compare::pages::compare_page;
use crate::compare::parts::{compare_part, Part};
use crate::compare::printing::{compare_print, CAP};
use crate::compare::profile::compare_profile;
use crate::compare::texts::{compare_counted, compare_log, compare_sheet};
use crate::compare::walks::compare_walk;
use crate::compare::Table;
use crate::generate::formulas::long_rule;
use crate::generate::{largest_sheet, log, log_text, Random};
use crate::kinds::Kinds;
use rozsvelen::PAGE;

/// An ahead edge that tests a D node.
const MODAL_STEP: &str = "T\nM,1,0\nE,0,0,0,0\nD,0,0\nM,1,0\nE,0,1,1,0\nT\n";

pub fn all(kinds: &mut Kinds) {
    texts(kinds);
    numbers(kinds);
    formulas(kinds);
    short_formulas(kinds);
    profiles(kinds);
    rules_that_look(kinds);
    long_rules(kinds);
    deep_rules(kinds);
    counted_logs(kinds);
    counters(kinds);
    longest_walk(kinds);
    most_logs(kinds);
}

fn texts(kinds: &mut Kinds) {
    for text in counted_texts() {
        compare_sheet(kinds, text.as_bytes());
        compare_page(kinds, text.as_bytes(), b"-\n", 14);
    }
    for text in ["", "T\nG,0\n", "T\nM,1,0\nG,0\nG,0\n", "T\nM,1,0\nE,0,0,0,0\n", "M,1,0\nT\n", MODAL_STEP] {
        compare_sheet(kinds, text.as_bytes());
        compare_page(kinds, text.as_bytes(), b"-\n", 14);
        for bytes in [49_152, 49_153, 49_154] {
            let mut long = text.to_string();
            while long.len() < bytes {
                long += "T\n";
            }
            compare_long(kinds, &long.as_bytes()[..bytes]);
        }
    }
    for entries in [511, 512, 513] {
        compare_log(kinds, "-\n".repeat(entries).as_bytes(), 600);
        compare_log(kinds, "0,31\n".repeat(entries).as_bytes(), 511);
        compare_page(kinds, b"P,31\n", "0,31\n".repeat(entries).as_bytes(), PAGE - 1);
    }
}

/// Every letter with numbers at, beside and far behind the ends of ranges, together in every way: the leftmost that is wrong decides. Above stand
/// nodes 0 and 1, the latter a D, and automata 0 and 1, of one state and of two.
fn numbers(kinds: &mut Kinds) {
    const ABOVE: &str = "T\nM,1,0\nE,0,0,0,0\nD,0,0\nM,2,1\nG,1\nE,0,0,0,1\n";
    let some = [0, 1, 2, 3, 15, 16, 17, 31, 32, 255, 256, 257, 999];
    for (letter, count) in [("P", 1), ("N", 1), ("G", 1), ("A", 2), ("O", 2), ("D", 2), ("B", 2), ("M", 2), ("E", 4)] {
        for way in 0..some.len().pow(count) {
            let line = (0..count).fold(letter.to_string(), |line, i| format!("{line},{}", some[way / some.len().pow(i) % some.len()]));
            let text = format!("{ABOVE}{line}\nT\n");
            compare_sheet(kinds, text.as_bytes());
            compare_page(kinds, text.as_bytes(), b"-\n", 15);
        }
    }
}

/// Formulas with as many nodes, automata, states, edges, marks open and bytes as there may be, and with one more (of states two).
fn formulas(kinds: &mut Kinds) {
    let (facts, steps) = (["f31"; 65], ["{f1}-"; 9]);
    let stars = "<{f0}*******>".repeat(8);
    let mut texts: Vec<String> = [64, 65].map(|n| facts[..n].join("&")).to_vec();
    texts.extend([126, 127, 1001, 4094, 4095].map(|n| "!".repeat(n) + "f1"));
    texts.extend([16, 17].map(|n| "[{true}]".repeat(n) + "f1"));
    for (sign, most) in [(";", 8), ("+", 4)] {
        texts.extend([most, most + 1].map(|n| format!("<{}>f1", steps[..n].join(sign))));
    }
    texts.extend([7, 8].map(|n| format!("<{{f1}}?{}>f1", "*".repeat(n))));
    // 29 edges each, 24 and 25 more, the same within a test of a ninth path, and twice as many
    texts.extend(["<({f1}+{f2})****;{f3}>", "<({f1};{f2})*****;{f3}>"].map(|last| format!("{stars}{last}true")));
    texts.extend(["{f1}*****", "{f1}*****;{f2}"].map(|last| format!("<{{{stars}f1}}?;{last}>true")));
    texts.push(stars.repeat(2) + "true");
    // no longer text fits a sheet
    texts.push(long_rule(&["true"; 8 * 14 + 1], &[14; 8 * 14 + 1]));
    for depth in [16, 17] {
        texts.push("(".repeat(depth) + "f1" + &")".repeat(depth));
        texts.push("(".repeat(depth) + "f1" + &")".repeat(depth - 1));
        texts.push("<{".repeat(depth / 2) + &"(".repeat(depth % 2) + "f1" + &")".repeat(depth % 2) + &"}?>f2".repeat(depth / 2));
        texts.extend(["{", "+", ")", "f1]", "f1}"].map(|behind| "(".repeat(depth) + behind));
    }
    for text in texts {
        // by itself, and behind a path mark within a step, which is 54 where the text is not 50, 51 or 52
        for before in ["", "[{<{f1}>f2}-]f3&"] {
            compare_formula(kinds, format!("{before}{text}").as_bytes(), &[0, 1, 2, 3, 1 << 31]);
        }
    }
}

/// Every text of up to three of these words and signs: by itself, in brackets, as a step's formula, as a path and behind a step.
fn short_formulas(kinds: &mut Kinds) {
    let words = [
        "", "tr", "true", "f", "f0", "f1", "f3", "0", "1", "2", "9", "!", "&", "|", "(", ")", "<", ">", "[", "]", "{", "}", "-", "?", ";", "+", "*",
        "{f1}", "\n", "é",
    ];
    for a in words {
        for b in words {
            for c in words {
                for (before, behind) in [("", ""), ("(", ")"), ("<{", "}>f2"), ("<", ">f2"), ("[{f1}", "]f2")] {
                    let text = [before, a, b, c, behind].concat();
                    compare_formula(kinds, text.as_bytes(), &[2, 1]);
                }
            }
        }
    }
}

/// Profiles of sheets at every limit but that of nodes, of a fact under as many N lines as there may be, and of profiles until one has too many
/// nodes: 1, 3, 7, 15, 31, 63, 127.
fn profiles(kinds: &mut Kinds) {
    for nodes in [31, 32, 62, 63, 64, NODES] {
        let mut random = Random(nodes as u64);
        let words = log(&mut random, 8);
        compare_profile(kinds, &Table::of(&largest_sheet(&mut random, nodes)), &words);
        let under: String = (0..nodes - 1).map(|k| format!("N,{k}\n")).collect();
        compare_profile(kinds, &Table::of(&format!("P,31\n{under}")), &[0, 1 << 31]);
    }
    let mut last = Table::of("P,31\n");
    while let Some(made) = compare_profile(kinds, &last, &[0, 1 << 31]) {
        last = made;
    }
}

/// The edge by which the rule looks is as far away as it may be: the last of 256; of the last of 16 automata; of a D under 125 N lines; of the
/// first of 16 automata, where each of the others tests a D of the one before it.
fn rules_that_look(kinds: &mut Kinds) {
    let under: String = (2..NODES - 1).map(|k| format!("N,{k}\n")).collect();
    let behind: String = (1..16).map(|m| format!("M,1,0\nG,0\nE,0,0,{m},0\nD,{m},0\n")).collect();
    let spare = "M,1,0\nE,0,1,0,0\n".repeat(15);
    for dir in [1, 2] {
        let one = format!("M,1,0\nG,0\nE,0,{dir},0,0\n");
        for text in [
            format!("T\nM,1,0\nG,0\n{}E,0,{dir},0,0\nD,0,0\n", "E,0,0,0,0\n".repeat(255)),
            format!("T\n{spare}{one}D,15,0\n"),
            format!("T\nT\n{one}D,0,0\n{under}"),
            format!("T\n{one}D,0,0\n{behind}"),
        ] {
            let table = Table::of(&text);
            compare_looks(kinds, &table);
            for ahead in [true, false] {
                compare_part(kinds, &table, &Part { ahead, row: [u16::MAX; NODES], words: &[1, 0], room: 4 });
            }
        }
    }
}

/// Rules whose texts have 2^n - 3 bytes, 2^n and 2^n + 3, about as many as are written out, as 16, 32, 48 or 64 bits can count, and as no number can:
/// F, each A line of the one before twice, and N lines.
fn long_rules(kinds: &mut Kinds) {
    for (n, cap) in [(12, CAP - 1), (12, CAP), (12, CAP + 1), (16, 1 << 17), (19, 1 << 20), (32, CAP), (48, CAP), (64, CAP), (NODES, CAP)] {
        let mut text = "F\n".to_string() + &(0..n - 3).map(|k| format!("A,{k},{k}\n")).collect::<String>();
        for k in n - 3..n {
            compare_print(kinds, &Table::of(&text), cap);
            text += &format!("N,{k}\n");
        }
    }
}

/// The deepest rules, each line of the one before, by each letter and every automaton; and all facts in one rule.
fn deep_rules(kinds: &mut Kinds) {
    let automata = "M,1,0\nE,0,0,0,0\n".repeat(16);
    let by_letter: [fn(usize) -> String; 5] = [
        |k| format!("N,{k}\n"),
        |k| format!("A,{k},0\n"),
        |k| format!("O,0,{k}\n"),
        |k| format!("D,{},{k}\n", k % 16),
        |k| format!("B,{},{k}\n", k % 16),
    ];
    for line in by_letter {
        let lines: String = (0..NODES - 1).map(line).collect();
        compare_print(kinds, &Table::of(&format!("P,31\n{automata}{lines}")), CAP);
    }
    let facts: String = (0..32).map(|f| format!("P,{f}\n")).collect();
    let all: String = (0..31).map(|f| format!("O,{f},{}\n", f + 31)).collect();
    compare_print(kinds, &Table::of(&(facts + &all)), CAP);
}

/// Logs with counters of as many lines and bytes as there may be, and one more, round the turn. A 513th line is 23 whatever is on it.
fn counted_logs(kinds: &mut Kinds) {
    let lines = |n: usize, facts: &str| (65_300..65_300 + n).map(|c| format!("{:05},{facts}\n", c % 65_536)).collect::<String>();
    for n in [511, 512, 513] {
        compare_counted(kinds, lines(n, "-").as_bytes(), 600);
        compare_counted(kinds, lines(n, "0,31").as_bytes(), 511);
    }
    for last in ["9,-\n", "70000,-\n", "-\n", "\n"] {
        compare_counted(kinds, (lines(512, "-") + last).as_bytes(), 600);
    }
    // lines of 96 bytes, 512 of them the longest text that is not 21
    let facts: Vec<String> = (0..32).map(|f| if f < 4 { format!("0{f}") } else { f.to_string() }).collect();
    let longest = lines(512, &facts.join(","));
    assert_eq!(longest.len(), 49_152);
    compare_counted(kinds, longest.as_bytes(), 512);
    compare_counted(kinds, longest.replacen(",4,", ",04,", 1).as_bytes(), 512);
}

/// Counters beside the turn and half way round, and the entries that bear the first and the last counter of a log and the ones beside them.
fn counters(kinds: &mut Kinds) {
    let edges = [0, 1, 2, 32_767, 32_768, 65_534, 65_535];
    for a in edges {
        edges.iter().for_each(|b| compare_steps(kinds, a, *b));
        for entries in [0, 1, 2, 511, 512, 513, 65_535, 65_536, 65_537, usize::MAX] {
            let end = a.wrapping_add(entries as u16);
            for counter in [a.wrapping_sub(1), a, a.wrapping_add(1), end.wrapping_sub(1), end] {
                compare_entry(kinds, a, entries, counter);
            }
        }
    }
}

/// As many nodes, automata, edges and states as there may be, and one more; 5 is asked before its numbers.
fn counted_texts() -> Vec<String> {
    let mut all = [64, 65, NODES, NODES + 1].map(|nodes| "T\n".repeat(nodes)).to_vec();
    all.extend(["M,1,0\n", "P,32\n", "N,128\n"].map(|line| "T\n".repeat(NODES) + line));
    all.extend([16, 17].map(|automata| "T\n".to_string() + &"M,1,0\nE,0,0,0,0\n".repeat(automata) + "T\n"));
    all.push("T\n".to_string() + &"M,1,0\nE,0,0,0,0\n".repeat(16) + "M,17,17\n");
    all.extend([256, 257].map(|edges| "T\nM,1,0\n".to_string() + &"E,0,0,0,0\n".repeat(edges) + "T\n"));
    all.push("T\nM,1,0\n".to_string() + &"E,0,0,0,0\n".repeat(256) + "E,1,3,1,1\n");
    all.extend([16, 17].map(|states| {
        let edges: String = (0..states).map(|s| format!("E,{s},0,0,{s}\n")).collect();
        format!("T\nM,{states},0\n{edges}T\n")
    }));
    all
}

fn compare_long(kinds: &mut Kinds, text: &[u8]) {
    compare_sheet(kinds, text);
    compare_log(kinds, text, 600);
    compare_counted(kinds, text, 600);
    compare_page(kinds, text, b"-\n", 14);
    compare_page(kinds, b"T\n", text, 14);
}

/// A walk through every state at every entry: ahead to the last entry in one state, back to the first in the next. Edges and nodes of high numbers:
/// its five nodes are the last that a sheet may have.
fn longest_walk(kinds: &mut Kinds) {
    let before = NODES - 5;
    let mut text = "F\n".repeat(before) + "T\nP,4\nP,31\nM,1,0\n" + &"E,0,0,0,0\n".repeat(225) + "M,16,0\nG,15\n";
    for s in 0..16 {
        text += &format!("E,{s},{},{before},{s}\n", 1 + s % 2);
        if s < 15 {
            text += &format!("E,{s},0,{},{}\n", before + 1 + s % 2, s + 1);
        }
    }
    text += &format!("P,30\nD,1,{}\n", before + 3);
    let mut words = vec![0; 512];
    words[511] = 1 << 4;
    words[0] = 1 << 31 | 1 << 30;
    let table = Table::of(&text);
    let judged = table.judged(&words);
    compare_judging(kinds, &table, &words, &judged, 1024);
    for room in [8190, 8191, 8192] {
        compare_walk(kinds, &table, &words, &judged, [NODES - 1, 0, room]);
    }
    compare_walk(kinds, &table, &words, &judged, [NODES, 0, 8191]);
    for room in [1024, 20_000, PAGE - 1, PAGE] {
        compare_page(kinds, text.as_bytes(), log_text(&words).as_bytes(), room);
    }
}

/// As many logs as may be judged in one call, and one more.
fn most_logs(kinds: &mut Kinds) {
    let table = Table::of("T\nP,1\nM,1,0\nG,0\nE,0,1,0,0\nD,0,1\n");
    for logs in [65_535, 65_536] {
        let (words, lengths) = ((0..logs as u32).collect::<Vec<_>>(), vec![1; logs]);
        compare_logs(kinds, &table, &Logs { words: &words, lengths: &lengths, rooms: [2 * logs, logs] });
    }
}
