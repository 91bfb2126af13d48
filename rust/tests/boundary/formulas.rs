//! Rules as one line of text, worked by hand from docs/FORMULAS.md: the sheet that is made, what it says of small logs, refusals with their places, and
//! what just fits.
use rozsvelen::{holds, judge, RefusedAt, Sheet, TABLE, WORDS};

/// A text read: its numbers, or the refusal's number and place.
fn read(text: &str) -> Result<[u16; TABLE], (u8, u32)> {
    Sheet::from_formula(text.as_bytes()).map(|sheet| *sheet.numbers()).map_err(|RefusedAt { number, place }| (number, place))
}

/// A text reads to the sheet of these lines, which a space parts.
fn assert_sheet(text: &str, lines: &str) {
    let sheet = Sheet::read((lines.replace(' ', "\n") + "\n").as_bytes());
    assert!(sheet.is_ok(), "{lines} is no sheet: {sheet:?}");
    assert!(read(text) == Ok(*sheet.unwrap().numbers()), "{text} reads to {:?}, and not to {lines}", Sheet::from_formula(text.as_bytes()));
}

fn assert_refused(text: &str, number: u8, place: u32) {
    let shown = &text[..text.len().min(80)];
    assert_eq!(read(text).err(), Some((number, place)), "{shown:?}, {} bytes", text.len());
}

/// A text is taken, and its sheet has so many nodes, automata and edges.
fn assert_fits(text: &str, counts: [u16; 3]) {
    let numbers = read(text).unwrap_or_else(|no| panic!("{:?} is refused by {no:?}", &text[..text.len().min(80)]));
    assert_eq!(numbers[TABLE - 3..], counts, "{text:?}");
}

/// At which entries of a log the rule of a text holds.
fn verdicts_of(text: &str, log: &[u32]) -> Vec<u8> {
    let sheet = Sheet::from_formula(text.as_bytes()).unwrap();
    let rule = usize::from(sheet.numbers()[TABLE - 3]) - 1;
    let mut verdicts = vec![0; WORDS * log.len()];
    let held = judge(&sheet, log, &mut verdicts);
    let all: Vec<u8> = (0..log.len()).map(|i| u8::from(holds(&verdicts, i, rule))).collect();
    assert_eq!(held, Ok(all.iter().filter(|v| **v == 1).count()), "{text}");
    all
}

#[test]
fn nodes_stand_behind_what_they_need_left_side_first() {
    for (text, lines) in [
        ("true", "T T"),
        ("f0", "T P,0"),
        ("f31", "T P,31"),
        ("!f3", "T P,3 N,1"),
        ("!!f10", "T P,10 N,1 N,2"),
        ("f1&f1", "T P,1 P,1 A,1,2"),
        ("f2|f1", "T P,2 P,1 O,1,2"),
        ("f1|f2&f3", "T P,1 P,2 P,3 A,2,3 O,1,4"),
        ("f1&f2|f3", "T P,1 P,2 A,1,2 P,3 O,3,4"),
        ("f1&f2&f3", "T P,1 P,2 A,1,2 P,3 A,3,4"),
        ("f1|f2|f3", "T P,1 P,2 O,1,2 P,3 O,3,4"),
        ("f1&(f2&f3)", "T P,1 P,2 P,3 A,2,3 A,1,4"),
        ("(f1|f2)&f3", "T P,1 P,2 O,1,2 P,3 A,3,4"),
        ("!f1&f2", "T P,1 N,1 P,2 A,2,3"),
        ("!(f1&f2)", "T P,1 P,2 A,1,2 N,3"),
        ("f1&!true", "T P,1 T N,2 A,1,3"),
    ] {
        assert_sheet(text, lines);
    }
}

#[test]
fn brackets_are_no_nodes() {
    for text in ["f1|f2&f3", "f1|(f2&f3)", "(f1|(f2&f3))", "((f1))|(f2)&(((f3)))"] {
        assert_sheet(text, "T P,1 P,2 P,3 A,2,3 O,1,4");
    }
    for text in ["<{f1};{f2}*>f3", "<({f1};{f2}*)>f3", "<({f1});(({f2}*))>(f3)", "(<{(f1)};({(f2)})*>f3)"] {
        assert_sheet(text, "T P,1 P,2 M,6,0 G,5 E,0,1,1,1 E,2,1,2,3 E,4,0,0,2 E,3,0,0,2 E,3,0,0,5 E,4,0,0,5 E,1,0,0,4 P,3 D,0,3");
    }
}

#[test]
fn a_path_has_the_states_and_edges_of_its_signs() {
    for (text, lines) in [
        ("<{f1}>f2", "T P,1 M,2,0 G,1 E,0,1,1,1 P,2 D,0,2"),
        ("[{f1}-]f2", "T P,1 M,2,0 G,1 E,0,2,1,1 P,2 B,0,2"),
        ("<{f1}?>f2", "T P,1 M,2,0 G,1 E,0,0,1,1 P,2 D,0,2"),
        ("<{f1};{f2}>f3", "T P,1 P,2 M,4,0 G,3 E,0,1,1,1 E,2,1,2,3 E,1,0,0,2 P,3 D,0,3"),
        ("<{f1}+{f2}->f3", "T P,1 P,2 M,6,4 G,5 E,0,1,1,1 E,2,2,2,3 E,4,0,0,0 E,4,0,0,2 E,1,0,0,5 E,3,0,0,5 P,3 D,0,3"),
        ("<{true}*>f1", "T T M,4,2 G,3 E,0,1,1,1 E,2,0,0,0 E,1,0,0,0 E,1,0,0,3 E,2,0,0,3 P,1 D,0,2"),
        ("<{f1}**>f2", "T P,1 M,6,4 G,5 E,0,1,1,1 E,2,0,0,0 E,1,0,0,0 E,1,0,0,3 E,2,0,0,3 E,4,0,0,2 E,3,0,0,2 E,3,0,0,5 E,4,0,0,5 P,2 D,0,2"),
        // equal signs group to the left; in brackets to the right
        ("<{f1};{f2};{f3}>f4", "T P,1 P,2 P,3 M,6,0 G,5 E,0,1,1,1 E,2,1,2,3 E,1,0,0,2 E,4,1,3,5 E,3,0,0,4 P,4 D,0,4"),
        ("<{f1};({f2};{f3})>f4", "T P,1 P,2 P,3 M,6,0 G,5 E,0,1,1,1 E,2,1,2,3 E,4,1,3,5 E,3,0,0,4 E,1,0,0,2 P,4 D,0,4"),
        // read as {f1}+({f2};({f3}*))
        (
            "<{f1}+{f2};{f3}*>f4",
            "T P,1 P,2 P,3 M,10,8 G,9 E,0,1,1,1 E,2,1,2,3 E,4,1,3,5 E,6,0,0,4 E,5,0,0,4 E,5,0,0,7 E,6,0,0,7 E,3,0,0,6 \
             E,8,0,0,0 E,8,0,0,2 E,1,0,0,9 E,7,0,0,9 P,4 D,0,4",
        ),
    ] {
        assert_sheet(text, lines);
    }
}

#[test]
fn an_automaton_stands_behind_its_paths_nodes_and_an_inner_one_before_the_one_around_it() {
    for (text, lines) in [
        ("!<{f1}>f2", "T P,1 M,2,0 G,1 E,0,1,1,1 P,2 D,0,2 N,3"),
        ("<{f1}>f2&f3", "T P,1 M,2,0 G,1 E,0,1,1,1 P,2 D,0,2 P,3 A,3,4"),
        ("<{f1}>[{f2}]f3", "T P,1 M,2,0 G,1 E,0,1,1,1 P,2 M,2,0 G,1 E,0,1,2,1 P,3 B,1,3 D,0,4"),
        ("<{<{f1}>f2}?>f3", "T P,1 M,2,0 G,1 E,0,1,1,1 P,2 D,0,2 M,2,0 G,1 E,0,0,3,1 P,3 D,1,4"),
        // steps before the test with the inner path: their edges stand behind the inner ones
        ("<{f1};{<{f2}>f3}?>f4", "T P,1 P,2 M,2,0 G,1 E,0,1,2,1 P,3 D,0,3 M,4,0 G,3 E,0,1,1,1 E,2,0,4,3 E,1,0,0,2 P,4 D,1,5"),
        (
            "<{f1};{<{f2};{[{f3}]f4}?>f5}?>f6",
            "T P,1 P,2 P,3 M,2,0 G,1 E,0,1,3,1 P,4 B,0,4 M,4,0 G,3 E,0,1,2,1 E,2,0,5,3 E,1,0,0,2 P,5 D,1,6 \
             M,4,0 G,3 E,0,1,1,1 E,2,0,7,3 E,1,0,0,2 P,6 D,2,8",
        ),
        // the first rule of the desk
        (
            "[{true}*](!f2|<{!f0}-*>f1)",
            "T T M,4,2 G,3 E,0,1,1,1 E,2,0,0,0 E,1,0,0,0 E,1,0,0,3 E,2,0,0,3 P,2 N,2 P,0 N,4 \
             M,4,2 G,3 E,0,2,5,1 E,2,0,0,0 E,1,0,0,0 E,1,0,0,3 E,2,0,0,3 P,1 D,1,6 O,3,7 B,0,8",
        ),
    ] {
        assert_sheet(text, lines);
    }
}

#[test]
fn a_rule_says_what_its_text_means() {
    // the logs of document 01: 0 1 2, three entries without a fact, and 0 1 2 0 2
    let (w, none, z) = ([1, 2, 4], [0; 3], [1, 2, 4, 1, 4]);
    for (text, log, verdicts) in [
        ("<{true}*>f1", &w[..], &[1, 1, 0][..]),
        ("[{true}-]!true", &none, &[1, 0, 0]),
        ("[{true}]!true", &none, &[0, 0, 1]),
        ("<{true}>true", &none, &[1, 1, 0]),
        ("<{true}>true", &none[..1], &[0]),
        ("[{true}*](!f2|<{!f0}-*>f1)", &z, &[0, 0, 0, 0, 0]),
        ("[{true}*](!f2|<{!f0}-*>f1)", &z[..4], &[1, 1, 1, 1]),
        ("<{!f0}-*>f1", &z, &[0, 1, 1, 0, 0]),
        // a step's formula is asked at the entry that it leaves
        ("<{f0}>f1", &w, &[1, 0, 0]),
        ("<{f1}>f1", &w, &[0, 0, 0]),
        ("<{f1}->f0", &w, &[0, 1, 0]),
        ("<{f0}->f0", &w, &[0, 0, 0]),
        ("<{f0}?>true", &w, &[1, 0, 0]),
        ("[{f0}?]f1", &w, &[0, 1, 1]),
        // where a path leads nowhere
        ("<{!true}*;{!true}>true", &w, &[0, 0, 0]),
        ("[{!true}*;{!true}]!true", &w, &[1, 1, 1]),
        // any number of times, also none, and a * on a * or on tests
        ("<{f0}*>f1", &w, &[1, 1, 0]),
        ("<{f0}**>f1", &w, &[1, 1, 0]),
        ("<({f0}*;{f1}*)*>f2", &w, &[1, 1, 1]),
        ("[{true}?**]f0", &w, &[1, 0, 0]),
        ("<({true}?*;{true})*>f2", &w, &[1, 1, 1]),
        ("<{true};{true}+{true}->f1", &z, &[0, 0, 1, 0, 0]),
        ("<{true};({true}+{true}-)>f1", &z, &[0, 1, 0, 0, 0]),
        // a path mark within a test: on to the last fact 0, and from there back to a fact 1
        ("<({<{true};{true}*>f0}?;{true})*;{true}-*>f1", &z, &[1, 1, 1, 1, 1]),
        ("<({<{true};{true}*>f0}?;{true})*>f0", &z, &[1, 1, 1, 1, 0]),
    ] {
        assert_eq!(verdicts_of(text, log), verdicts, "{text} on {log:?}");
    }
}

#[test]
fn no_formula_can_come_from_a_byte_on() {
    for (text, place) in [
        ("", 0),
        ("t", 1),
        ("tru", 3),
        ("trux", 3),
        ("trueX", 4),
        ("True", 0),
        ("f", 1),
        ("fx", 1),
        ("f32", 2),
        ("f01", 2),
        ("f40", 2),
        ("f310", 3),
        ("f1)", 2),
        ("f1 ", 2),
        (" f1", 0),
        ("f1\n", 2),
        ("f1f2", 2),
        ("f1*", 2),
        ("f1&", 3),
        ("f1&|f2", 3),
        ("!", 1),
        ("f1!", 2),
        ("(", 1),
        ("()", 1),
        ("(f1", 3),
        ("(f1]", 3),
        ("{f1}", 0),
        ("<", 1),
        ("<>f1", 1),
        ("<f1>f2", 1),
        ("<{}>f1", 2),
        ("<{f1)>f2", 4),
        ("<{f1}", 5),
        ("<{f1}]f2", 5),
        ("[{f1}>f2", 5),
        ("<{f1}{f2}>f3", 5),
        ("<{f1}>", 6),
        ("<{f1}>>f2", 6),
        ("<{f1};>f2", 6),
        ("<{f1}+*>f2", 6),
        ("<{f1}*->f2", 6),
        ("<{f1}-->f2", 6),
        ("<{f1}?->f2", 6),
        ("<({f1};{f2})->f3", 12),
        ("<({f1}>f2", 6),
        ("<{f1}>f2>", 8),
        ("f1&é", 3),
        ("\0", 0),
    ] {
        assert_refused(text, 51, place);
    }
}

#[test]
fn a_17th_mark_open_is_52_where_a_formula_could_still_come() {
    let round = |n: usize, behind: &str| "(".repeat(n) + behind;
    for behind in ["", "f1", ")", "{", "\0", "((("] {
        assert_refused(&round(17, behind), 52, 0);
    }
    for (behind, place) in [("", 16), ("{", 16), ("+", 16), ("f1&", 19), ("f1)]", 19)] {
        assert_refused(&round(16, behind), 51, place);
    }
    assert_refused(&("x".to_string() + &round(17, "")), 51, 0);
    assert_refused(&round(16, "<{f1}>f2"), 52, 0);
    assert_refused(&round(15, "<{f1}>f2"), 52, 0);
    assert_refused(&("<{".repeat(8) + "(f1)"), 52, 0);
    assert_refused(&("<{".repeat(8) + "["), 52, 0);
    assert_refused(&("<{".repeat(8) + "{"), 51, 16);
    assert_refused(&("[".to_string() + &round(15, "{f1}")), 52, 0);
    assert_refused(&("[".to_string() + &round(15, "<")), 51, 16);
    // 16 open at once, by every mark
    assert_fits(&(round(16, "f1") + &")".repeat(16)), [2, 0, 0]);
    assert_fits(&("<{".repeat(8) + "f1" + &"}?>f2".repeat(8)), [18, 8, 8]);
    assert_fits(&("[".to_string() + &round(14, "{f1}") + &")".repeat(14) + "]f2"), [4, 1, 1]);
    // marks that are closed no longer count
    assert_fits(&["(<{f1}>((f2)))"; 5].join("|"), [20, 5, 5]);
}

#[test]
fn a_path_mark_within_a_step_ahead_or_back_is_54() {
    for text in ["<{<{f1}>f2}>f3", "<{(!<{f1}>f2)}->f3", "[{true}*](<{f1&[{f2}]f3}>f4)", "<{[{<{f1}>f2}?]f3}>f4", "<{f1}?;({<{f2}?>f3})*>f4"] {
        assert_refused(text, 54, 0);
        // 51 and 52 come before it, wherever they are, and 53 behind it
        assert_refused(&format!("{text})"), 51, text.len() as u32);
        assert_refused(&format!("{text}&{}", "(".repeat(17)), 52, 0);
        assert_refused(&(text.to_string() + &"&f1".repeat(64)), 54, 0);
    }
    assert_fits("<{<{f1}>f2}?>f3", [6, 2, 2]);
    assert_fits("<{(!<{f1}>f2)}?;{true}->f3", [8, 2, 4]);
}

#[test]
fn what_just_fits_a_sheet_is_taken() {
    let joined = |one: &str, sign: &str, n: usize| vec![one; n].join(sign);
    let path = |path: &str| format!("<{path}>f1");
    assert_fits(&joined("f1", "&", 64), [128, 0, 0]);
    assert_refused(&joined("f1", "&", 65), 53, 0);
    assert_fits(&("!".repeat(126) + "f1"), [128, 0, 0]);
    assert_refused(&("!".repeat(127) + "f1"), 53, 0);
    assert_fits(&("<{f1}>".repeat(16) + "f1"), [34, 16, 16]);
    assert_refused(&("<{f1}>".repeat(17) + "f1"), 53, 0);
    assert_fits(&path(&joined("{f1}", ";", 8)), [11, 1, 15]);
    assert_refused(&path(&joined("{f1}", ";", 9)), 53, 0);
    assert_fits(&path(&joined("{f1}", "+", 4)), [7, 1, 16]);
    assert_refused(&path(&joined("{f1}", "+", 5)), 53, 0);
    assert_fits(&path(&("{f1}".to_string() + &"*".repeat(7))), [4, 1, 29]);
    assert_refused(&path(&("{f1}".to_string() + &"*".repeat(8))), 53, 0);
    // eight automata of 29 edges, and a ninth of 24 or 25
    let most = "[{f1}*******]".repeat(8);
    assert_fits(&(most.clone() + "<({f1}+{f2})****;{f3}>f4"), [22, 9, 256]);
    assert_refused(&(most + "<({f1};{f2})*****;{f3}>f4"), 53, 0);
}

#[test]
fn over_4096_bytes_is_50_before_all_else() {
    for (text, no) in [("x", (51, 0)), ("(", (52, 0)), ("!", (51, 4096))] {
        assert_refused(&text.repeat(4096), no.0, no.1);
        assert_refused(&text.repeat(4097), 50, 0);
    }
    assert_refused(&("!".repeat(4094) + "f1"), 53, 0);
    assert_refused(&("!".repeat(4095) + "f1"), 50, 0);
}

/// The longest text that fits a sheet, 4,082 bytes, and its sheet: 14 path marks over eight steps back each, and `true` behind them; the formula of each
/// step in 14 brackets, so that 16 marks are open, and the last `true` in 16.
fn longest() -> (String, String) {
    let in_brackets = |n: usize| "(".repeat(n) + "true" + &")".repeat(n);
    let steps = vec![format!("{{{}}}-", in_brackets(14)); 8].join(";");
    let text = format!("<{steps}>").repeat(14) + &in_brackets(16);
    let mut lines = "T".to_string();
    for m in 0..14 {
        let first = 1 + 8 * m;
        lines += &(" T".repeat(8) + " M,16,0 G,15");
        lines += &format!(" E,0,2,{first},1");
        for step in 1..8 {
            let s = 2 * step;
            lines += &format!(" E,{s},2,{},{} E,{},0,0,{s}", first + step, s + 1, s - 1);
        }
    }
    // node 113 is the last `true`; from it the Ds of automata 13 to 0
    lines += " T";
    for m in 0..14 {
        lines += &format!(" D,{},{}", 13 - m, 113 + m);
    }
    (text, lines)
}

#[test]
fn the_longest_and_deepest_texts_are_read_within_a_megabyte_of_stack() {
    let read_all = || {
        let (text, lines) = longest();
        assert_eq!(text.len(), 4082);
        assert_sheet(&text, &lines);
        // 4,096 bytes by each sign that can be repeated
        let deep = "(".repeat(16) + "f1" + &")".repeat(16);
        for text in [
            "!!".to_string() + &vec![deep; 117].join("&"),
            "!".repeat(4094) + "f1",
            "f1&".repeat(1364) + "true",
            "<{f1}>".repeat(682) + "true",
            "<{true}".to_string() + &"*".repeat(4086) + ">f1",
            "<{true}".to_string() + &";{f1}".repeat(816) + "->!!!true",
        ] {
            assert_eq!(text.len(), 4096);
            assert_refused(&text, 53, 0);
        }
    };
    std::thread::Builder::new().stack_size(1 << 20).spawn(read_all).unwrap().join().unwrap();
}
