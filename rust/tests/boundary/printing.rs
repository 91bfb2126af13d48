//! Rules as text: every letter, what is not printed, buffers of every length, refusals, and texts whose length takes more than 16 bits.
use super::{print_rule, refusal, table_of};
use rozsvelen::{Sheet, TABLE};

/// What a lent byte holds before a call: no text has it.
const OLD: u8 = b'#';
/// Z of document 01.
const Z: &str = "P,0\nP,1\nP,2\nN,0\nT\nM,1,0\nG,0\nE,0,2,3,0\nD,0,1\nN,2\nO,6,5\nM,1,0\nG,0\nE,0,1,4,0\nB,1,7\n";

/// Prints a rule in so many bytes: the answer, and what the bytes then are.
fn print_in(numbers: &[u16], room: usize) -> (u64, Vec<u8>) {
    let mut text = vec![OLD; room];
    (print_rule(numbers, &mut text), text)
}

/// An answer that gives a length: its lowest 16 bits in a count's place, the others in the upper 32.
fn length(bytes: usize) -> u64 {
    let [upper, lowest] = [bytes / 65_536, bytes % 65_536].map(|n| n as u64);
    (upper << 32) + lowest
}

/// The sheet's rule is this text in each of these rooms: 55 where it is longer, else in the first places, and the rest kept.
fn assert_printed(sheet: &str, text: &str, rooms: impl IntoIterator<Item = usize>) {
    let numbers = table_of(sheet.as_bytes());
    for room in rooms {
        let (answer, bytes) = print_in(&numbers, room);
        let (wanted, written) = if text.len() > room { (refusal(55, 0), "") } else { (length(text.len()), text) };
        assert_eq!(answer, wanted, "the answer in {room} bytes, {sheet:?}");
        let content = [written.as_bytes(), &vec![OLD; room - written.len()]].concat();
        assert!(bytes == content, "the content of {room} bytes, {sheet:?}: {:?}", String::from_utf8_lossy(&bytes[..room.min(200)]));
    }
}

/// In a buffer of each length up to three more than the text's.
fn assert_printed_everywhere(sheet: &str, text: &str) {
    assert_printed(sheet, text, 0..text.len() + 4);
}

#[test]
fn each_letter_has_its_text() {
    let m = "M,1,0\nG,0\nE,0,1,0,0\n";
    for (sheet, text) in [
        ("T\n".to_string(), "true"),
        ("F\n".to_string(), "false"),
        ("P,3\n".to_string(), "f3"),
        ("P,3\nN,0\n".to_string(), "(!f3)"),
        ("P,1\nP,2\nA,0,1\n".to_string(), "(f1&f2)"),
        ("P,1\nP,2\nO,0,1\n".to_string(), "(f1|f2)"),
        ("P,1\nP,2\nA,1,0\n".to_string(), "(f2&f1)"),
        ("P,1\nP,2\nO,1,0\n".to_string(), "(f2|f1)"),
        (format!("P,0\nP,1\n{m}D,0,1\n"), "(<m0>f1)"),
        (format!("P,0\nP,1\n{m}B,0,1\n"), "([m0]f1)"),
        (format!("P,0\n{m}{m}T\nF\nD,1,2\nB,0,3\nN,4\n"), "(!([m0](<m1>false)))"),
        (Z.to_string(), "([m1]((!f2)|(<m0>f1)))"),
    ] {
        assert_printed_everywhere(&sheet, text);
    }
}

#[test]
fn facts_and_automata_have_their_numbers() {
    for f in 0..32 {
        assert_printed_everywhere(&format!("P,{f}\n"), &format!("f{f}"));
    }
    let automata = "T\n".to_string() + &"M,1,0\nE,0,0,0,0\n".repeat(16);
    for m in 0..16 {
        assert_printed_everywhere(&format!("{automata}P,10\nD,{m},1\n"), &format!("(<m{m}>f10)"));
        assert_printed_everywhere(&format!("{automata}P,10\nB,{m},1\n"), &format!("([m{m}]f10)"));
    }
}

#[test]
fn what_the_rule_does_not_name_is_not_printed() {
    // a D of another automaton stands between, and the rule's own keeps its number
    assert_printed_everywhere("T\nP,1\nM,1,0\nG,0\nE,0,2,0,0\nM,1,0\nG,0\nE,0,1,0,0\nD,0,1\nD,1,1\n", "(<m1>f1)");
    // an edge tests fact 4 and, staying, a D
    assert_printed_everywhere("P,4\nP,1\nM,1,0\nG,0\nE,0,1,0,0\nD,0,0\nM,1,0\nG,0\nE,0,0,2,0\nB,1,1\n", "([m1]f1)");
    // 127 lines before a fact
    assert_printed_everywhere(&["T\n", &"A,0,0\n".repeat(126), "P,20\n"].concat(), "f20");
}

#[test]
fn a_node_named_twice_is_printed_twice() {
    assert_printed_everywhere("P,1\nA,0,0\n", "(f1&f1)");
    assert_printed_everywhere("P,1\nN,0\nA,1,1\nO,2,1\n", "(((!f1)&(!f1))|(!f1))");
    assert_printed_everywhere("T\nM,1,0\nG,0\nE,0,1,0,0\nD,0,0\nO,1,1\nB,0,2\n", "([m0]((<m0>true)|(<m0>true)))");
}

#[test]
fn a_rule_is_printed_down_127_nodes() {
    let under = |name: fn(usize) -> String| (0..127).map(name).collect::<String>();
    let n = under(|k| format!("N,{k}\n"));
    assert_printed(&format!("T\n{n}"), &("(!".repeat(127) + "true" + &")".repeat(127)), [384, 385, 386]);
    let left = under(|k| format!("A,{k},0\n"));
    assert_printed(&format!("P,7\n{left}"), &("(".repeat(127) + "f7" + &"&f7)".repeat(127)), [636, 637, 638]);
    let right = under(|k| format!("O,0,{k}\n"));
    assert_printed(&format!("P,7\n{right}"), &("(f7|".repeat(127) + "f7" + &")".repeat(127)), [636, 637, 638]);
    let d = under(|k| format!("D,0,{k}\n"));
    assert_printed(&format!("T\nM,1,0\nE,0,0,0,0\n{d}"), &("(<m0>".repeat(127) + "true" + &")".repeat(127)), [765, 766, 767]);
}

#[test]
fn no_table_is_31_before_55() {
    let given = table_of(b"P,3\nN,0\nN,1\n");
    for (what, place, number) in [
        ("another letter", 0, u16::from(b'Q')),
        ("no letter", 6, 0),
        ("a D without an automaton", 6, u16::from(b'D')),
        ("a fact above 31", 1, 32),
        ("a fact too large for its place", 1, 256 + 3),
        ("an N that names itself", 4, 1),
        ("an N that names a later line", 4, 2),
        ("a rule that names itself", 7, 2),
        ("an N with two numbers", 8, 1),
        ("a line behind the last", 9, u16::from(b'T')),
        ("no node", TABLE - 3, 0),
        ("a node less", TABLE - 3, 2),
        ("a node more", TABLE - 3, 4),
        ("more nodes than there may be", TABLE - 3, 129),
    ] {
        let mut changed = given;
        changed[place] = number;
        for room in [0, 1, 64] {
            assert_eq!(print_in(&changed, room), (refusal(31, 0), vec![OLD; room]), "{what}, in {room} bytes");
        }
    }
    let longer = [&given[..], &[0]].concat();
    for numbers in [&[][..], &given[..TABLE - 1], &longer, &[0; TABLE]] {
        for room in [0, 1, 64] {
            assert_eq!(print_in(numbers, room), (refusal(31, 0), vec![OLD; room]), "{} numbers, in {room} bytes", numbers.len());
        }
    }
    assert_printed("P,3\nN,0\nN,1\n", "(!(!f3))", [0, 1, 64]);
}

/// A line, so many A lines that each name the one before twice, and so many N lines. Where the first is F, the text has 2^(times + 3) - 3 bytes, and
/// each N line adds 3.
fn doubled(line: &str, times: usize, under: usize) -> String {
    let twice: String = (0..times).map(|k| format!("A,{k},{k}\n")).collect();
    let under: String = (times..times + under).map(|k| format!("N,{k}\n")).collect();
    format!("{line}\n{twice}{under}")
}

/// The same as text.
fn doubled_text(leaf: &str, times: usize, under: usize) -> String {
    let twice = (0..times).fold(leaf.to_string(), |text, _| format!("({text}&{text})"));
    (0..under).fold(twice, |text, _| format!("(!{text})"))
}

#[test]
fn all_bits_of_a_length_are_given() {
    for (times, under, bytes) in [(13, 0, 65_533), (13, 1, 65_536), (13, 2, 65_539), (14, 1, 131_072), (16, 0, 524_285)] {
        let text = doubled_text("false", times, under);
        assert_eq!(text.len(), bytes);
        let sheet = doubled("F", times, under);
        assert_printed(&sheet, &text, [bytes - 1, bytes, bytes + 1, bytes + 70_000]);
        let mut room = vec![OLD; bytes];
        assert_eq!(rozsvelen::print_rule(&Sheet::read(sheet.as_bytes()).unwrap(), &mut room), Ok(bytes));
    }
}

#[test]
fn a_text_of_astronomical_length_is_55_at_once() {
    // two N lines on F, doubled so often: 2^n + 3 bytes, of which n bits would say 3
    let beside_a_power = [16, 31, 32, 48, 63, 64, 127, 128].map(|n| doubled("F", n - 3, 2));
    for sheet in beside_a_power.into_iter().chain([doubled("T", 40, 0), doubled("T", 127, 0), doubled("P,1", 127, 0)]) {
        let numbers = table_of(sheet.as_bytes());
        for room in [0, 1, 3, 4096, 65_535] {
            assert!(print_in(&numbers, room) == (refusal(55, 0), vec![OLD; room]), "{room} bytes, {sheet:?}");
        }
    }
}
