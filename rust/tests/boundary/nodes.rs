//! Sheets of up to 128 nodes: an entry's two words, and names, tests, rows and walks above node 63.
use super::{judge, judge_logs, judge_part, plain_row, profile, read_sheet, refusal, refusal_in, row_of, table_of, walk};
use rozsvelen::{holds, ENTRIES, NODES, ROW, TABLE, WORDS};

const ALL: u64 = u64::MAX;
/// What a lent word holds before a call: in each byte bits that are set and bits that are not.
const OLD: u64 = 0x5a5a_5a5a_5a5a_5a5a;

/// So many lines, then these.
fn behind(count: usize, line: &str, lines: &str) -> Vec<u8> {
    (format!("{line}\n").repeat(count) + lines).into_bytes()
}

/// W of document 01, or its mirror, behind so many T lines: T, fact 1, and the rule, a D whose edge goes ahead (1) or back (2).
fn w_behind(count: usize, dir: u32) -> Vec<u8> {
    behind(count, "T", &format!("T\nP,1\nM,1,0\nG,0\nE,0,{dir},{count},0\nD,0,{}\n", count + 1))
}

/// The words of a log, from the nodes that hold at each entry.
fn words_where(entries: &[&[usize]]) -> Vec<u64> {
    let words_at = |nodes: &&[usize]| {
        let [first, second] = [0, 64].map(|from| nodes.iter().filter(|k| (from..from + 64).contains(*k)).map(|k| 1 << (k - from)).sum());
        [first, second]
    };
    entries.iter().flat_map(words_at).collect()
}

/// Judges a log by a sheet: the words and the count of entries at which the rule holds. The word behind them is kept.
fn assert_judged(sheet: &[u8], log: &[u32], words: &[u64], held: u64) {
    let name = String::from_utf8_lossy(sheet);
    let mut verdicts = vec![OLD; WORDS * log.len() + 1];
    assert_eq!(judge(&table_of(sheet), log, &mut verdicts), held, "held, {name:?}");
    assert_eq!(verdicts, [words, &[OLD]].concat(), "words, {name:?}");
}

#[test]
fn an_entry_has_two_words() {
    assert_judged(&behind(63, "T", "P,0\n"), &[1, 0], &[ALL, 0, ALL >> 1, 0], 1);
    assert_judged(&behind(64, "T", "P,0\n"), &[1, 0], &[ALL, 1, ALL, 0], 1);
    assert_judged(&behind(127, "T", "P,0\n"), &[1, 0], &[ALL, ALL, ALL, ALL >> 1], 1);
    assert_judged(&behind(128, "T", ""), &[1, 0], &[ALL; 4], 2);
    assert_judged(&behind(128, "F", ""), &[1, 0], &[0; 4], 0);
}

#[test]
fn each_node_has_a_bit_of_its_own() {
    for k in 0..NODES {
        let sheet = [behind(k, "F", "T\n"), behind(NODES - 1 - k, "F", "")].concat();
        let words = if k < 64 { [1 << k, 0] } else { [0, 1 << (k - 64)] };
        assert_judged(&sheet, &[0, 5], &[words, words].concat(), if k == 127 { 2 } else { 0 });
        let verdicts = [[ALL; WORDS], words].concat();
        assert_eq!((0..NODES).filter(|node| holds(&verdicts, 1, *node)).collect::<Vec<_>>(), [k]);
    }
}

#[test]
fn the_129th_node_is_refused() {
    let mut table = [7; TABLE];
    for last in ["T\n", "P,0\n", "N,127\n", "A,0,127\n", "T\nM,1,0\n"] {
        assert_eq!(read_sheet(&behind(128, "T", last), &mut table), refusal(5, 129), "{last:?}");
    }
    // an automaton may still come: its one state stands on no edge, or on one that tests a node; but it is no node
    assert_eq!(read_sheet(&behind(128, "T", "M,1,0\n"), &mut table), refusal(10, 129));
    assert_eq!(read_sheet(&behind(128, "T", "M,1,0\nE,0,1,127,0\n"), &mut table), refusal(11, 130));
    assert_eq!(read_sheet(&behind(128, "T", "M,1,0\nE,0,1,128,0\n"), &mut table), refusal_in(72, 130, 4));
    assert_eq!(table, [7; TABLE]);
    assert_eq!(read_sheet(&behind(128, "T", ""), &mut table), 0);
}

#[test]
fn a_table_has_places_for_128_nodes() {
    let mut wanted = [0; TABLE];
    (0..126).for_each(|k| wanted[3 * k] = u16::from(b'T'));
    wanted[378..384].copy_from_slice(&[u16::from(b'P'), 1, 0, u16::from(b'D'), 0, 126]);
    wanted[384..390].copy_from_slice(&[1, 0, 1, 0, 1, 127]);
    wanted[480..484].copy_from_slice(&[0, 1, 125, 0]);
    wanted[1504..].copy_from_slice(&[128, 1, 1]);
    assert_eq!(table_of(&w_behind(125, 1)), wanted);
}

#[test]
fn lines_name_nodes_of_either_word() {
    assert_judged(&behind(64, "F", "P,0\nN,64\n"), &[1, 0], &[0, 0b01, 0, 0b10], 1);
    assert_judged(&[&b"P,0\n"[..], &behind(63, "F", "N,0\n")].concat(), &[1, 0], &[1, 0, 0, 1], 1);
    let facts = behind(63, "F", "P,0\nP,1\n");
    let log = [0b01, 0b10, 0b11, 0];
    assert_judged(&[&facts[..], b"A,63,64\n"].concat(), &log, &[1 << 63, 0, 0, 0b01, 1 << 63, 0b11, 0, 0], 1);
    assert_judged(&[&facts[..], b"O,64,63\n"].concat(), &log, &[1 << 63, 0b10, 0, 0b11, 1 << 63, 0b11, 0, 0], 3);
    assert_judged(&behind(126, "F", "P,0\nN,126\n"), &[1, 0], &[0, 1 << 62, 0, 1 << 63], 1);
}

/// Fact 1, so many nodes in all up to fact 0, which the automaton's edge tests, and the rule: a D on fact 1.
fn tests_node(tested: usize, automaton: &str) -> Vec<u8> {
    [&b"P,1\n"[..], &behind(tested - 1, "F", &format!("P,0\n{automaton}D,0,0\n"))].concat()
}

#[test]
fn an_edge_tests_a_node_of_either_word() {
    for t in [62, 63, 64, 100, 126] {
        // over entries with fact 0 to one with fact 1, ahead and back
        let ahead = tests_node(t, &format!("M,1,0\nG,0\nE,0,1,{t},0\n"));
        assert_judged(&ahead, &[1, 1, 2, 0, 2], &words_where(&[&[t, t + 1], &[t, t + 1], &[0, t + 1], &[], &[0, t + 1]]), 4);
        let back = tests_node(t, &format!("M,1,0\nG,0\nE,0,2,{t},0\n"));
        assert_judged(&back, &[2, 0, 2, 1, 1], &words_where(&[&[0, t + 1], &[], &[0, t + 1], &[t, t + 1], &[t, t + 1]]), 4);
        // both facts at one entry
        let stay = tests_node(t, &format!("M,2,0\nG,1\nE,0,0,{t},1\n"));
        assert_judged(&stay, &[0, 1, 2, 3], &words_where(&[&[], &[t], &[0], &[0, t, t + 1]]), 1);
    }
}

#[test]
fn a_d_or_b_stands_on_nodes_of_the_other_word() {
    // node 10 is fact 1, node 89 is T; the rule, node 90, is W's
    let d = [behind(10, "F", "P,1\n"), behind(78, "F", "T\nM,1,0\nG,0\nE,0,1,89,0\nD,0,10\n")].concat();
    assert_judged(&d, &[1, 2, 4], &words_where(&[&[89, 90], &[10, 89, 90], &[89]]), 2);
    // node 5 is fact 1; node 10: it is at every entry from here on; node 50: it was here or before; the rule, node 100: node 50 from here on
    let first = ["T\n", &"F\n".repeat(4), "P,1\n", &"F\n".repeat(4), "M,1,0\nG,0\nE,0,1,0,0\nB,0,5\n"].concat();
    let then = [&"F\n".repeat(39), "M,1,0\nG,0\nE,0,2,0,0\nD,1,5\n", &"F\n".repeat(49), "B,0,50\n"].concat();
    let words = words_where(&[&[0], &[0, 5, 50, 100], &[0, 50, 100], &[0, 5, 10, 50, 100]]);
    assert_judged((first + &then).as_bytes(), &[1, 2, 1, 2], &words, 3);
}

/// Judges parts of W or its mirror behind so many T lines, each given the row of the one before with every ignored bit set.
fn assert_handed_on(count: usize, way: u32, parts: [(u32, &[usize]); 3], bits: [u16; 3]) {
    let (numbers, rule) = (table_of(&w_behind(count, way)), count + 2);
    let mut row = [7; ROW];
    assert_eq!((plain_row(&numbers, &mut row), row), (0, [0; ROW]));
    for ((word, nodes), bit) in parts.into_iter().zip(bits) {
        let mut verdicts = [OLD; WORDS + 1];
        row = row_of(&[(rule, row[rule] | 0xfffe)], u16::MAX);
        assert_eq!(judge_part(&numbers, way, &mut row, &[word], &mut verdicts), 0);
        assert_eq!(verdicts[..], [words_where(&[nodes]), vec![OLD]].concat(), "word {word} of a part, way {way}, rule {rule}");
        assert_eq!(row, row_of(&[(rule, bit)], 0), "row behind word {word}, way {way}, rule {rule}");
        row[0] = 7;
        assert_eq!((judge_part(&numbers, way, &mut row, &[], &mut []), row), (0, row_of(&[(rule, bit)], 0)), "a part without entries");
    }
}

#[test]
fn a_row_has_a_number_for_each_of_128_nodes() {
    // the rule stands on T, fact 1 and itself: it is node 63, 64 or 127
    for t in [61, 62, 125] {
        assert_handed_on(t, 1, [(4, &[t]), (2, &[t, t + 1, t + 2]), (1, &[t, t + 2])], [0, 1, 1]);
        assert_handed_on(t, 2, [(1, &[t]), (2, &[t, t + 1, t + 2]), (4, &[t, t + 2])], [0, 1, 1]);
    }
    // a B of two states
    for k in [63, 64, 127] {
        let mut row = [7; ROW];
        let sheet = behind(k, "F", "M,2,0\nG,1\nE,0,1,0,1\nB,0,0\n");
        assert_eq!((plain_row(&table_of(&sheet), &mut row), row), (0, row_of(&[(k, 3)], 0)), "B at node {k}");
    }
}

#[test]
fn question_33_asks_for_two_words_an_entry() {
    let numbers = table_of(&behind(64, "F", "P,0\n"));
    let wanted = [0, 1, 0, 0];
    for room in 0..6 {
        let (mut whole, mut part, mut list) = (vec![OLD; room], vec![OLD; room], vec![OLD; room]);
        let (mut row, mut held) = ([7; ROW], [7; 2]);
        let answers = [
            judge(&numbers, &[1, 0], &mut whole),
            judge_part(&numbers, 2, &mut row, &[1, 0], &mut part),
            judge_logs(&numbers, &[1, 0], &[1, 1], &mut list, &mut held),
        ];
        let words = if room < 4 { vec![OLD; room] } else { [&wanted[..], &vec![OLD; room - 4]].concat() };
        assert_eq!([whole, part, list], [0; 3].map(|_| words.clone()), "{room} places");
        if room < 4 {
            let log = if room < 2 { 1 } else { 2 };
            assert_eq!((answers, row, held), ([refusal(33, 0), refusal(33, 0), refusal(33, log)], [7; ROW], [7; 2]), "{room} places");
        } else {
            assert_eq!((answers, row, held), ([1, 0, 0], [0; ROW], [1, 0]), "{room} places");
        }
    }
}

#[test]
fn logs_of_512_entries_have_1024_words() {
    let numbers = table_of(&behind(64, "F", "P,0\n"));
    let log: Vec<u32> = (0..ENTRIES as u32).map(|i| u32::from(i % 3 == 0)).collect();
    let words: Vec<u64> = (0..1024).map(|place| u64::from(place % 6 == 1)).collect();
    for room in [512, 1023, 1024, 1025] {
        let (mut whole, mut part, mut row) = (vec![OLD; room], vec![OLD; room], [7; ROW]);
        let answers = [judge(&numbers, &log, &mut whole), judge_part(&numbers, 1, &mut row, &log, &mut part)];
        let (wanted, content) = match room {
            1024.. => ([171, 0], [&words[..], &vec![OLD; room - 1024]].concat()),
            _ => ([refusal(33, 0); 2], vec![OLD; room]),
        };
        assert_eq!((answers, whole, part), (wanted, content.clone(), content), "{room} places");
    }
}

#[test]
fn a_lists_words_stand_two_an_entry() {
    let numbers = table_of(&behind(64, "T", "P,0\n"));
    let (mut verdicts, mut held) = ([OLD; 9], [7; 4]);
    assert_eq!(judge_logs(&numbers, &[1, 0, 1, 1], &[1, 2, 1], &mut verdicts, &mut held), 0);
    assert_eq!((verdicts, held), ([ALL, 1, ALL, 0, ALL, 1, ALL, 1, OLD], [1, 1, 1, 7]));
    for (room, log) in [(0, 1), (1, 1), (2, 2), (4, 2), (5, 2), (6, 3), (7, 3)] {
        let mut short = vec![OLD; room];
        assert_eq!(judge_logs(&numbers, &[1, 0, 1, 1], &[1, 2, 1], &mut short, &mut held), refusal(33, log), "{room} places");
        assert_eq!((short, held), (vec![OLD; room], [1, 1, 1, 7]), "{room} places");
    }
}

#[test]
fn walks_are_shown_of_node_127_and_not_of_128() {
    let numbers = table_of(&w_behind(125, 1));
    let log = [1, 2, 4];
    let mut edges = [5; 3];
    assert_eq!((walk(&numbers, &log, 127, 0, &mut edges), edges), (1, [0, 5, 5]));
    assert_eq!((walk(&numbers, &log, 127, 1, &mut edges), edges), (0, [0, 5, 5]));
    edges = [5; 3];
    for (node, entry, number) in [(127, 2, 39), (127, 3, 37), (126, 0, 38), (63, 0, 38), (128, 0, 36), (128, 3, 36), (255, 0, 36), (383, 0, 36)] {
        assert_eq!(walk(&numbers, &log, node, entry, &mut edges), refusal(number, 0), "node {node} at entry {entry}");
    }
    assert_eq!(edges, [5; 3]);
}

#[test]
fn a_profile_of_63_nodes_has_127_and_is_judged_like_its_sheet() {
    // node 61 is W's rule; the sheet's own rule is the opposite
    let sheet = ["T\nP,1\n", &"F\n".repeat(59), "M,1,0\nG,0\nE,0,1,0,0\nD,0,1\nN,61\n"].concat();
    let plain = ["T\nF\nP,1\nN,2\n", &"F\nT\n".repeat(59), "M,1,0\nG,0\nE,0,1,0,0\nD,0,2\nB,0,3\nB,0,3\nD,0,2\nB,0,3\n"].concat();
    let mut made = [7; TABLE];
    assert_eq!(profile(&table_of(sheet.as_bytes()), &mut made), 0);
    assert_eq!((made, made[TABLE - 3]), (table_of(plain.as_bytes()), 127));
    assert_judged(sheet.as_bytes(), &[1, 2, 4], &words_where(&[&[0, 61], &[0, 1, 61], &[0, 62]]), 1);
    // the opposite of each F line holds
    let opposites: Vec<usize> = (5..122).step_by(2).collect();
    let at = |others: &[usize]| [others, &opposites].concat();
    let words = words_where(&[&at(&[0, 3, 122, 125]), &at(&[0, 2, 122, 125]), &at(&[0, 3, 123, 124, 126])]);
    assert_judged(plain.as_bytes(), &[1, 2, 4], &words, 1);
    let larger = table_of((sheet + "N,62\n").as_bytes());
    assert_eq!((profile(&larger, &mut made), made), (refusal(42, 0), table_of(plain.as_bytes())), "64 nodes");
}
