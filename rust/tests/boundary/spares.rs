//! Parts by sheets with nodes and automata that the rule does not stand on, and which ways the rule looks.
use super::{few_nodes, judge, judge_part, plain_row, profile, refusal, row_of, rule_looks, table_of, W};
use rozsvelen::{ROW, TABLE, WORDS};

/// T, fact 1, and a D that goes back: fact 1 here or before.
const BACK_D: &str = "T\nP,1\nM,1,0\nG,0\nE,0,2,0,0\nD,0,1\n";
/// T, fact 1, an automaton that goes ahead and one that goes back, a D of the second, and the rule, a D of the first.
const U: &str = "T\nP,1\nM,1,0\nG,0\nE,0,1,0,0\nM,1,0\nG,0\nE,0,2,0,0\nD,1,1\nD,0,1\n";
/// Of a rule that looks neither way, one that looks ahead, and one that looks back: what rule_looks answers, and parts ahead and back.
const NEITHER: (u64, [u64; 2]) = (0, [0, 0]);
const ONLY_AHEAD: (u64, [u64; 2]) = (1, [0, 65536 * 34]);
const ONLY_BACK: (u64, [u64; 2]) = (2, [65536 * 34, 0]);

/// A sheet worked by hand on the log `0`, `1`, `2`, whole and as one part beside the plain row.
struct Worked {
    sheet: String,
    looks: (u64, [u64; 2]),
    /// The nodes that the rule does not stand on.
    spare: &'static [usize],
    /// Each entry's first word: the second is 0.
    words: [u64; 3],
    /// The numbers that are not 0, of the plain row and of the row that the part gives.
    rows: [&'static [(usize, u16)]; 2],
    whole: [u64; 3],
}

/// Sheets with spare nodes.
fn sheets_with_spares() -> Vec<Worked> {
    let worked = |sheet: &str, looks, spare, words, rows, whole| Worked { sheet: sheet.to_string(), looks, spare, words, rows, whole };
    vec![
        worked(U, ONLY_AHEAD, &[2], [9, 11, 1], [&[], &[(3, 1)]], [9, 15, 5]),
        // U with the automata exchanged
        worked("T\nP,1\nM,1,0\nG,0\nE,0,2,0,0\nM,1,0\nG,0\nE,0,1,0,0\nD,1,1\nD,0,1\n", ONLY_BACK, &[2], [1, 11, 9], [&[], &[(3, 1)]], [5, 15, 9]),
        // the rule is a fact, behind a D that goes both ways
        worked("T\nP,1\nM,1,0\nG,0\nE,0,1,0,0\nE,0,2,0,0\nD,0,1\nP,1\n", NEITHER, &[0, 1, 2], [0, 8, 0], [&[], &[]], [5, 15, 5]),
        // two Ds of one automaton
        worked("T\nP,1\nP,2\nM,1,0\nG,0\nE,0,1,0,0\nD,0,2\nD,0,1\n", ONLY_AHEAD, &[2, 3], [17, 19, 1], [&[], &[(4, 1)]], [25, 27, 13]),
        // the rule repeats the D above it
        worked("T\nP,1\nM,1,0\nG,0\nE,0,1,0,0\nD,0,1\nD,0,1\n", ONLY_AHEAD, &[2], [9, 11, 1], [&[], &[(3, 1)]], [13, 15, 1]),
        // a spare B of two states and a B of one
        worked(
            "T\nF\nM,2,0\nG,1\nE,0,1,0,1\nB,0,1\nM,1,0\nG,0\nE,0,1,0,0\nB,1,0\n",
            ONLY_AHEAD,
            &[1, 2],
            [9, 9, 9],
            [&[(3, 1)], &[(3, 1)]],
            [9, 9, 13],
        ),
        // T is tested by a spare automaton alone
        worked("T\nP,1\nM,1,0\nG,0\nE,0,1,0,0\nD,0,1\nN,1\n", NEITHER, &[0, 2], [8, 2, 8], [&[], &[]], [13, 7, 9]),
    ]
}

/// Sheets whose rule stands on every node, so that parts have the verdicts of the whole log.
fn sheets_without_spares() -> Vec<Worked> {
    let worked = |sheet: String, looks, words, rows| Worked { sheet, looks, spare: &[], words, rows, whole: words };
    let w = String::from_utf8(W.to_vec()).unwrap();
    vec![
        // a node used twice
        worked(format!("{w}A,2,2\n"), ONLY_AHEAD, [13, 15, 1], [&[], &[(2, 1)]]),
        worked(w, ONLY_AHEAD, [5, 7, 1], [&[], &[(2, 1)]]),
        // X and Y of document 01
        worked("T\nF\nM,2,0\nG,1\nE,0,2,0,1\nB,0,1\n".to_string(), ONLY_BACK, [5, 1, 1], [&[(2, 3)], &[]]),
        worked("T\nM,2,0\nG,1\nE,0,1,0,1\nD,0,0\n".to_string(), ONLY_AHEAD, [3, 3, 1], [&[], &[(1, 3)]]),
        // an automaton that no node names
        worked("T\nP,1\nM,1,0\nG,0\nE,0,2,0,0\nM,1,0\nG,0\nE,0,1,0,0\nD,1,1\n".to_string(), ONLY_AHEAD, [5, 7, 1], [&[], &[(2, 1)]]),
        // the rule goes back by what it is the opposite, both or either of
        worked(format!("{BACK_D}N,2\n"), ONLY_BACK, [9, 7, 5], [&[], &[(2, 1)]]),
        worked(format!("{BACK_D}A,1,2\n"), ONLY_BACK, [1, 15, 5], [&[], &[(2, 1)]]),
        worked(format!("{BACK_D}A,2,1\n"), ONLY_BACK, [1, 15, 5], [&[], &[(2, 1)]]),
        worked(format!("{BACK_D}O,1,2\n"), ONLY_BACK, [1, 15, 13], [&[], &[(2, 1)]]),
        worked(format!("{BACK_D}O,2,1\n"), ONLY_BACK, [1, 15, 13], [&[], &[(2, 1)]]),
        // by what its walks end at, and by what an edge of theirs tests
        worked(format!("{BACK_D}M,1,0\nG,0\nE,0,0,0,0\nD,1,2\n"), ONLY_BACK, [1, 15, 13], [&[], &[(2, 1), (3, 1)]]),
        worked(format!("{BACK_D}M,2,0\nG,1\nE,0,0,2,1\nD,1,0\n"), ONLY_BACK, [1, 15, 13], [&[], &[(2, 1), (3, 3)]]),
    ]
}

#[test]
fn a_spare_automaton_does_not_keep_a_log_from_being_cut() {
    for x in sheets_with_spares().into_iter().chain(sheets_without_spares()) {
        let numbers = table_of(x.sheet.as_bytes());
        let (mut plain, mut whole) = ([7; ROW], [7; 3 * WORDS + 1]);
        assert_eq!((plain_row(&numbers, &mut plain), plain), (0, row_of(x.rows[0], 0)), "plain row of {:?}", x.sheet);
        assert_eq!(rule_looks(&numbers), x.looks.0, "ways of {:?}", x.sheet);
        judge(&numbers, &[1, 2, 4], &mut whole);
        assert_eq!(whole[..], [few_nodes(&x.whole), vec![7]].concat(), "{:?} on the whole log", x.sheet);
        for (way, answer) in [(1, x.looks.1[0]), (2, x.looks.1[1])] {
            let (mut row, mut verdicts) = (plain, [7; 3 * WORDS + 1]);
            let answered = judge_part(&numbers, way, &mut row, &[1, 2, 4], &mut verdicts);
            let (words, next) = if answer == 0 { (few_nodes(&x.words), row_of(x.rows[1], 0)) } else { (vec![7; 3 * WORDS], plain) };
            assert_eq!((answered, row), (answer, next), "way {way} of {:?}", x.sheet);
            assert_eq!(verdicts[..], [words, vec![7]].concat(), "way {way} of {:?}", x.sheet);
        }
    }
}

#[test]
fn row_bits_of_spare_nodes_are_ignored_and_returned_0() {
    for x in sheets_with_spares() {
        let numbers = table_of(x.sheet.as_bytes());
        let way = if x.looks == ONLY_BACK { 2 } else { 1 };
        let mut given = row_of(x.rows[0], 0);
        x.spare.iter().for_each(|k| given[*k] = u16::MAX);
        let (mut row, mut verdicts) = (given, vec![7; 3 * WORDS]);
        assert_eq!(judge_part(&numbers, way, &mut row, &[], &mut verdicts), 0, "{:?}", x.sheet);
        assert_eq!((row, &verdicts), (row_of(x.rows[0], 0), &vec![7; 3 * WORDS]), "a part without entries, {:?}", x.sheet);
        row = given;
        assert_eq!(judge_part(&numbers, way, &mut row, &[1, 2, 4], &mut verdicts), 0, "{:?}", x.sheet);
        assert_eq!((row, verdicts), (row_of(x.rows[1], 0), few_nodes(&x.words)), "{:?}", x.sheet);
    }
}

#[test]
fn a_run_past_spare_row_bits_has_the_whole_logs_verdicts() {
    let numbers = table_of(U.as_bytes());
    let log = [1, 2, 4, 1, 2, 0];
    let mut whole = vec![7; 6 * WORDS];
    assert_eq!((judge(&numbers, &log, &mut whole), &whole), (5, &few_nodes(&[9, 15, 13, 13, 15, 5])));
    // before each call every ignored bit is set: those of other nodes, and of states that automaton 0 has not
    let mut bit = 0;
    for (part, words, next) in [(5..6, &[1][..], 0), (3..5, &[9, 11], 1), (3..3, &[], 1), (0..3, &[9, 11, 9], 1)] {
        let mut row = row_of(&[(3, 0xfffe | bit)], u16::MAX);
        let mut verdicts = vec![7; WORDS * part.len()];
        assert_eq!(judge_part(&numbers, 1, &mut row, &log[part.clone()], &mut verdicts), 0, "entries {part:?}");
        assert_eq!((&verdicts, row), (&few_nodes(words), row_of(&[(3, next)], 0)), "entries {part:?}");
        bit = row[3];
        // the rule stands on nodes 0, 1 and 3
        let on_rule: Vec<u64> = whole[WORDS * part.start..WORDS * part.end].iter().map(|word| word & 0b1011).collect();
        assert_eq!(on_rule, verdicts);
    }
}

#[test]
fn a_rule_that_looks_both_ways_is_34_both_ways() {
    let sheets = [
        // Z of document 01
        "P,0\nP,1\nP,2\nN,0\nT\nM,1,0\nG,0\nE,0,2,3,0\nD,0,1\nN,2\nO,6,5\nM,1,0\nG,0\nE,0,1,4,0\nB,1,7\n".to_string(),
        // both automata of U
        format!("{U}A,2,3\n"),
        // an edge back from a state that no walk comes to
        "T\nP,1\nM,2,0\nG,0\nE,0,1,0,0\nE,1,2,0,1\nD,0,1\n".to_string(),
        // an edge tests a D that goes back; the same from a state that no walk comes to
        format!("{BACK_D}M,1,0\nG,0\nE,0,0,2,0\nE,0,1,0,0\nD,1,1\n"),
        format!("{BACK_D}M,2,0\nG,0\nE,0,1,0,0\nE,1,0,2,1\nD,1,1\n"),
    ];
    for sheet in sheets {
        let numbers = table_of(sheet.as_bytes());
        assert_eq!(rule_looks(&numbers), 3, "{sheet:?}");
        for way in [1, 2] {
            let (mut row, mut verdicts) = ([7; ROW], [9; 3 * WORDS]);
            assert_eq!(judge_part(&numbers, way, &mut row, &[1, 2, 4], &mut verdicts), refusal(34, 0), "way {way} of {sheet:?}");
            assert_eq!((row, verdicts), ([7; ROW], [9; 3 * WORDS]), "way {way} of {sheet:?}");
        }
    }
}

#[test]
fn a_sheet_with_a_spare_automaton_is_asked_34_then_32_then_33() {
    let numbers = table_of(U.as_bytes());
    let (mut row, mut verdicts) = ([7; ROW], [9; 3 * WORDS - 1]);
    assert_eq!(judge_part(&numbers, 2, &mut row, &[0; 513], &mut verdicts), refusal(34, 0));
    assert_eq!(judge_part(&numbers, 1, &mut row, &[0; 513], &mut verdicts), refusal(32, 0));
    assert_eq!(judge_part(&numbers, 1, &mut row, &[1, 2, 4], &mut verdicts), refusal(33, 0));
    assert_eq!((row, verdicts), ([7; ROW], [9; 3 * WORDS - 1]));
}

#[test]
fn a_profile_looks_the_ways_that_its_sheet_looks() {
    let mut made = [7; TABLE];
    assert_eq!(profile(&table_of(U.as_bytes()), &mut made), 0);
    assert_eq!(rule_looks(&made), 1);
    let (mut row, mut verdicts) = ([0; ROW], vec![9; 3 * WORDS]);
    // its rule is node 8, a D on node 2, fact 1; T, tested by its edge, is node 0
    assert_eq!(judge_part(&made, 1, &mut row, &[1, 2, 4], &mut verdicts), 0);
    assert_eq!((row, &verdicts), (row_of(&[(8, 1)], 0), &few_nodes(&[257, 261, 1])));
    assert_eq!(judge_part(&made, 2, &mut row, &[1, 2, 4], &mut verdicts), refusal(34, 0));
}
