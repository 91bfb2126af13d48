//! What only a caller of the C functions can do or see: slices of other lengths, numbers that are no table's, other numbers for the way, and
//! the whole number of an answer.
use rozsvelen::{holds, Sheet, ENTRIES, NODES, PAGE, ROW, TABLE, WORDS};

#[path = "../src/calls.rs"]
#[allow(dead_code)]
mod calls;
#[path = "boundary/fields.rs"]
mod fields;
#[path = "boundary/formulas.rs"]
mod formulas;
#[path = "boundary/nodes.rs"]
mod nodes;
#[path = "boundary/printing.rs"]
mod printing;
#[path = "boundary/spares.rs"]
mod spares;

use calls::*;

const W: &[u8] = b"T\nP,1\nM,1,0\nG,0\nE,0,1,0,0\nD,0,1\n";

/// An answer without a count: the question's number and line, or the log of a list.
fn refusal(number: u64, line: u64) -> u64 {
    65536 * number + (line << 32)
}

/// The same of a sheet, and the field.
fn refusal_in(number: u64, line: u64, field: u64) -> u64 {
    refusal(number, line) + (field << 48)
}

/// The words of a log by a sheet of at most 64 nodes: behind each entry's first word stands a 0.
fn few_nodes(first_words: &[u64]) -> Vec<u64> {
    first_words.iter().flat_map(|word| [*word, 0]).collect()
}

/// A row of these numbers, and else of this one.
fn row_of(numbers: &[(usize, u16)], other: u16) -> [u16; ROW] {
    let mut row = [other; ROW];
    numbers.iter().for_each(|(k, number)| row[*k] = *number);
    row
}

fn table_of(text: &[u8]) -> [u16; TABLE] {
    *Sheet::read(text).unwrap().numbers()
}

fn table() -> [u16; TABLE] {
    table_of(W)
}

fn read_sheet(text: &[u8], table: &mut [u16]) -> u64 {
    unsafe { rozsvelen_read_sheet(text.as_ptr(), text.len(), table.as_mut_ptr(), table.len()) }
}

fn profile(table: &[u16], out: &mut [u16]) -> u64 {
    unsafe { rozsvelen_profile(table.as_ptr(), table.len(), out.as_mut_ptr(), out.len()) }
}

fn in_profile(table: &[u16]) -> u64 {
    unsafe { rozsvelen_in_profile(table.as_ptr(), table.len()) }
}

fn rule_looks(table: &[u16]) -> u64 {
    unsafe { rozsvelen_rule_looks(table.as_ptr(), table.len()) }
}

fn read_log(text: &[u8], words: &mut [u32]) -> u64 {
    unsafe { rozsvelen_read_log(text.as_ptr(), text.len(), words.as_mut_ptr(), words.len()) }
}

fn read_counted(text: &[u8], words: &mut [u32]) -> u64 {
    unsafe { rozsvelen_read_counted(text.as_ptr(), text.len(), words.as_mut_ptr(), words.len()) }
}

fn steps_between(earlier: u16, later: u16) -> u64 {
    unsafe { rozsvelen_steps_between(earlier, later) }
}

fn entry_bearing(first: u16, entries: usize, counter: u16) -> u64 {
    unsafe { rozsvelen_entry_bearing(first, entries, counter) }
}

fn judge(table: &[u16], log: &[u32], verdicts: &mut [u64]) -> u64 {
    unsafe { rozsvelen_judge(table.as_ptr(), table.len(), log.as_ptr(), log.len(), verdicts.as_mut_ptr(), verdicts.len()) }
}

fn judge_logs(table: &[u16], words: &[u32], lengths: &[u16], verdicts: &mut [u64], held: &mut [u16]) -> u64 {
    unsafe {
        rozsvelen_judge_logs(
            table.as_ptr(),
            table.len(),
            words.as_ptr(),
            words.len(),
            lengths.as_ptr(),
            lengths.len(),
            verdicts.as_mut_ptr(),
            verdicts.len(),
            held.as_mut_ptr(),
            held.len(),
        )
    }
}

fn plain_row(table: &[u16], row: &mut [u16]) -> u64 {
    unsafe { rozsvelen_plain_row(table.as_ptr(), table.len(), row.as_mut_ptr(), row.len()) }
}

fn walk(table: &[u16], log: &[u32], node: u32, entry: u32, edges: &mut [u16]) -> u64 {
    unsafe { rozsvelen_walk(table.as_ptr(), table.len(), log.as_ptr(), log.len(), node, entry, edges.as_mut_ptr(), edges.len()) }
}

fn print_rule(table: &[u16], text: &mut [u8]) -> u64 {
    unsafe { rozsvelen_print_rule(table.as_ptr(), table.len(), text.as_mut_ptr(), text.len()) }
}

fn page(rules: &[u8], steps: &[u8], page: &mut [u8]) -> u64 {
    unsafe { rozsvelen_page(rules.as_ptr(), rules.len(), steps.as_ptr(), steps.len(), page.as_mut_ptr(), page.len()) }
}

fn judge_part(table: &[u16], way: u32, row: &mut [u16], words: &[u32], verdicts: &mut [u64]) -> u64 {
    unsafe {
        rozsvelen_judge_part(
            table.as_ptr(),
            table.len(),
            way,
            row.as_mut_ptr(),
            row.len(),
            words.as_ptr(),
            words.len(),
            verdicts.as_mut_ptr(),
            verdicts.len(),
        )
    }
}

#[test]
fn a_table_to_be_written_has_its_length() {
    for length in [0, TABLE - 1, TABLE + 1] {
        let mut table = vec![7; length];
        assert_eq!(read_sheet(W, &mut table), refusal(35, 0));
        assert_eq!(read_sheet(b"Q\n", &mut table), refusal(35, 0), "35 comes before the sheet's own questions");
        assert_eq!(table, vec![7; length]);
    }
}

#[test]
fn a_refused_sheet_alters_no_table() {
    let mut table = [7; TABLE];
    assert_eq!(read_sheet(b"T\nQ\n", &mut table), refusal(3, 2));
    assert_eq!(table, [7; TABLE]);
}

#[test]
fn zeros_before_the_numbers_of_a_sheet_change_nothing() {
    let mut padded = [7; TABLE];
    assert_eq!(read_sheet(b"T\nP,001\nM,01,00\nG,000\nE,00,001,000,00\nD,00,01\n", &mut padded), 0);
    assert_eq!(padded, table());
    assert_eq!(read_sheet(b"T\nP,0007\n", &mut padded), refusal(4, 2), "four digits are no number");
    assert_eq!(read_sheet(b"T\nP,032\n", &mut padded), refusal_in(71, 2, 2), "a padded number is held to its range");
    assert_eq!(padded, table());
}

/// A sheet, its profile worked by hand, a log of three entries, and its verdicts (each entry's first word) and held count by that profile.
type Profiled<'a> = (&'a [u8], &'a [u8], [u32; 3], [u64; 3], u64);

#[test]
fn profiles_are_as_worked_by_hand() {
    let worked: [Profiled; 4] = [
        (W, b"T\nF\nP,1\nN,2\nM,1,0\nG,0\nE,0,1,0,0\nD,0,2\nB,0,3\nD,0,2\n", [1, 2, 4], [89, 85, 41], 2),
        // X of document 01
        (b"T\nF\nM,2,0\nG,1\nE,0,2,0,1\nB,0,1\n", b"T\nF\nF\nT\nM,2,0\nG,1\nE,0,2,0,1\nB,0,2\nD,0,3\nB,0,2\n", [0; 3], [89, 41, 41], 1),
        (b"P,0\nP,1\nO,0,1\nA,2,0\n", b"P,0\nN,0\nP,1\nN,2\nO,0,2\nA,1,3\nA,4,0\nO,5,1\nA,4,0\n", [1, 2, 0], [345, 150, 170], 1),
        // the rule is an N on a D, and the edge tests an N line
        (
            b"P,0\nN,0\nM,1,0\nG,0\nE,0,1,1,0\nD,0,1\nN,2\n",
            b"P,0\nN,0\nN,0\nP,0\nM,1,0\nG,0\nE,0,1,2,0\nD,0,2\nB,0,3\nB,0,3\nD,0,2\nB,0,3\n",
            [1, 0, 1],
            [361, 150, 361],
            2,
        ),
    ];
    for (sheet, wanted, log, words, held) in worked {
        let (mut made, mut verdicts) = ([7; TABLE], [9; 3 * WORDS]);
        assert_eq!(profile(&table_of(sheet), &mut made), 0, "{:?}", String::from_utf8_lossy(sheet));
        assert_eq!(made, table_of(wanted), "{:?}", String::from_utf8_lossy(sheet));
        assert_eq!(judge(&made, &log, &mut verdicts), held, "{:?}", String::from_utf8_lossy(sheet));
        assert_eq!(verdicts[..], few_nodes(&words), "{:?}", String::from_utf8_lossy(sheet));
    }
}

#[test]
fn a_profile_has_at_most_128_nodes() {
    let mut made = [7; TABLE];
    for nodes in [64, 65, NODES] {
        assert_eq!(profile(&table_of(&b"T\n".repeat(nodes)), &mut made), refusal(42, 0), "{nodes} nodes");
    }
    assert_eq!(made, [7; TABLE]);
    for nodes in [31, 32, 63] {
        assert_eq!(profile(&table_of(&b"T\n".repeat(nodes)), &mut made), 0, "{nodes} nodes");
        assert_eq!(made, table_of(&[&b"T\nF\n".repeat(nodes)[..], b"T\n"].concat()), "{nodes} nodes");
        assert_eq!(made[TABLE - 3] as usize, 2 * nodes + 1);
    }
}

#[test]
fn a_profile_is_asked_35_then_31_then_42() {
    let many = table_of(&b"T\n".repeat(64));
    for length in [0, TABLE - 1, TABLE + 1] {
        let mut out = vec![7; length];
        for numbers in [table(), [0; TABLE], many] {
            assert_eq!(profile(&numbers, &mut out), refusal(35, 0));
        }
        assert_eq!(out, vec![7; length]);
    }
    let mut changed = many;
    changed[0] = 0;
    let mut out = [7; TABLE];
    assert_eq!(profile(&[0; TABLE], &mut out), refusal(31, 0));
    assert_eq!(profile(&changed, &mut out), refusal(31, 0), "31 comes before 42");
    assert_eq!(out, [7; TABLE]);
}

#[test]
fn in_the_profile_every_n_stands_on_a_fact() {
    let twice = table_of(b"P,0\nN,0\nN,1\n");
    let mut made = [7; TABLE];
    assert_eq!(profile(&twice, &mut made), 0);
    for (numbers, answer) in [(table(), 1), (table_of(b"T\nN,0\n"), 0), (table_of(b"F\nN,0\n"), 0), (twice, 0), (made, 1)] {
        assert_eq!(in_profile(&numbers), answer, "nodes {:?}", &numbers[..21]);
    }
    assert_eq!(in_profile(&table_of(b"T\nN,0\nP,0\n")), 0, "an N line that the rule does not use");
    assert_eq!(in_profile(&[0; TABLE]), refusal(31, 0));
}

#[test]
fn zeros_before_the_facts_of_a_log_change_nothing() {
    let mut words = [9; 4];
    assert_eq!(read_log(b"07\n-\n000,007,031\n", &mut words), 3);
    assert_eq!(words, [1 << 7, 0, 1 | 1 << 7 | 1 << 31, 9]);
    for (text, no) in [(&b"7,07\n"[..], 26), (b"0007\n", 24), (b"032\n", 25)] {
        assert_eq!(read_log(text, &mut words), refusal(no, 1), "{:?}", String::from_utf8_lossy(text));
    }
    assert_eq!(words, [1 << 7, 0, 1 | 1 << 7 | 1 << 31, 9]);
}

#[test]
fn a_log_with_counters_is_read_to_its_words_and_first_counter() {
    let mut words = [9; 4];
    assert_eq!(read_counted(b"65534,0\n65535,-\n0,1,2\n", &mut words), 3 | 65534 << 48);
    assert_eq!(words, [1, 0, 6, 9]);
    assert_eq!(read_counted(b"00007,31\n", &mut words), 1 | 7 << 48);
    assert_eq!(words, [1 << 31, 0, 6, 9]);
    assert_eq!(read_counted(b"5,07\n00006,-\n", &mut words), 2 | 5 << 48);
    assert_eq!(words, [1 << 7, 0, 6, 9]);
    assert_eq!(read_counted(b"0,-\n1,000,031\n", &mut words), 2, "a first counter of 0");
    assert_eq!(words, [0, 1 | 1 << 31, 6, 9]);
}

/// A text, and the number and line of the refusal.
type RefusedText<'a> = (&'a [u8], u64, u64);

/// None of these alters a word, and none gives a count or a counter.
fn none_is_read(texts: &[RefusedText], words: &mut [u32]) {
    let before = words.to_vec();
    for (text, number, line) in texts {
        assert_eq!(read_counted(text, words), refusal(*number, *line), "{:?}", String::from_utf8_lossy(text));
    }
    assert_eq!(words, before);
}

#[test]
fn a_counter_is_the_one_before_plus_one() {
    let texts: [RefusedText; 8] = [
        (b"7,-\n9,-\n", 29, 2),
        (b"7,-\n7,-\n", 29, 2),
        (b"7,-\n6,-\n", 29, 2),
        (b"7,-\n8,-\n10,-\n", 29, 3),
        (b"65535,-\n1,-\n", 29, 2),
        (b"65534,-\n0,-\n", 29, 2),
        (b"0,-\n65535,-\n", 29, 2),
        (b"0,-\n257,-\n", 29, 2),
    ];
    none_is_read(&texts, &mut [9; 4]);
}

#[test]
fn a_counter_is_one_to_five_digits_and_at_most_65535() {
    let texts: [RefusedText; 8] = [
        (b"65535,-\n65536,-\n", 28, 2),
        (b",1\n", 28, 1),
        (b"-,1\n", 28, 1),
        (b"000007,1\n", 28, 1),
        (b"99999,1\n", 28, 1),
        (b"100000,1\n", 28, 1),
        (b"+5,1\n", 28, 1),
        (b" 5,1\n", 28, 1),
    ];
    none_is_read(&texts, &mut [9; 4]);
}

#[test]
fn a_line_with_a_counter_is_asked_24_28_29_25_26() {
    let texts: [RefusedText; 13] = [
        (b"5\n", 24, 1),
        (b"5,\n", 24, 1),
        (b"\n", 24, 1),
        (b"-\n", 24, 1),
        (b"5,-,1\n", 24, 1),
        (b"5,0007\n", 24, 1),
        (b"99999,x\n", 24, 1),
        (b"70000,32\n", 28, 1),
        (b"5,-\n9,32\n", 29, 2),
        (b"5,-\n9,2,1\n", 29, 2),
        (b"5,-\n6,32\n", 25, 2),
        (b"5,-\n6,2,1\n", 26, 2),
        (b"5,-\n6,32,1\n", 25, 2),
    ];
    none_is_read(&texts, &mut [9; 4]);
}

#[test]
fn a_log_with_counters_is_asked_21_22_first_and_27_last() {
    let longest = [&b"x".repeat(49_151)[..], b"\n"].concat();
    let over = [&b"x"[..], &longest].concat();
    none_is_read(&[(b"", 22, 0), (b"5,-", 22, 0), (&longest, 24, 1), (&over, 21, 0), (&over[..49_152], 22, 0)], &mut [9; 4]);
    none_is_read(&[(b"7,0\n8,-\n", 27, 0), (b"7,0\n9,-\n", 29, 2)], &mut [9]);
    none_is_read(&[(b"7,0\n", 27, 0), (b"7,x\n", 24, 1)], &mut []);
    let mut words = [9; 2];
    assert_eq!((read_counted(b"7,0\n8,-\n", &mut words), words), (2 | 7 << 48, [1, 0]), "a word for each line is enough");
}

#[test]
fn steps_go_round_the_circle() {
    for (earlier, later, steps) in [(65535, 0, 1), (0, 65535, 65535), (5, 5, 0), (10, 3, 65529), (3, 10, 7), (65535, 65534, 65535)] {
        assert_eq!(steps_between(earlier, later), steps, "from {earlier} to {later}");
    }
}

#[test]
fn at_most_one_entry_bears_a_counter() {
    for (counter, answer) in [(65534, 0), (65535, 1), (0, 2), (1, refusal(30, 0)), (65533, refusal(30, 0))] {
        assert_eq!(entry_bearing(65534, 3, counter), answer, "counter {counter}");
    }
    for (counter, answer) in [(7, 0), (518, 511), (519, refusal(30, 0)), (6, refusal(30, 0))] {
        assert_eq!(entry_bearing(7, 512, counter), answer, "counter {counter}");
    }
    // cut to 16 or 32 bits, two of these would be 3 entries
    for entries in [0, 513, 65_535, (1 << 16) + 3, (1 << 32) + 3, usize::MAX] {
        assert_eq!(entry_bearing(65534, entries, 65534), refusal(32, 0), "{entries} entries");
        assert_eq!(entry_bearing(65534, entries, 1), refusal(32, 0), "32 comes before 30, {entries} entries");
    }
}

#[test]
fn a_row_has_its_length() {
    for length in [0, ROW - 1, ROW + 1] {
        let mut row = vec![7; length];
        let mut verdicts = [9; WORDS];
        assert_eq!(plain_row(&table(), &mut row), refusal(35, 0));
        assert_eq!(judge_part(&table(), 1, &mut row, &[2], &mut verdicts), refusal(35, 0));
        assert_eq!((row, verdicts), (vec![7; length], [9; WORDS]));
    }
}

#[test]
fn numbers_that_are_no_tables_are_31() {
    let mut large = table();
    large[0] += 256;
    for numbers in [&table()[..TABLE - 1], &[], &large[..], &[0; TABLE + 1]] {
        let mut verdicts = [9; 1 + WORDS];
        let mut row = [7; ROW];
        let mut edges = [5; 3];
        let mut made = [3; TABLE];
        let mut text = [b'#'; 8];
        assert_eq!(profile(numbers, &mut made), refusal(31, 0));
        assert_eq!(in_profile(numbers), refusal(31, 0));
        assert_eq!(rule_looks(numbers), refusal(31, 0));
        assert_eq!(judge(numbers, &[2], &mut verdicts), refusal(31, 0));
        assert_eq!(plain_row(numbers, &mut row), refusal(31, 0));
        assert_eq!(judge_part(numbers, 1, &mut row, &[2], &mut verdicts), refusal(31, 0));
        assert_eq!(walk(numbers, &[2], 2, 0, &mut edges), refusal(31, 0));
        assert_eq!(print_rule(numbers, &mut text), refusal(31, 0));
        assert_eq!((row, verdicts, edges, made, text), ([7; ROW], [9; 1 + WORDS], [5; 3], [3; TABLE], [b'#'; 8]));
    }
}

/// At how many entries node 2 holds: it is W's rule.
fn rule_holds(verdicts: &[u64]) -> usize {
    (0..verdicts.len() / WORDS).filter(|entry| holds(verdicts, *entry, 2)).count()
}

#[test]
fn the_count_is_that_of_the_rules_bits_whole_and_in_parts() {
    let log = [1, 2, 4, 1, 2, 0];
    let mut whole = [9; 6 * WORDS + 1];
    assert_eq!(judge(&table(), &log, &mut whole), 5, "fact 1 comes at entries 1 and 4, so not after entry 4");
    assert_eq!(whole, [0b101, 0, 0b111, 0, 0b101, 0, 0b101, 0, 0b111, 0, 0b001, 0, 9]);
    assert_eq!(rule_holds(&whole), 5);

    let (mut row, mut held) = ([7; ROW], 0);
    assert_eq!(plain_row(&table(), &mut row), 0);
    for part in [4..6, 3..3, 0..4] {
        let mut verdicts = vec![9; WORDS * part.len()];
        assert_eq!(judge_part(&table(), 1, &mut row, &log[part], &mut verdicts), 0);
        held += rule_holds(&verdicts);
    }
    assert_eq!(held, 5, "the parts' rule bits are the whole log's");
}

#[test]
fn many_logs_are_asked_31_then_32_then_33() {
    let (mut verdicts, mut held) = ([9; 5], [7; 2]);
    assert_eq!(judge_logs(&table()[1..], &[2], &[0], &mut [], &mut held), refusal(31, 0), "31 comes before 32");
    assert_eq!(judge_logs(&[], &[], &[], &mut [], &mut []), refusal(31, 0), "31 is asked where there is no log");
    assert_eq!(judge_logs(&table(), &[2], &[1, 0], &mut [], &mut held), refusal(32, 2), "32 comes before 33");
    assert_eq!(judge_logs(&table(), &[2, 0], &[1, 1], &mut verdicts[..1], &mut held), refusal(33, 1), "log 1 has room for one of its words");
    assert_eq!(judge_logs(&table(), &[2, 0], &[1, 1], &mut verdicts[..2], &mut held), refusal(33, 2), "log 2 has no room for its words");
    assert_eq!(judge_logs(&table(), &[2, 0], &[1, 1], &mut verdicts[..3], &mut held), refusal(33, 2), "log 2 has room for one of its words");
    assert_eq!(judge_logs(&table(), &[2, 0], &[1, 1], &mut verdicts, &mut held[..1]), refusal(33, 2), "log 2 has no room for its count");
    assert_eq!((verdicts, held), ([9; 5], [7; 2]));
    assert_eq!(judge_logs(&table(), &[2, 0], &[1, 1], &mut verdicts, &mut held), 0);
    assert_eq!((verdicts, held), ([0b111, 0, 0b001, 0, 9], [1, 0]));
    assert_eq!(judge_logs(&table(), &[2; 65536], &[1; 65536], &mut [], &mut []), refusal(32, 65536), "a log takes more than a line's 16 bits");
}

#[test]
fn a_way_is_1_or_2() {
    for way in (0..=255).chain([256, 257, 258, 65537, 65538, u32::MAX]) {
        let mut row = [7; ROW];
        let mut verdicts = [9; WORDS];
        let answer = judge_part(&table(), way, &mut row, &[2], &mut verdicts);
        match way {
            1 => assert_eq!((answer, row[2], verdicts), (0, 1, [0b111, 0])),
            2 => assert_eq!((answer, row, verdicts), (refusal(34, 0), [7; ROW], [9; WORDS]), "W looks only ahead"),
            _ => assert_eq!((answer, row, verdicts), (refusal(43, 0), [7; ROW], [9; WORDS]), "way {way}"),
        }
    }
}

#[test]
fn the_way_is_asked_after_the_rows_length_and_before_the_table() {
    assert_eq!(judge_part(&[], 3, &mut [7; ROW - 1], &[2], &mut []), refusal(35, 0));
    assert_eq!(judge_part(&[], 3, &mut [7; ROW], &[2], &mut []), refusal(43, 0));
    assert_eq!(judge_part(&[], 1, &mut [7; ROW], &[2], &mut []), refusal(31, 0));
}

#[test]
fn no_number_is_taken_for_a_node_or_an_entry_of_fewer_bits() {
    let log = [0, 2, 0];
    let mut edges = [5; 3];
    for node in [3, 63, 64, 64 + 2, 127, 128, 128 + 2, 255, 256, 256 + 2, 65536 + 2, u32::MAX - 253, u32::MAX] {
        assert_eq!(walk(&table(), &log, node, 0, &mut edges), refusal(36, 0), "node {node}");
    }
    for entry in [3, 512, 65535, 65536, 65536 + 1, u32::MAX - 65535, u32::MAX] {
        assert_eq!(walk(&table(), &log, 2, entry, &mut edges), refusal(37, 0), "entry {entry}");
        assert_eq!(walk(&table(), &log, 256 + 2, entry, &mut edges), refusal(36, 0), "36 comes before 37, entry {entry}");
    }
    assert_eq!(edges, [5; 3]);
    assert_eq!((walk(&table(), &log, 2, 0, &mut edges), edges), (1, [0, 5, 5]));
}

#[test]
fn a_page_that_does_not_fit_is_44() {
    let steps = "1\n".repeat(ENTRIES);
    for (rules, steps) in [(W, steps.as_bytes()), (W, b"1\n"), (b"", b"")] {
        let whole = rozsvelen::page(rules, steps);
        for length in [0, 1, 1023, 1024, whole.len() - 1, whole.len(), whole.len() + 1, PAGE - 1, PAGE, PAGE + 1] {
            let mut bytes = vec![b'#'; length];
            let answer = page(rules, steps, &mut bytes);
            if length < whole.len() {
                assert_eq!((answer, bytes), (refusal(44, 0), vec![b'#'; length]), "{length} bytes for {}", whole.len());
            } else {
                assert_eq!(answer, whole.len() as u64, "{length} bytes for {}", whole.len());
                assert_eq!(bytes[..whole.len()], whole);
                assert!(bytes[whole.len()..].iter().all(|b| *b == b'#'));
            }
        }
    }
}
