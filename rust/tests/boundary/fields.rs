//! Which number of a sheet was wrong: 71 to 76 with their field, and field 0 beside every other refusal.
use super::{read_sheet, refusal, refusal_in};
use rozsvelen::{judge_logs, page, Log, Refused, Sheet, NODES, TABLE};

/// The lines of a sheet, here parted by spaces.
fn lines(sheet: &str) -> Vec<u8> {
    (sheet.replace(' ', "\n") + "\n").into_bytes()
}

/// A text is refused by this number at this line and field: by the C call, which alters no table; in Rust; and on the page, before the log.
fn assert_refused(text: &[u8], (number, line, field): (u8, u32, u8)) {
    let name = String::from_utf8_lossy(&text[..text.len().min(200)]);
    let mut table = [7; TABLE];
    assert_eq!(read_sheet(text, &mut table), refusal_in(number.into(), line.into(), field.into()), "{name:?}");
    assert_eq!(table, [7; TABLE], "{name:?}");
    assert_eq!(Sheet::read(text), Err(Refused { number, line, field }), "{name:?}");
    let printed = format!("refused,{number},{line},{field}\n");
    assert_eq!(String::from_utf8_lossy(&page(text, b"no log")), printed, "{name:?}");
}

#[test]
fn each_kind_of_number_has_its_own_refusal() {
    for (sheet, no) in [
        ("P,32", (71, 1, 2)),
        ("P,999", (71, 1, 2)),
        ("N,0", (72, 1, 2)),
        ("T N,1", (72, 2, 2)),
        ("T A,0,1", (72, 2, 3)),
        ("T A,1,0", (72, 2, 2)),
        ("T O,0,1", (72, 2, 3)),
        ("T O,1,0", (72, 2, 2)),
        ("T M,1,0 E,0,0,0,0 D,0,1", (72, 4, 3)),
        ("T M,1,0 E,0,0,0,0 B,0,1", (72, 4, 3)),
        ("T M,1,0 E,0,0,1,0", (72, 3, 4)),
        ("T D,0,0", (73, 2, 2)),
        ("T M,1,0 E,0,0,0,0 B,1,0", (73, 4, 2)),
        ("M,2,2", (74, 1, 3)),
        ("M,1,0 G,1", (74, 2, 2)),
        ("T M,1,0 E,1,0,0,0", (74, 3, 2)),
        ("T M,1,0 E,0,0,0,9", (74, 3, 5)),
        ("T M,1,0 E,0,3,0,0", (75, 3, 3)),
        ("M,0,0", (76, 1, 2)),
        ("M,17,0", (76, 1, 2)),
    ] {
        assert_refused(&lines(sheet), no);
    }
}

#[test]
fn the_leftmost_wrong_field_decides() {
    for (sheet, no) in [
        ("T A,5,7", (72, 2, 2)),
        ("T D,9,9", (73, 2, 2)),
        ("M,17,99", (76, 1, 2)),
        ("T M,1,0 E,1,3,9,1", (74, 3, 2)),
        ("T M,1,0 E,0,3,9,9", (75, 3, 3)),
        ("T M,1,0 E,0,0,9,9", (72, 3, 4)),
    ] {
        assert_refused(&lines(sheet), no);
    }
}

#[test]
fn states_are_those_of_the_automaton_that_the_line_belongs_to() {
    let above = "T M,3,0 E,0,0,0,1 E,2,0,0,2";
    assert_refused(&lines(&format!("{above} M,1,0 G,1")), (74, 6, 2));
    assert_refused(&lines(&format!("{above} M,1,0 E,0,0,0,2")), (74, 6, 5));
    assert_refused(&lines(&format!("{above} M,1,2")), (74, 5, 3));
    // a start that the automaton above has not
    assert!(Sheet::read(&lines(&format!("{above} M,5,4 E,0,0,0,1 E,2,0,0,3 E,4,0,0,4 T"))).is_ok());
}

#[test]
fn the_numbers_are_asked_after_6_and_before_9() {
    assert_refused(&lines("T G,9"), (6, 2, 0));
    assert_refused(&lines("T E,9,9,9,9"), (6, 2, 0));
    // an ahead edge on a D, with a state that is not there, and without
    assert_refused(&lines("T M,1,0 E,0,0,0,0 D,0,0 M,1,0 E,0,1,1,1 T"), (74, 6, 5));
    assert_refused(&lines("T M,1,0 E,0,0,0,0 D,0,0 M,1,0 E,0,1,1,0 T"), (9, 6, 0));
}

#[test]
fn every_other_refusal_has_field_0() {
    assert_refused(&b"P,32\n".repeat(49_153 / 5 + 1), (1, 0, 0));
    for (text, no) in [(&b""[..], (2, 0, 0)), (b"P,32", (2, 0, 0)), (b"Q\n", (3, 1, 0)), (b"P,32,0\n", (3, 1, 0))] {
        assert_refused(text, no);
    }
    for (sheet, no) in [
        ("P,x", (4, 1, 0)),
        ("P,0032", (4, 1, 0)),
        ("T M,1,0 E,9,9,9,x", (4, 3, 0)),
        ("T M,1,0 G,0 G,0", (8, 4, 0)),
        ("M,1,0 T", (10, 1, 0)),
        ("T M,1,0 E,0,0,0,0", (11, 3, 0)),
    ] {
        assert_refused(&lines(sheet), no);
    }
    assert_refused(&[&b"T\n".repeat(NODES)[..], b"P,32\n"].concat(), (5, 129, 0));
    assert_eq!(read_sheet(b"P,32\n", &mut [7; TABLE - 1]), refusal(35, 0), "35 comes before 71, and names no field");
}

#[test]
fn only_a_sheet_is_refused_by_a_field() {
    let sheet = Sheet::read(b"T\n").unwrap();
    let many = judge_logs(&sheet, &[0; 65_536], &[1; 65_536], &mut [], &mut []);
    assert_eq!(many, Err(Refused { number: 32, line: 65_536, field: 0 }), "a log's number stands where a sheet has its field");
    assert_eq!(Log::read(b"32\n"), Err(Refused { number: 25, line: 1, field: 0 }));
    assert_eq!(Log::read_counted(b"7,-\n8,32\n"), Err(Refused { number: 25, line: 2, field: 0 }));
    assert_eq!(page(b"T\n", b"32\n"), b"refused,25,1\n");
}
