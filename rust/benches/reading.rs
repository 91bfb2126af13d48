//! Readers of texts. The unproved ones ask every question, so they are first compared with the library on many damaged texts.
use crate::cases::{hard, large, W, Z};
use crate::timing::{row, time, work};
use crate::unproved::{readers, TABLE};
use rozsvelen::{Sheet, NODES};
use std::hint::black_box;

/// What damage puts into a log or a sheet.
const BYTES: &[u8] = b"TNDBMGE,\n0123-x";

/// Every text with one byte of the given one replaced, left out or preceded by one of these.
pub fn damaged<'a>(text: &'a str, bytes: &'a [u8]) -> impl Iterator<Item = Vec<u8>> + 'a {
    (0..text.len()).flat_map(move |at| {
        bytes.iter().flat_map(move |byte| {
            let (before, after) = text.as_bytes().split_at(at);
            [[before, &[*byte], &after[1..]].concat(), [before, &after[1..]].concat(), [before, &[*byte], after].concat()]
        })
    })
}

fn same_log(text: &[u8], room: usize) {
    let [mut a, mut b] = [0, 1].map(|_| vec![7; room]);
    let proved = rozsvelen::read_log(text, &mut a).map_err(|no| (no.number, no.line));
    assert_eq!(proved, readers::log(text, &mut b), "log {:?}", String::from_utf8_lossy(text));
    assert_eq!(a, b, "log {:?}", String::from_utf8_lossy(text));
}

fn same_sheet(text: &[u8]) {
    let proved = Sheet::read(text).map(|s| *s.numbers()).map_err(|no| (no.number, no.line, no.field));
    let mut table = [7; TABLE];
    let unproved = readers::sheet(text, &mut table);
    assert!(unproved.is_ok() || table == [7; TABLE], "a refused sheet altered the table");
    assert!(proved == unproved.map(|_| table), "sheet {:?}", String::from_utf8_lossy(text));
}

fn same_answers() {
    let log = "-\n0,1,31\n10,12\n";
    damaged(log, BYTES).for_each(|text| same_log(&text, 4));
    for room in [0, 2, 3] {
        same_log(log.as_bytes(), room);
    }
    for lines in [512, 513] {
        same_log("0,31\n".repeat(lines).as_bytes(), 512);
    }
    // a D node named by a later edge, and states that stand on one edge each
    for sheet in [Z, W, "T\nM,2,0\nG,0\nE,0,0,0,1\nD,0,0\nM,1,0\nE,0,0,1,0\nN,0\n"] {
        damaged(sheet, BYTES).for_each(|text| same_sheet(&text));
    }
    // 128 nodes; a node, an automaton and an edge more than there may be
    for text in [
        large(1).0,
        "T\n".repeat(NODES),
        "T\n".repeat(NODES + 1),
        "T\n".to_string() + &"M,1,0\nE,0,0,0,0\n".repeat(17),
        hard(2).0.replace("D,0,1\n", "M,1,0\nE,0,0,0,0\n"),
    ] {
        same_sheet(text.as_bytes());
    }
    for bytes in [49_152, 49_154] {
        let text = "T\n".repeat(bytes / 2);
        same_sheet(text.as_bytes());
        same_log(text.as_bytes(), 9);
    }
}

pub fn reading() {
    same_answers();
    let text = "0,1,2,31\n".repeat(512);
    same_log(text.as_bytes(), 512);
    let [mut a, mut b] = [[0u32; 512]; 2];
    let [proved, unproved] = time(
        300,
        [&mut work(|| rozsvelen::read_log(black_box(text.as_bytes()), &mut a)), &mut work(|| readers::log(black_box(text.as_bytes()), &mut b))],
    );
    row("reading a log of 512 lines", proved, &[("readers", unproved)]);

    let (text, _) = hard(2);
    same_sheet(text.as_bytes());
    let read = || {
        let mut table = [0; TABLE];
        readers::sheet(black_box(text.as_bytes()), &mut table).map(|_| table)
    };
    let [proved, unproved] = time(300, [&mut work(|| Sheet::read(black_box(text.as_bytes()))), &mut work(read)]);
    row("reading the hard sheet, 322 lines", proved, &[("readers", unproved)]);
}
