//! Rules as text. The unproved printer asks both questions, so it is first compared with the library where it refuses too.
use crate::cases::{hard, large, many, LONG_RULE, W, Z};
use crate::same;
use crate::timing::{row, time, work};
use crate::unproved::printing;
use rozsvelen::Sheet;
use std::hint::black_box;

fn same_answers() {
    let endless = "T\n".to_string() + &(0..127).map(|k| format!("A,{k},{k}\n")).collect::<String>();
    for text in [W, Z, LONG_RULE, &hard(2).0, &many().0, &large(1).0, &large(2).0, &endless] {
        let sheet = Sheet::read(text.as_bytes()).unwrap();
        for room in [0, 1, 21, 22, 23, 4092, 4093, 5000] {
            same::rule(&sheet, room);
        }
    }
    let mut changed = *Sheet::read(Z.as_bytes()).unwrap().numbers();
    changed[1] = 32;
    same::rule(&Sheet::from_numbers(changed), 5000);
}

fn print(name: &str, text: &str, bytes: usize, times: usize) {
    let sheet = Sheet::read(text.as_bytes()).unwrap();
    let [mut a, mut b] = [0, 1].map(|_| vec![0u8; bytes]);
    let mut proved = || rozsvelen::print_rule(black_box(&sheet), &mut a).ok();
    let mut unproved = || printing::print_rule(black_box(sheet.numbers()), &mut b);
    assert_eq!([proved(), unproved()], [Some(bytes); 2], "{name}: the rule has another length");
    let [proved, unproved] = time(times, [&mut work(proved), &mut work(unproved)]);
    assert!(a == b, "{name}: the versions' texts differ");
    row(name, proved, &[("printing", unproved)]);
}

pub fn printing() {
    same_answers();
    print("printing the rule of sheet Z, 22 bytes", Z, 22, 1000);
    print("printing a rule of 4,093 bytes", LONG_RULE, 4093, 100);
}
