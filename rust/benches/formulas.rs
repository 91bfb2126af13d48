//! Rules as one line of text. The unproved reader asks every question, so it is first compared with the library on many damaged texts.
use crate::cases::{long_formula, DESK, Z_FORMULA};
use crate::reading::damaged;
use crate::same;
use crate::timing::{row, time, work};
use crate::unproved::formulas;
use rozsvelen::Sheet;
use std::collections::BTreeMap;
use std::hint::black_box;

/// What damage puts into a text.
const BYTES: &[u8] = b"truef01239!&|()<>[]{}-?;+* \n\xff";

/// Formulas about each limit and each refusal.
fn about_limits() -> Vec<String> {
    let joined = |one: &str, sign: &str, n: usize| vec![one; n].join(sign);
    let stars = "<{f0}*******>".repeat(8);
    let mut all: Vec<String> = [64, 65].map(|n| joined("f31", "&", n)).to_vec();
    all.extend([126, 127, 4094, 4095].map(|n| "!".repeat(n) + "f1"));
    all.extend([16, 17].map(|n| "[{f1}]".repeat(n) + "f1"));
    all.extend([8, 9].map(|n| format!("<{}>f1", joined("{f1}-", ";", n))));
    all.extend([4, 5].map(|n| format!("<{}>f1", joined("{f1}?", "+", n))));
    all.extend(["<({f1}+{f2})****;{f3}>", "<({f1};{f2})*****;{f3}>"].map(|last| format!("{stars}{last}true")));
    all.extend([16, 17].map(|n| "(".repeat(n) + "f1" + &")".repeat(n)));
    all.extend([8, 9].map(|n| "<{".repeat(n) + "f1" + &"}?>f2".repeat(n)));
    all
}

/// Formulas with paths within tests, and with steps before those tests.
const NESTED: [&str; 5] = [
    "<{<{f1}>f2}?>f3",
    "<{f1};{<{f2};{[{f3}]f4}?>f5}?;{f6}>f7",
    "[({f1}+({f2}?)*)**;{!(f3|true)}-](<{f10&!f29}>f31|!!f30)",
    "<{f1}*;{<{f2}*;{<{f3}*>f4}?>f5|[{f6}]f7}?+{f8}-*>!f9",
    "(f1&(f2|f3)&!f4)|((((true)))&<({f5};{f6})*>f7)",
];

/// How often each refusal was met, and 0 for a text that was read.
type Met = BTreeMap<u8, usize>;

fn compare(met: &mut Met, text: &[u8]) {
    *met.entry(same::formula(text)).or_default() += 1;
}

/// Compares every text with a byte or a cut of damage; the long ones at some bytes only.
fn same_answers() {
    let mut met = Met::new();
    for text in DESK.iter().chain(&NESTED).chain(&[Z_FORMULA]) {
        damaged(text, BYTES).for_each(|text| compare(&mut met, &text));
        (0..=text.len()).for_each(|end| compare(&mut met, &text.as_bytes()[..end]));
    }
    for text in about_limits().iter().chain(&[desk_in_one(), long_formula(14), long_formula(15)]) {
        for at in (0..=text.len()).step_by(1 + text.len() / 20) {
            let (before, after) = text.split_at(at);
            for between in ["", "!", "(", "*", "f1&", "x"] {
                compare(&mut met, [before, between, after].concat().as_bytes());
            }
            compare(&mut met, before.as_bytes());
        }
    }
    assert!([0, 50, 51, 52, 53, 54].iter().all(|answer| met.contains_key(answer)), "not every answer was met: {met:?}");
    assert!(met.values().sum::<usize>() > 50_000, "too few texts: {met:?}");
}

/// The rules of the desk that speak of every entry, under one `[{true}*]`.
fn desk_in_one() -> String {
    let always = "[{true}*]";
    let bodies: Vec<&str> = [Z_FORMULA].into_iter().chain(DESK).filter_map(|rule| rule.strip_prefix(always)).collect();
    format!("{always}({})", bodies.join("&"))
}

/// Times a text; 0 or the number by which it is refused.
fn read(name: &str, text: &str, answer: u8, times: usize) {
    assert_eq!(same::formula(text.as_bytes()), answer, "{name}: another answer");
    let mut proved = work(|| Sheet::from_formula(black_box(text.as_bytes())));
    let mut unproved = work(|| formulas::formula(black_box(text.as_bytes())));
    let [proved, unproved] = time(times, [&mut proved, &mut unproved]);
    row(name, proved, &[("formulas", unproved)]);
}

pub fn reading() {
    same_answers();
    let (desk, longest) = (desk_in_one(), long_formula(14));
    let refused = "!".repeat(14) + &longest;
    assert_eq!([Z_FORMULA.len(), desk.len(), longest.len(), refused.len()], [26, 285, 4082, 4096], "the texts have other lengths");
    read("reading a formula, sheet Z's rule, 26 bytes", Z_FORMULA, 0, 1000);
    read("reading a formula, ten rules of the desk, 285 bytes", &desk, 0, 300);
    read("reading a formula of 4,082 bytes, the longest that fits a sheet", &longest, 0, 100);
    read("reading a formula of 4,096 bytes that is refused by 53", &refused, 53, 100);
}
