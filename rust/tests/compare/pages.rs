//! Pages, in a buffer that takes every page and in one of a given length.
use super::no;
use super::texts::{has_padded, nodes_of};
use super::SECOND;
use crate::checker::pages;
use crate::kinds::Kinds;

pub fn compare_page(kinds: &mut Kinds, rules: &[u8], steps: &[u8], room: usize) {
    let theirs = pages::page(rules, steps);
    let (Ok(text) | Err((_, text))) = &theirs;
    let case = || format!("page of {:?} and {:?}", String::from_utf8_lossy(rules), String::from_utf8_lossy(steps));
    assert_eq!(String::from_utf8_lossy(&rozsvelen::page(rules, steps)), *text, "{}", case());
    compare_room(kinds, rules, steps, text, room);
    match theirs {
        Err((q, _)) => kinds.refused("page", q),
        Ok(text) => {
            let shown = !text.ends_with("walk,none\n");
            kinds.saw(if shown { "page: with a walk" } else { "page: without a walk" });
            kinds.saw_if(shown && nodes_of(rules) > SECOND, "page: with a walk of a rule above 63");
            kinds.saw_if(has_padded(rules, 2..=3), "page: verdicts of a padded sheet");
            kinds.saw_if(has_padded(steps, 2..=3), "page: verdicts of a padded log");
            kinds.saw_if(text.contains(",of,512\nwalk,8191,"), "page: of 512 entries and 8191 edges");
        }
    }
}

/// The page in so many lent bytes: whole, or 44.
fn compare_room(kinds: &mut Kinds, rules: &[u8], steps: &[u8], text: &str, room: usize) {
    let before: Vec<u8> = (0..room).map(|i| !(i as u8)).collect();
    let mut bytes = before.clone();
    let answer = rozsvelen::page_in(rules, steps, &mut bytes).map_err(no);
    let (wanted, page) = if text.len() > room { (Err((44, 0)), &[][..]) } else { (Ok(text.len()), text.as_bytes()) };
    assert_eq!(answer, wanted, "{text:?} in {room} bytes");
    assert_eq!(bytes, [page, &before[page.len()..]].concat(), "{text:?} in {room} bytes");
    match answer {
        Err((q, _)) => kinds.refused("page_in", q),
        Ok(n) => kinds.saw(if n < room { "page_in: bytes beyond the page kept" } else { "page_in: as many bytes as the page has" }),
    }
}
