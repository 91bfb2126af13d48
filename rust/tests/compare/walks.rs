//! Walks shown.
use super::{no, Table, SECOND};
use crate::checker::meaning::Judged;
use crate::checker::sheets::{Line, NODES};
use crate::kinds::Kinds;

/// Shows the walk of node `k` at entry `i` in a buffer of `room` places; whether there was one.
pub fn compare_walk(kinds: &mut Kinds, table: &Table, log: &[u32], judged: &Result<Judged, u8>, [k, i, room]: [usize; 3]) -> bool {
    let before: Vec<u16> = (0..room).map(|p| 0xff00 ^ p as u16).collect();
    let mut edges = before.clone();
    let shown = rozsvelen::walk(&table.ours, log, k as u32, i as u32, &mut edges).map_err(no);
    let theirs = walk_of(judged, k, i, room);
    let case = || format!("walk of node {k} at {i} in {room} places, {:?} log {log:?}", table.theirs);
    assert_eq!(shown, theirs.as_ref().map(Vec::len).map_err(|q| (*q, 0)), "{}", case());
    let walk = theirs.unwrap_or_default();
    let tested = |e: u16| table.sheet().unwrap().edges[e as usize].test;
    assert_eq!(edges, [&walk, &before[walk.len()..]].concat(), "{}", case());
    match shown {
        Err((q, _)) => {
            kinds.refused("walk", q);
            kinds.saw_if(q == 36 && k > 255, "walk: 36 of a number above 255");
            kinds.saw_if(q == 36 && k == NODES, "walk: 36 of number 128");
            kinds.saw_if(q == 37 && i > 65535, "walk: 37 of a number above 65535");
        }
        Ok(n) => {
            kinds.saw_if(n == 0, "walk: of no edge");
            kinds.saw_if((1..=20).contains(&n), "walk: up to 20 edges");
            kinds.saw_if(n > 20, "walk: over 20 edges");
            kinds.saw_if(n > 99, "walk: over 99 edges");
            kinds.saw_if(n == 8191, "walk: of 8191 edges");
            kinds.saw_if(room > 99, "walk: more than 99 places lent");
            kinds.saw_if(room > n, "walk: places beyond the walk kept");
            kinds.saw_if(k >= SECOND, "walk: of a node above 63");
            kinds.saw_if(walk.iter().any(|e| tested(*e) >= SECOND), "walk: by an edge that tests a node above 63");
        }
    }
    shown.is_ok()
}

fn walk_of(judged: &Result<Judged, u8>, k: usize, i: usize, room: usize) -> Result<Vec<u16>, u8> {
    let judged = judged.as_ref().map_err(|q| *q)?;
    let line = judged.sheet.nodes.get(k).ok_or(36)?;
    if i >= judged.log.len() {
        return Err(37);
    }
    if !matches!(line, Line::Some(..) | Line::Every(..)) {
        return Err(38);
    }
    let walk = judged.walk(k, i).ok_or(39)?;
    if walk.len() > room {
        return Err(40);
    }
    Ok(walk)
}
