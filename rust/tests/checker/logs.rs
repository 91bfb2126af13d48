//! Questions 21 to 27 of a log; of one with counters 28 and 29 among them; steps between counters; and the entry that bears a counter, 32 and 30.
use super::{lines, number, number_up_to, No};

pub fn read(text: &[u8], room: usize) -> Result<Vec<u32>, No> {
    words(text, room, word)
}

/// A log with counters: its words and the first counter.
pub fn read_counted(text: &[u8], room: usize) -> Result<(Vec<u32>, u16), No> {
    let mut counters: Vec<u16> = vec![];
    let words = words(text, room, |line| {
        let comma = line.iter().position(|b| *b == b',').ok_or(24)?;
        let word = word(&line[comma + 1..]);
        if word == Err(24) {
            return word;
        }
        let counter = counter(&line[..comma]).ok_or(28)?;
        if counters.last().is_some_and(|before| before.wrapping_add(1) != counter) {
            return Err(29);
        }
        counters.push(counter);
        word
    })?;
    Ok((words, counters[0]))
}

/// The words of a text: the questions that both forms share, and in their midst those that `word` asks of a line.
fn words(text: &[u8], room: usize, mut word: impl FnMut(&[u8]) -> Result<u32, u8>) -> Result<Vec<u32>, No> {
    if text.len() > 49_152 {
        return Err((21, 0));
    }
    if text.last() != Some(&b'\n') {
        return Err((22, 0));
    }
    let mut words = Vec::new();
    for (i, line) in lines(text).iter().enumerate() {
        let place = i as u32 + 1;
        if i >= 512 {
            return Err((23, place));
        }
        words.push(word(line).map_err(|q| (q, place))?);
    }
    if words.len() > room {
        return Err((27, 0));
    }
    Ok(words)
}

/// The word of a lone `-` or of facts.
fn word(facts: &[u8]) -> Result<u32, u8> {
    if facts == b"-" {
        return Ok(0);
    }
    let facts: Vec<u32> = facts.split(|b| *b == b',').map(number).collect::<Option<_>>().ok_or(24)?;
    if facts.iter().any(|f| *f > 31) {
        return Err(25);
    }
    if facts.windows(2).any(|w| w[0] >= w[1]) {
        return Err(26);
    }
    Ok(facts.iter().map(|f| 1 << f).sum())
}

/// The counter that a field is: one to five digits, zeros in front or not, and at most 65,535.
pub fn counter(field: &[u8]) -> Option<u16> {
    number_up_to(5, field)?.try_into().ok()
}

pub fn steps_between(earlier: u16, later: u16) -> u16 {
    (i64::from(later) - i64::from(earlier)).rem_euclid(65_536) as u16
}

/// The entry that bears a counter, found by trying each.
pub fn entry_bearing(first: u16, entries: usize, counter: u16) -> Result<usize, u8> {
    if !(1..=512).contains(&entries) {
        return Err(32);
    }
    let bears = |i: &usize| (usize::from(first) + i) % 65_536 == usize::from(counter);
    (0..entries).find(bears).ok_or(30)
}
