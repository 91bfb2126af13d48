//! Calls of the static library on slices, and what their answers mean. Nothing else in this crate is unsafe.
use crate::calls::*;
use crate::{Looks, Refused, RefusedAt, Way, ROW, TABLE};

/// An answer's number: a count or length in the low 16 bits, the refusal's number in the next 16, its line in the next 16.
fn answer(code: u64) -> Result<usize, Refused> {
    answer_about(code, (code >> 32 & 0xffff) as u32)
}

/// An answer's number, whose refusal is about the given line or log, and about no field.
fn answer_about(code: u64, line: u32) -> Result<usize, Refused> {
    let number = (code >> 16 & 0xffff) as u8;
    if number == 0 {
        Ok((code & 0xffff) as usize)
    } else {
        Err(Refused { number, line, field: 0 })
    }
}

/// An answer's number, whose refusal gives a field in the upper 16 bits.
fn answer_with_field(code: u64) -> Result<usize, Refused> {
    answer(code).map_err(|no| Refused { field: (code >> 48) as u8, ..no })
}

pub fn read_sheet(text: &[u8], table: &mut [u16; TABLE]) -> Result<usize, Refused> {
    answer_with_field(unsafe { rozsvelen_read_sheet(text.as_ptr(), text.len(), table.as_mut_ptr(), table.len()) })
}

/// An answer's number, whose refusal gives a place in the upper 16 bits.
fn answer_at(code: u64) -> Result<usize, RefusedAt> {
    answer(code).map_err(|no| RefusedAt { number: no.number, place: (code >> 48) as u32 })
}

pub fn read_formula(text: &[u8], table: &mut [u16; TABLE]) -> Result<usize, RefusedAt> {
    answer_at(unsafe { rozsvelen_read_formula(text.as_ptr(), text.len(), table.as_mut_ptr(), table.len()) })
}

pub fn profile(table: &[u16; TABLE]) -> Result<[u16; TABLE], Refused> {
    let mut made = [0; TABLE];
    answer(unsafe { rozsvelen_profile(table.as_ptr(), table.len(), made.as_mut_ptr(), made.len()) })?;
    Ok(made)
}

pub fn is_in_profile(table: &[u16; TABLE]) -> Result<bool, Refused> {
    let count = answer(unsafe { rozsvelen_in_profile(table.as_ptr(), table.len()) })?;
    Ok(count == 1)
}

pub fn rule_looks(table: &[u16; TABLE]) -> Result<Looks, Refused> {
    let ways = answer(unsafe { rozsvelen_rule_looks(table.as_ptr(), table.len()) })? as u32;
    Ok(Looks { ahead: ways & AHEAD != 0, back: ways & BACK != 0 })
}

pub fn read_log(text: &[u8], words: &mut [u32]) -> Result<usize, Refused> {
    answer(unsafe { rozsvelen_read_log(text.as_ptr(), text.len(), words.as_mut_ptr(), words.len()) })
}

/// An answer's count, and what is given beside it in the upper 16 bits.
fn answer_and_extra(code: u64) -> Result<(usize, u16), Refused> {
    Ok((answer(code)?, (code >> 48) as u16))
}

pub fn read_counted(text: &[u8], words: &mut [u32]) -> Result<(usize, u16), Refused> {
    answer_and_extra(unsafe { rozsvelen_read_counted(text.as_ptr(), text.len(), words.as_mut_ptr(), words.len()) })
}

pub fn steps_between(earlier: u16, later: u16) -> Result<usize, Refused> {
    answer(unsafe { rozsvelen_steps_between(earlier, later) })
}

pub fn entry_bearing(first: u16, entries: usize, counter: u16) -> Result<usize, Refused> {
    answer(unsafe { rozsvelen_entry_bearing(first, entries, counter) })
}

pub fn judge(table: &[u16; TABLE], log: &[u32], verdicts: &mut [u64]) -> Result<usize, Refused> {
    answer(unsafe { rozsvelen_judge(table.as_ptr(), table.len(), log.as_ptr(), log.len(), verdicts.as_mut_ptr(), verdicts.len()) })
}

pub fn judge_logs(table: &[u16; TABLE], words: &[u32], lengths: &[u16], verdicts: &mut [u64], held: &mut [u16]) -> Result<(), Refused> {
    let code = unsafe {
        rozsvelen_judge_logs(
            table.as_ptr(),
            table.len(),
            words.as_ptr(),
            words.len(),
            lengths.as_ptr(),
            lengths.len(),
            verdicts.as_mut_ptr(),
            verdicts.len(),
            held.as_mut_ptr(),
            held.len(),
        )
    };
    // a log's number can be 65,536: it takes all 32 upper bits
    answer_about(code, (code >> 32) as u32)?;
    Ok(())
}

pub fn plain_row(table: &[u16; TABLE]) -> Result<[u16; ROW], Refused> {
    let mut row = [0; ROW];
    answer(unsafe { rozsvelen_plain_row(table.as_ptr(), table.len(), row.as_mut_ptr(), row.len()) })?;
    Ok(row)
}

pub fn judge_part(table: &[u16; TABLE], way: Way, row: &[u16; ROW], words: &[u32], verdicts: &mut [u64]) -> Result<[u16; ROW], Refused> {
    let mut next = *row;
    let way = match way {
        Way::Ahead => AHEAD,
        Way::Back => BACK,
    };
    answer(unsafe {
        rozsvelen_judge_part(
            table.as_ptr(),
            table.len(),
            way,
            next.as_mut_ptr(),
            next.len(),
            words.as_ptr(),
            words.len(),
            verdicts.as_mut_ptr(),
            verdicts.len(),
        )
    })?;
    Ok(next)
}

pub fn walk(table: &[u16; TABLE], log: &[u32], node: u32, entry: u32, edges: &mut [u16]) -> Result<usize, Refused> {
    answer(unsafe { rozsvelen_walk(table.as_ptr(), table.len(), log.as_ptr(), log.len(), node, entry, edges.as_mut_ptr(), edges.len()) })
}

/// An answer's length: its lowest 16 bits stand where a count does, the others in the upper 32.
fn answer_of_length(code: u64) -> Result<usize, Refused> {
    Ok((code >> 32 << 16) as usize | answer(code)?)
}

pub fn print_rule(table: &[u16; TABLE], text: &mut [u8]) -> Result<usize, Refused> {
    answer_of_length(unsafe { rozsvelen_print_rule(table.as_ptr(), table.len(), text.as_mut_ptr(), text.len()) })
}

pub fn page(rules: &[u8], steps: &[u8], page: &mut [u8]) -> Result<usize, Refused> {
    answer(unsafe { rozsvelen_page(rules.as_ptr(), rules.len(), steps.as_ptr(), steps.len(), page.as_mut_ptr(), page.len()) })
}
