//! Words of bits, and bitsets of them.
use std::arch::x86_64::{_mm_castsi128_ps, _mm_cvtsi32_si128, _mm_loadu_si128, _mm_movemask_ps, _mm_sll_epi32};

/// A bit for each of 64 B entries.
pub type Bitset<const B: usize> = [u64; B];

/// The numbers of the bits that are set.
#[inline(always)]
pub fn bits(mut mask: u16) -> impl Iterator<Item = usize> {
    std::iter::from_fn(move || {
        let s = mask.trailing_zeros() as usize;
        mask &= mask.wrapping_sub(1);
        (s < 16).then_some(s)
    })
}

/// The bits, and those below them over an unbroken way.
#[inline(always)]
pub fn fill_down(mut bits: u64, mut way: u64) -> u64 {
    for step in [1, 2, 4, 8, 16, 32] {
        bits |= way & bits >> step;
        way &= way >> step;
    }
    bits
}

/// The bits, and those above them over an unbroken way.
#[inline(always)]
pub fn fill_up(mut bits: u64, mut way: u64) -> u64 {
    for step in [1, 2, 4, 8, 16, 32] {
        bits |= way & bits << step;
        way &= way << step;
    }
    bits
}

/// Where the log has a fact, four entries at a time.
pub fn fact<const B: usize>(log: &[u32], fact: u8) -> Bitset<B> {
    let mut bitset = [0; B];
    for (c, block) in bitset.iter_mut().zip(log.chunks(64)) {
        let fours = block.chunks_exact(4);
        for (i, x) in fours.remainder().iter().enumerate() {
            *c |= ((x >> (fact & 31) & 1) as u64) << (block.len() / 4 * 4 + i);
        }
        for (i, four) in fours.enumerate() {
            // the fact's bit of each word becomes its sign
            let signs = unsafe {
                let shift = _mm_cvtsi32_si128(31 - (fact & 31) as i32);
                _mm_movemask_ps(_mm_castsi128_ps(_mm_sll_epi32(_mm_loadu_si128(four.as_ptr().cast()), shift)))
            };
            *c |= (signs as u64) << (4 * i);
        }
    }
    bitset
}

/// Bit j of word i becomes bit i of word j.
pub fn transpose(square: &mut [u64; 64]) {
    let (mut step, mut mask) = (32, 0x0000_0000_ffff_ffffu64);
    while step > 0 {
        for block in (0..64).step_by(2 * step) {
            for i in block..block + step {
                let x = (square[i] >> step ^ square[i + step]) & mask;
                square[i] ^= x << step;
                square[i + step] ^= x;
            }
        }
        step /= 2;
        mask ^= mask << step;
    }
}
