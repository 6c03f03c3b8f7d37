//! SKINNY itself, on the same round pieces, for its published vectors: they
//! reach everything but ForkSkinny's constants, its extra 2 and the fork.

use crate::cells::{load, store, Width};
use crate::rounds::{round, RoundConstant};
use crate::tweakey::round_keys;

pub struct Skinny {
    pub width: Width,
    pub words: usize,
    pub rounds: usize,
}

/// SKINNY's 6-bit number: shift left, new lowest bit = bit 5 xor bit 4 xor 1.
fn next_number(number: u8) -> u8 {
    ((number << 1) & 0x3f) | (((number >> 5) ^ (number >> 4) ^ 1) & 1)
}

/// Enciphers the first block of `plain`; a 64-bit answer's bytes 8 to 15 are
/// zero.
pub fn encipher(skinny: &Skinny, tweakey: &[u8], plain: &[u8]) -> [u8; 16] {
    let keys = round_keys(skinny.width, skinny.words, tweakey, skinny.rounds);
    let mut cells = load(skinny.width, plain);
    let mut number = 0;
    for key in &keys[..skinny.rounds] {
        number = next_number(number);
        round(
            &mut cells,
            skinny.width,
            RoundConstant { number, extra: 0 },
            key,
        );
    }
    store(skinny.width, &cells)
}
