//! The tweakey's words, stepped round by round, and the round keys they sum
//! to. The round keys are kept for the whole call, since the way back uses
//! them in the other order and nothing should be made twice. Each word runs
//! through the rounds by itself: it then stays in the machine's registers.

use crate::cells::{block_bytes, load, step_word2, step_word3, Cells, Width};
use crate::rounds::RoundKey;

/// 001, table 2 ends at round 87: 25 + 31 + 31, the longest cipher's rounds.
pub const MOST_ROUNDS: usize = 87;

/// One key for each place in the schedule, counted from 0.
pub type RoundKeys = [RoundKey; MOST_ROUNDS];

/// 001, appendix F, P_T: new cell k is old cell P_T[k].
const PERMUTATION: [usize; 16] = [9, 15, 8, 13, 10, 14, 12, 11, 0, 1, 2, 3, 4, 5, 6, 7];

/// The keys of the first `rounds` rounds; the rest are not used. The run (key,
/// then tweak: 001, figure 4, line 2) is cut into words of one block each.
pub fn round_keys(width: Width, words: usize, run: &[u8], rounds: usize) -> RoundKeys {
    let mut all = [[0; 8]; MOST_ROUNDS];
    let keys = &mut all[..rounds];
    for (place, bytes) in run.chunks(block_bytes(width)).take(words).enumerate() {
        let word = load(width, bytes);
        match (place, width) {
            (0, _) => add_word(keys, word, |cell| cell),
            (1, Width::Nibble) => add_word(keys, word, |cell| step_word2(Width::Nibble, cell)),
            (1, Width::Byte) => add_word(keys, word, |cell| step_word2(Width::Byte, cell)),
            (_, Width::Nibble) => add_word(keys, word, |cell| step_word3(Width::Nibble, cell)),
            (_, Width::Byte) => add_word(keys, word, |cell| step_word3(Width::Byte, cell)),
        }
    }
    all
}

/// One word's share in every round key: its top two rows.
fn add_word(keys: &mut [RoundKey], mut word: Cells, step: impl Fn(u8) -> u8) {
    for key in keys {
        for (key_cell, cell) in key.iter_mut().zip(word) {
            *key_cell ^= cell;
        }
        next_round(&mut word, &step);
    }
}

/// 001, figure 19: the word is permuted, then its top two rows are stepped.
fn next_round(word: &mut Cells, step: impl Fn(u8) -> u8) {
    let old = *word;
    for (cell, from) in word.iter_mut().zip(PERMUTATION) {
        *cell = old[from];
    }
    for cell in &mut word[..8] {
        *cell = step(*cell);
    }
}
