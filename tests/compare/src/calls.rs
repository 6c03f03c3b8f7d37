//! The block calls (document 01, "What a caller is told"). Numbers: cipher 1
//! is 64-192, 2 is 128-256. Forward: want 0 half 0, 1 half 1, 2 both. Back:
//! from half 0 or 1; want 0 the input, 1 the other half, 2 both. Each tells how
//! many rounds it has run (C-13), which is none where it is refused. Each can be
//! given a prepared key in place of the key (C-16).

use crate::cells::block_bytes;
use crate::forkskinny::{Cipher, CIPHERS};
use crate::prepared::Prepared;

pub const DONE: u32 = 0;
/// An unknown cipher, half or choice.
pub const REFUSED: u32 = 1;
/// A prepared key that is not admitted; of preparing, the key's length.
pub const NOT_ADMITTED: u32 = 2;

/// Longest tweakey of any cipher: three words of sixteen bytes.
const MOST_TWEAKEY_BYTES: usize = 48;

/// What a forward call answers. What was not asked for is zero.
#[derive(Clone, Copy, PartialEq, Eq, Debug)]
pub struct Fork {
    pub number: u32,
    pub half0: [u8; 16],
    pub half1: [u8; 16],
    pub rounds: u32,
}

/// What a call back answers. What was not asked for is zero.
#[derive(Clone, Copy, PartialEq, Eq, Debug)]
pub struct Unfork {
    pub number: u32,
    pub input: [u8; 16],
    pub other: [u8; 16],
    pub rounds: u32,
}

impl Fork {
    fn refused(number: u32) -> Fork {
        Fork {
            number,
            half0: [0; 16],
            half1: [0; 16],
            rounds: 0,
        }
    }
}

impl Unfork {
    fn refused(number: u32) -> Unfork {
        Unfork {
            number,
            input: [0; 16],
            other: [0; 16],
            rounds: 0,
        }
    }
}

fn find_cipher(cipher: u32) -> Option<&'static Cipher> {
    CIPHERS.get((cipher as usize).checked_sub(1)?)
}

pub fn is_cipher(cipher: u32) -> bool {
    find_cipher(cipher).is_some()
}

/// Whether the first, and whether the second block of the answer is asked for.
fn find_choice(want: u32) -> Option<[bool; 2]> {
    match want {
        0 => Some([true, false]),
        1 => Some([false, true]),
        2 => Some([true, true]),
        _ => None,
    }
}

/// Key first, then as much of the tweak as counts (001, figure 4, line 2).
fn tweakey_run(cipher: &Cipher, key: &[u8; 16], tweak: &[u8; 16]) -> [u8; MOST_TWEAKEY_BYTES] {
    let mut run = [0; MOST_TWEAKEY_BYTES];
    let tweak_bytes = cipher.words * block_bytes(cipher.width) - key.len();
    run[..16].copy_from_slice(key);
    run[16..16 + tweak_bytes].copy_from_slice(&tweak[..tweak_bytes]);
    run
}

pub fn fork(cipher: u32, key: &[u8; 16], tweak: &[u8; 16], block: &[u8; 16], want: u32) -> Fork {
    match (find_cipher(cipher), find_choice(want)) {
        (Some(cipher), Some(wanted)) => {
            let run = tweakey_run(cipher, key, tweak);
            let worked = cipher.fork(&run, block, wanted);
            let [half0, half1] = worked.blocks;
            Fork {
                number: DONE,
                half0,
                half1,
                rounds: worked.rounds,
            }
        }
        _ => Fork::refused(REFUSED),
    }
}

pub fn unfork(
    cipher: u32,
    key: &[u8; 16],
    tweak: &[u8; 16],
    block: &[u8; 16],
    from: u32,
    want: u32,
) -> Unfork {
    match (find_cipher(cipher), find_choice(want)) {
        (Some(cipher), Some(wanted)) if from < 2 => {
            let run = tweakey_run(cipher, key, tweak);
            let worked = cipher.unfork(&run, block, from as usize, wanted);
            let [input, other] = worked.blocks;
            Unfork {
                number: DONE,
                input,
                other,
                rounds: worked.rounds,
            }
        }
        _ => Unfork::refused(REFUSED),
    }
}

/// Numbers that are unknown are refused before the prepared key is judged.
pub fn fork_prepared(
    cipher: u32,
    prepared: &Prepared,
    tweak: &[u8; 16],
    block: &[u8; 16],
    want: u32,
) -> Fork {
    let known = is_cipher(cipher) && find_choice(want).is_some();
    match prepared.key_under(cipher) {
        _ if !known => Fork::refused(REFUSED),
        Some(key) => fork(cipher, key, tweak, block, want),
        None => Fork::refused(NOT_ADMITTED),
    }
}

/// The same.
pub fn unfork_prepared(
    cipher: u32,
    prepared: &Prepared,
    tweak: &[u8; 16],
    block: &[u8; 16],
    from: u32,
    want: u32,
) -> Unfork {
    let known = is_cipher(cipher) && from < 2 && find_choice(want).is_some();
    match prepared.key_under(cipher) {
        _ if !known => Unfork::refused(REFUSED),
        Some(key) => unfork(cipher, key, tweak, block, from, want),
        None => Unfork::refused(NOT_ADMITTED),
    }
}
