//! Keys that are prepared once (C-16). What bytes the library keeps of one is its
//! own affair: here it is the key itself with the cipher that it is for.

use crate::calls::{is_cipher, DONE, NOT_ADMITTED, REFUSED};
use crate::schemes::KEY_BYTES;

#[derive(Clone, Copy, PartialEq, Eq, Debug)]
pub enum Prepared {
    Made {
        cipher: u32,
        key: [u8; KEY_BYTES],
    },
    /// What a refusal leaves, and whatever else no key gives: no call admits it.
    Refused,
}

impl Prepared {
    /// The key, if it is admitted under this cipher.
    pub fn key_under(&self, wanted: u32) -> Option<&[u8; KEY_BYTES]> {
        match self {
            Prepared::Made { cipher, key } if *cipher == wanted => Some(key),
            _ => None,
        }
    }
}

/// The number too: 1 for an unknown cipher, and then 2 for the key's length.
pub fn prepare(cipher: u32, key: &[u8]) -> (u32, Prepared) {
    match key.try_into() {
        _ if !is_cipher(cipher) => (REFUSED, Prepared::Refused),
        Ok(key) => (DONE, Prepared::Made { cipher, key }),
        Err(_) => (NOT_ADMITTED, Prepared::Refused),
    }
}
