//! The second program by the calls of auraski.h, each in the shape in which
//! `entries` has a library's, so that all sides can stand in one table.

use crate::entries::Told;
use crate::prepared::Prepared;
use crate::sealing::Answer;
use crate::{calls, sealing};

pub use crate::prepared::prepare;
pub use crate::sealing::rounds;

type Block = [u8; 16];

impl Answer {
    /// What of it a C caller would be told.
    pub fn told(self) -> Told {
        Told {
            number: self.number,
            length: self.length,
        }
    }
}

pub fn fork(
    cipher: u32,
    key: &Block,
    tweak: &Block,
    block: &Block,
    want: u32,
    [half0, half1]: [&mut Block; 2],
) -> u32 {
    let answer = calls::fork(cipher, key, tweak, block, want);
    (*half0, *half1) = (answer.half0, answer.half1);
    answer.number
}

pub fn unfork(
    cipher: u32,
    key: &Block,
    tweak: &Block,
    block: &Block,
    from: u32,
    want: u32,
    [input, other]: [&mut Block; 2],
) -> u32 {
    let answer = calls::unfork(cipher, key, tweak, block, from, want);
    (*input, *other) = (answer.input, answer.other);
    answer.number
}

pub fn seal(
    scheme: u32,
    key: &[u8],
    nonce: &[u8],
    header: &[u8],
    body: &[u8],
    room: &mut [u8],
) -> Told {
    sealing::seal(scheme, key, nonce, header, body, room).told()
}

pub fn open(
    scheme: u32,
    key: &[u8],
    nonce: &[u8],
    header: &[u8],
    run: &[u8],
    room: &mut [u8],
) -> Told {
    sealing::open(scheme, key, nonce, header, run, room).told()
}

pub fn fork_prepared(
    cipher: u32,
    prepared: &Prepared,
    tweak: &Block,
    block: &Block,
    want: u32,
    [half0, half1]: [&mut Block; 2],
) -> u32 {
    let answer = calls::fork_prepared(cipher, prepared, tweak, block, want);
    (*half0, *half1) = (answer.half0, answer.half1);
    answer.number
}

pub fn unfork_prepared(
    cipher: u32,
    prepared: &Prepared,
    tweak: &Block,
    block: &Block,
    from: u32,
    want: u32,
    [input, other]: [&mut Block; 2],
) -> u32 {
    let answer = calls::unfork_prepared(cipher, prepared, tweak, block, from, want);
    (*input, *other) = (answer.input, answer.other);
    answer.number
}

pub fn seal_prepared(
    scheme: u32,
    prepared: &Prepared,
    nonce: &[u8],
    header: &[u8],
    body: &[u8],
    room: &mut [u8],
) -> Told {
    sealing::seal_prepared(scheme, prepared, nonce, header, body, room).told()
}

pub fn open_prepared(
    scheme: u32,
    prepared: &Prepared,
    nonce: &[u8],
    header: &[u8],
    run: &[u8],
    room: &mut [u8],
) -> Told {
    sealing::open_prepared(scheme, prepared, nonce, header, run, room).told()
}
