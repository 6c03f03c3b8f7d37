//! The schemes (document 01, the table of the desk's part, and C-14), and a
//! scheme with the key and nonce of one call.

use crate::blocks::Block;
use crate::calls::{fork, unfork};

/// Bytes of a key under every scheme.
pub const KEY_BYTES: usize = 16;

/// Blocks of a header, and of a body, at most under PAEF: 001, section 6.2,
/// with thirteen bits of block number.
const MOST_PAEF_BLOCKS: usize = 8191;

/// Bytes of each at most under SAEF, which numbers no block: C-12.
const MOST_SAEF_BYTES: usize = 1_048_576;

/// Blocks of a header at most under Umbreon and Jolteon: 000, figure 9, line
/// 19 numbers all but the last from 5 on, with fourteen bits.
const MOST_EEVEE_HEADER_BLOCKS: usize = 16_379 + 1;

/// Blocks of a body at most under them: lines 50 and 53 number all but the last
/// from 2 on, with fifteen bits.
const MOST_EEVEE_BODY_BLOCKS: usize = 32_766 + 1;

#[derive(Clone, Copy, PartialEq, Eq, Debug)]
pub enum Mode {
    Paef,
    Saef,
    Umbreon,
    Jolteon,
}

/// One row of the table; `cipher` is the block calls' number.
#[derive(Clone, Copy, PartialEq, Eq, Debug)]
pub struct Scheme {
    pub cipher: u32,
    pub mode: Mode,
    pub block_bytes: usize,
    pub nonce_bytes: usize,
}

/// A row of the table; block and nonce are in bytes.
const fn row(cipher: u32, mode: Mode, block_bytes: usize, nonce_bytes: usize) -> Scheme {
    Scheme {
        cipher,
        mode,
        block_bytes,
        nonce_bytes,
    }
}

/// Scheme 1 is the first.
pub static SCHEMES: [Scheme; 7] = [
    row(1, Mode::Paef, 8, 6),
    row(2, Mode::Paef, 16, 14),
    row(2, Mode::Saef, 16, 15),
    row(1, Mode::Umbreon, 8, 6),
    row(1, Mode::Jolteon, 8, 6),
    row(2, Mode::Umbreon, 16, 14),
    row(2, Mode::Jolteon, 16, 14),
];

/// The schemes' numbers.
pub fn numbers() -> impl Iterator<Item = u32> {
    (1..).take(SCHEMES.len())
}

impl Scheme {
    /// The row of a caller's number, if there is one.
    pub fn find(number: u32) -> Option<&'static Scheme> {
        SCHEMES.get((number as usize).checked_sub(1)?)
    }

    /// Bytes of a header at most. A short last block counts as a block.
    pub fn most_header_bytes(&self) -> usize {
        match self.mode {
            Mode::Paef => MOST_PAEF_BLOCKS * self.block_bytes,
            Mode::Saef => MOST_SAEF_BYTES,
            Mode::Umbreon | Mode::Jolteon => MOST_EEVEE_HEADER_BLOCKS * self.block_bytes,
        }
    }

    /// Bytes of a body at most.
    pub fn most_body_bytes(&self) -> usize {
        match self.mode {
            Mode::Paef => MOST_PAEF_BLOCKS * self.block_bytes,
            Mode::Saef => MOST_SAEF_BYTES,
            Mode::Umbreon | Mode::Jolteon => MOST_EEVEE_BODY_BLOCKS * self.block_bytes,
        }
    }

    /// Whether an empty header over an empty body is sealed. It isn't by 000,
    /// figure 9, line 29.
    pub fn seals_nothing(&self) -> bool {
        matches!(self.mode, Mode::Paef | Mode::Saef)
    }
}

/// What every block of one call shares, and how many rounds its blocks have run
/// so far. The nonce has the scheme's length.
pub struct Keyed<'a> {
    pub scheme: &'static Scheme,
    pub key: &'a [u8; KEY_BYTES],
    pub nonce: &'a [u8],
    pub rounds: u32,
}

impl<'a> Keyed<'a> {
    /// Before its first block.
    pub fn new(scheme: &'static Scheme, key: &'a [u8; KEY_BYTES], nonce: &'a [u8]) -> Keyed<'a> {
        Keyed {
            scheme,
            key,
            nonce,
            rounds: 0,
        }
    }

    /// 001's F with selector 0.
    pub fn half0(&mut self, tweak: &Block, block: &Block) -> Block {
        let answer = fork(self.scheme.cipher, self.key, tweak, block, 0);
        self.rounds += answer.rounds;
        answer.half0
    }

    /// 001's F with selector b: both halves.
    pub fn both(&mut self, tweak: &Block, block: &Block) -> (Block, Block) {
        let answer = fork(self.scheme.cipher, self.key, tweak, block, 2);
        self.rounds += answer.rounds;
        (answer.half0, answer.half1)
    }

    /// 001's inverse F from half 0 with selector b: the input and half 1.
    pub fn back(&mut self, tweak: &Block, half0: &Block) -> (Block, Block) {
        let answer = unfork(self.scheme.cipher, self.key, tweak, half0, 0, 2);
        self.rounds += answer.rounds;
        (answer.input, answer.other)
    }

    /// The same with selector i: the input alone.
    pub fn input(&mut self, tweak: &Block, half0: &Block) -> Block {
        let answer = unfork(self.scheme.cipher, self.key, tweak, half0, 0, 0);
        self.rounds += answer.rounds;
        answer.input
    }
}
