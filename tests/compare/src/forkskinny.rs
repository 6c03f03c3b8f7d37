//! ForkSkinny: 001, section 4 with figure 4. Where figure 4's decryption has
//! slips (lines 8 and 15), its encryption decides.

use crate::cells::{load, step_word2, store, Cells, Width};
use crate::rounds::{round, round_back, RoundConstant, RoundKey};
use crate::tweakey::{round_keys, RoundKeys, MOST_ROUNDS};
use std::ops::Range;

/// One row of the table of ciphers.
pub struct Cipher {
    pub width: Width,
    pub words: usize,
    pub rounds_before_fork: usize,
    pub rounds_per_branch: usize,
}

/// Document 01, "ForkSkinny, the cells": 64-192 and 128-256.
pub static CIPHERS: [Cipher; 2] = [
    Cipher {
        width: Width::Nibble,
        words: 3,
        rounds_before_fork: 17,
        rounds_per_branch: 23,
    },
    Cipher {
        width: Width::Byte,
        words: 2,
        rounds_before_fork: 21,
        rounds_per_branch: 27,
    },
];

/// The half whose branch goes straight on after the fork: 001, figure 4, line
/// 5. The other half, line 9, takes the branch constant and the rounds after.
pub const NEAR_HALF: usize = 0;

/// The 7-bit numbers of all rounds: 001, section 4.1, and table 2.
pub const ROUND_NUMBERS: [u8; MOST_ROUNDS] = round_numbers();

/// 001, section 4.1, BC_4 and BC_8.
pub const BRANCH_NIBBLES: Cells = branch_constant(Width::Nibble);
pub const BRANCH_BYTES: Cells = branch_constant(Width::Byte);

/// The number starts at 0 and is updated before each round.
const fn round_numbers() -> [u8; MOST_ROUNDS] {
    let mut numbers = [0; MOST_ROUNDS];
    let mut number = 0u8;
    let mut place = 0;
    while place < MOST_ROUNDS {
        number = ((number << 1) & 0x7f) | (((number >> 6) ^ (number >> 5) ^ 1) & 1);
        numbers[place] = number;
        place += 1;
    }
    numbers
}

/// Its cells begin at 1; each next one is word 2's step of the one before.
const fn branch_constant(width: Width) -> Cells {
    let mut cells = [1; 16];
    let mut place = 1;
    while place < 16 {
        cells[place] = step_word2(width, cells[place - 1]);
        place += 1;
    }
    cells
}

fn add_branch_constant(cells: &mut Cells, width: Width) {
    let constant = match width {
        Width::Nibble => &BRANCH_NIBBLES,
        Width::Byte => &BRANCH_BYTES,
    };
    for (cell, constant_cell) in cells.iter_mut().zip(constant) {
        *cell ^= constant_cell;
    }
}

/// The keys of one block call, and how many rounds it has run with them so far.
/// Making them is no round (C-13).
struct Running {
    keys: RoundKeys,
    rounds: u32,
}

/// The two blocks of an answer, and the rounds that were run for them.
pub struct Worked {
    pub blocks: [[u8; 16]; 2],
    pub rounds: u32,
}

/// The rounds' keys with their constants, by place in the schedule.
fn steps(
    keys: &RoundKeys,
    rounds: Range<usize>,
) -> impl DoubleEndedIterator<Item = (&RoundKey, RoundConstant)> {
    let numbers = ROUND_NUMBERS[rounds.clone()].iter();
    let constants = numbers.map(|number| RoundConstant {
        number: *number,
        extra: 2,
    });
    keys[rounds].iter().zip(constants)
}

#[inline(always)]
fn run(cells: &mut Cells, width: Width, running: &mut Running, rounds: Range<usize>) {
    for (key, constant) in steps(&running.keys, rounds) {
        round(cells, width, constant, key);
        running.rounds += 1;
    }
}

#[inline(always)]
fn run_back(cells: &mut Cells, width: Width, running: &mut Running, rounds: Range<usize>) {
    for (key, constant) in steps(&running.keys, rounds).rev() {
        round_back(cells, width, constant, key);
        running.rounds += 1;
    }
}

impl Cipher {
    /// The places in the schedule and in the constants of one half's branch.
    fn branch_rounds(&self, half: usize) -> Range<usize> {
        let near = self.rounds_before_fork;
        let start = if half == NEAR_HALF {
            near
        } else {
            near + self.rounds_per_branch
        };
        start..start + self.rounds_per_branch
    }

    /// With the keys of every round up to the end of the branches worked in, and
    /// no round run.
    fn start(&self, tweakey: &[u8], worked_in: [bool; 2]) -> Running {
        let last_half = if worked_in[1 - NEAR_HALF] {
            1 - NEAR_HALF
        } else {
            NEAR_HALF
        };
        let end = self.branch_rounds(last_half).end;
        Running {
            keys: round_keys(self.width, self.words, tweakey, end),
            rounds: 0,
        }
    }

    /// Some rounds; the width is settled here, once, and not in every round.
    fn forward(&self, cells: &mut Cells, running: &mut Running, rounds: Range<usize>) {
        match self.width {
            Width::Nibble => run(cells, Width::Nibble, running, rounds),
            Width::Byte => run(cells, Width::Byte, running, rounds),
        }
    }

    /// The same rounds undone, the last one first.
    fn back(&self, cells: &mut Cells, running: &mut Running, rounds: Range<usize>) {
        match self.width {
            Width::Nibble => run_back(cells, Width::Nibble, running, rounds),
            Width::Byte => run_back(cells, Width::Byte, running, rounds),
        }
    }

    /// From the state at the fork to a half: 001, figure 4, lines 4 to 10.
    fn half_of(&self, forked: &Cells, running: &mut Running, half: usize) -> Cells {
        let mut cells = *forked;
        if half != NEAR_HALF {
            add_branch_constant(&mut cells, self.width);
        }
        self.forward(&mut cells, running, self.branch_rounds(half));
        cells
    }

    /// From a half to the state at the fork: 001, figure 4, decryption, lines
    /// 4 to 9.
    fn forked_of(&self, half_cells: &Cells, running: &mut Running, half: usize) -> Cells {
        let mut cells = *half_cells;
        self.back(&mut cells, running, self.branch_rounds(half));
        if half != NEAR_HALF {
            add_branch_constant(&mut cells, self.width);
        }
        cells
    }

    /// Forward. `tweakey` is key then tweak; `wanted` says which halves are
    /// asked for, and the others come back as zeros.
    pub fn fork(&self, tweakey: &[u8], block: &[u8; 16], wanted: [bool; 2]) -> Worked {
        let mut running = self.start(tweakey, wanted);
        let mut forked = load(self.width, block);
        self.forward(&mut forked, &mut running, 0..self.rounds_before_fork);
        let mut blocks = [[0; 16]; 2];
        for (half, answer) in blocks.iter_mut().enumerate() {
            if wanted[half] {
                *answer = store(self.width, &self.half_of(&forked, &mut running, half));
            }
        }
        let rounds = running.rounds;
        Worked { blocks, rounds }
    }

    /// Back from a half: the input block and the other half, zeros for what
    /// is not asked for. The other half is taken from the state at the fork.
    pub fn unfork(
        &self,
        tweakey: &[u8],
        block: &[u8; 16],
        from: usize,
        [want_input, want_other]: [bool; 2],
    ) -> Worked {
        let other = 1 - from;
        let mut worked_in = [want_other; 2];
        worked_in[from] = true;
        let mut running = self.start(tweakey, worked_in);
        let forked = self.forked_of(&load(self.width, block), &mut running, from);
        let mut blocks = [[0; 16]; 2];
        if want_input {
            let mut cells = forked;
            self.back(&mut cells, &mut running, 0..self.rounds_before_fork);
            blocks[0] = store(self.width, &cells);
        }
        if want_other {
            blocks[1] = store(self.width, &self.half_of(&forked, &mut running, other));
        }
        let rounds = running.rounds;
        Worked { blocks, rounds }
    }
}
