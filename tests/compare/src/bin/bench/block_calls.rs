//! How long one block call takes.

use crate::rival;
use crate::side::{quickest, Side, Times};
use compare::auraski::{self, opaque, Prepared};
use compare::second;

pub type Block = [u8; 16];

/// Calls in a batch.
pub const CALLS: u32 = 100;

/// One kind of call; `from` is absent forward.
#[derive(Clone, Copy, Debug)]
pub struct Kind {
    pub cipher: u32,
    pub from: Option<u32>,
    pub want: u32,
}

pub fn cipher_name(cipher: u32) -> &'static str {
    ["64-192", "128-256"][cipher as usize - 1]
}

impl Kind {
    pub fn cipher_name(&self) -> &'static str {
        cipher_name(self.cipher)
    }

    pub fn name(&self) -> String {
        let want = self.want as usize;
        match self.from {
            None => format!("forward, {}", ["half 0", "half 1", "both"][want]),
            Some(from) => {
                let wanted = ["input", "other half", "both"][want];
                format!("back from {}, {}", from, wanted)
            }
        }
    }
}

/// What the calls of one batch work on. Each call's answer goes into the next
/// call's block and tweak, so that no call can be left out or moved.
struct Chain {
    key: Block,
    tweak: Block,
    block: Block,
}

impl Chain {
    fn new() -> Chain {
        Chain {
            key: *b"a key of a batch",
            tweak: *b"tweak of a batch",
            block: [7; 16],
        }
    }

    fn take_in(&mut self, first: &Block, second: &Block) {
        self.tweak = self.block;
        for (cell, (a, b)) in self.block.iter_mut().zip(first.iter().zip(second)) {
            *cell = a ^ b;
        }
    }
}

/// What a side finds in the blocks of its answer, so that a byte not written is
/// seen.
const BEFORE: u8 = 0xa5;

/// One call: its number and both blocks.
pub fn answer(
    side: Side,
    kind: Kind,
    key: &Block,
    tweak: &Block,
    block: &Block,
) -> (u32, Block, Block) {
    let Kind { cipher, from, want } = kind;
    let (mut first, mut other) = ([BEFORE; 16], [BEFORE; 16]);
    let room = [&mut first, &mut other];
    let number = match (side, from) {
        (Side::Ours, None) => auraski::fork(cipher, key, tweak, block, want, room),
        (Side::Ours, Some(from)) => auraski::unfork(cipher, key, tweak, block, from, want, room),
        (Side::Rival, None) => rival::fork(cipher, key, tweak, block, want, room),
        (Side::Rival, Some(from)) => rival::unfork(cipher, key, tweak, block, from, want, room),
        (Side::Second, None) => second::fork(cipher, key, tweak, block, want, room),
        (Side::Second, Some(from)) => second::unfork(cipher, key, tweak, block, from, want, room),
    };
    (number, first, other)
}

/// The same of ours with a prepared key.
pub fn answer_prepared(
    kind: Kind,
    prepared: &Prepared,
    tweak: &Block,
    block: &Block,
) -> (u32, Block, Block) {
    let Kind { cipher, from, want } = kind;
    let (mut first, mut other) = ([BEFORE; 16], [BEFORE; 16]);
    let room = [&mut first, &mut other];
    let number = match from {
        None => auraski::fork_prepared(cipher, prepared, tweak, block, want, room),
        Some(from) => auraski::unfork_prepared(cipher, prepared, tweak, block, from, want, room),
    };
    (number, first, other)
}

/// A batch of calls: the sum of their numbers, which is 0 if none was refused,
/// and the block that the last one leaves.
fn chained(count: u32, call: impl Fn(&Chain) -> (u32, Block, Block)) -> (u32, Block) {
    let mut chain = Chain::new();
    let mut refused = 0;
    for _ in 0..count {
        let (number, first, second) = call(&chain);
        refused += number;
        chain.take_in(&first, &second);
    }
    (refused, opaque(chain.block))
}

fn chained_by_key(side: Side, kind: Kind, count: u32) -> (u32, Block) {
    chained(count, |chain| {
        let Chain { key, tweak, block } = chain;
        answer(side, opaque(kind), key, tweak, block)
    })
}

pub fn run(side: Side, kind: Kind, count: u32) -> u32 {
    chained_by_key(side, kind, count).0
}

/// The same of ours with the key prepared before the first call.
pub fn run_prepared(kind: Kind, count: u32) -> u32 {
    let (_, prepared) = auraski::prepare(kind.cipher, &Chain::new().key);
    let call = |chain: &Chain| {
        let Chain { tweak, block, .. } = chain;
        answer_prepared(opaque(kind), &prepared, tweak, block)
    };
    chained(count, call).0
}

/// Times one kind of call, of which a batch ends alike on all sides.
pub fn measure(kind: Kind) -> Times {
    let ends = Side::ALL.map(|side| chained_by_key(side, kind, CALLS));
    assert!(
        ends.iter().all(|end| *end == ends[0]),
        "the sides do not agree: {kind:?}"
    );
    quickest(CALLS, |side| run(side, kind, CALLS))
}

/// Every kind of call.
pub fn kinds() -> Vec<Kind> {
    let mut kinds = Vec::new();
    for cipher in [1, 2] {
        for from in [None, Some(0), Some(1)] {
            kinds.extend((0..3).map(|want| Kind { cipher, from, want }));
        }
    }
    kinds
}

/// DIRECTION CIPHER FROM WANT.
pub fn parse_kind(words: &[&str]) -> Option<Kind> {
    let [direction, cipher, from, want]: [&str; 4] = words.try_into().ok()?;
    let from = match direction {
        "fork" => None,
        "unfork" => Some(from.parse().ok()?),
        _ => return None,
    };
    Some(Kind {
        cipher: cipher.parse().ok()?,
        from,
        want: want.parse().ok()?,
    })
}

/// SIDE DIRECTION CIPHER FROM WANT N.
pub fn parse_count(words: &[&str]) -> Option<(Side, Kind, u32)> {
    match words {
        [side, kind @ .., count] => {
            Some((Side::find(side)?, parse_kind(kind)?, count.parse().ok()?))
        }
        _ => None,
    }
}
