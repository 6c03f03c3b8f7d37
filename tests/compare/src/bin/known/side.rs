//! The two sides, by the same calls.

use compare::entries::Told;
use compare::records::{Call, Sealing};
use compare::sealing::Rounds;
use compare::{auraski, second};

pub type Block = [u8; 16];

pub struct Side {
    /// Seal and open.
    pub sealing: [Sealing<Told>; 2],
    pub fork: fn(u32, &Block, &Block, &Block, u32, [&mut Block; 2]) -> u32,
    pub unfork: fn(u32, &Block, &Block, &Block, u32, u32, [&mut Block; 2]) -> u32,
    pub rounds: fn(u32, usize, usize) -> Rounds,
    pub prepare: fn(u32, &[u8]) -> u32,
    /// The first three once more, with the key prepared for a cipher, which comes
    /// before the others.
    pub sealing_prepared: fn(u32, &Call, &mut [u8]) -> Told,
    pub fork_prepared: fn(u32, u32, &Block, &Block, &Block, u32, [&mut Block; 2]) -> u32,
    pub unfork_prepared: fn(u32, u32, &Block, &Block, &Block, u32, u32, [&mut Block; 2]) -> u32,
}

/// What a prepared key is differs from side to side; what is done with it does
/// not.
macro_rules! side {
    ($side:ident) => {
        Side {
            sealing: [$side::seal, $side::open],
            fork: $side::fork,
            unfork: $side::unfork,
            rounds: $side::rounds,
            prepare: |of, key| $side::prepare(of, key).0,
            sealing_prepared: |of, call, room| {
                let calls = [$side::seal_prepared, $side::open_prepared];
                call.make_prepared(calls, &$side::prepare(of, &call.key).1, room)
            },
            fork_prepared: |of, cipher, key, tweak, block, want, halves| {
                let prepared = $side::prepare(of, key).1;
                $side::fork_prepared(cipher, &prepared, tweak, block, want, halves)
            },
            unfork_prepared: |of, cipher, key, tweak, block, from, want, ends| {
                let prepared = $side::prepare(of, key).1;
                $side::unfork_prepared(cipher, &prepared, tweak, block, from, want, ends)
            },
        }
    };
}

pub static SECOND: Side = side!(second);
pub static LIBRARY: Side = side!(auraski);
