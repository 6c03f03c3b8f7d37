//! Umbreon: 000, figure 9, its lines marked with a square. A body block is
//! forked to both halves; the one goes into the run, the other into the next
//! block.

use crate::blocks::{load_block, xor, Block};
use crate::eevee::body_tweak;
use crate::schemes::Keyed;

/// Lines 49 to 52 and 71.
pub fn seal_front(keyed: &mut Keyed, mut sum: Block, whole: &[u8], room: &mut [u8]) -> Block {
    let size = keyed.scheme.block_bytes;
    let mut delta = [0; 16];
    let blocks = whole.chunks_exact(size).zip(room.chunks_exact_mut(size));
    for ((block, sealed), number) in blocks.zip(1 + 1..) {
        let tweak = body_tweak(keyed.nonce, number);
        delta = xor(&delta, &sum);
        let (half0, half1) = keyed.both(&tweak, &xor(&load_block(block), &sum));
        sealed.copy_from_slice(&half0[..size]);
        sum = half1;
    }
    xor(&delta, &sum)
}

/// The opening (Dec), lines 103 to 106 and 125.
pub fn open_front(keyed: &mut Keyed, mut sum: Block, whole: &[u8], room: &mut [u8]) -> Block {
    let size = keyed.scheme.block_bytes;
    let mut delta = [0; 16];
    let blocks = whole.chunks_exact(size).zip(room.chunks_exact_mut(size));
    for ((sealed, block), number) in blocks.zip(1 + 1..) {
        let tweak = body_tweak(keyed.nonce, number);
        delta = xor(&delta, &sum);
        let (input, half1) = keyed.back(&tweak, &load_block(sealed));
        block.copy_from_slice(&xor(&input, &sum)[..size]);
        sum = half1;
    }
    xor(&delta, &sum)
}
