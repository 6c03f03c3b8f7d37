//! Jolteon: 000, figure 9, its lines marked with a circle. A body block but the
//! last is worked to half 0 alone, and opened to the input alone.

use crate::blocks::{load_block, xor, Block};
use crate::eevee::body_tweak;
use crate::schemes::Keyed;

/// Lines 45, 49, 53 to 55 and 72.
pub fn seal_front(keyed: &mut Keyed, mut before: Block, whole: &[u8], room: &mut [u8]) -> Block {
    let size = keyed.scheme.block_bytes;
    let mut delta = [0; 16];
    let blocks = whole.chunks_exact(size).zip(room.chunks_exact_mut(size));
    for ((block, sealed), number) in blocks.zip(1 + 1..) {
        let tweak = body_tweak(keyed.nonce, number);
        let block = load_block(block);
        delta = xor(&delta, &xor(&block, &before));
        before = keyed.half0(&tweak, &block);
        sealed.copy_from_slice(&before[..size]);
    }
    xor(&delta, &before)
}

/// The opening (Dec), lines 99, 103, 107 to 109 and 126.
pub fn open_front(keyed: &mut Keyed, mut before: Block, whole: &[u8], room: &mut [u8]) -> Block {
    let size = keyed.scheme.block_bytes;
    let mut delta = [0; 16];
    let blocks = whole.chunks_exact(size).zip(room.chunks_exact_mut(size));
    for ((sealed, block), number) in blocks.zip(1 + 1..) {
        let tweak = body_tweak(keyed.nonce, number);
        let sealed = load_block(sealed);
        let input = keyed.input(&tweak, &sealed);
        block.copy_from_slice(&input[..size]);
        delta = xor(&delta, &xor(&input, &before));
        before = sealed;
    }
    xor(&delta, &before)
}
