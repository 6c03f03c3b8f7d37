//! Runs that no sealing makes, for tests: their last body block is enciphered
//! as it stands, so that its padding may be wrong while the tag is right. It
//! takes the key to make one.

use crate::blocks::{load_block, xor, Block};
use crate::schemes::{Keyed, Mode};
use crate::{eevee, jolteon, paef, saef, umbreon};

/// The last block of a body and how many bytes of it are said to be body.
pub struct LastBlock {
    pub block: Block,
    pub body_bytes: usize,
}

/// The run of `whole` blocks and a last one that is taken as short.
pub fn forged_run(keyed: &mut Keyed, header: &[u8], whole: &[u8], last: &LastBlock) -> Vec<u8> {
    match keyed.scheme.mode {
        Mode::Paef => forged_paef(keyed, header, whole, last),
        Mode::Saef => forged_saef(keyed, header, whole, last),
        Mode::Umbreon => forged_eevee(keyed, umbreon::seal_front, header, whole, last),
        Mode::Jolteon => forged_eevee(keyed, jolteon::seal_front, header, whole, last),
    }
}

/// 001, figure 5, lines 19 to 38 without the padding of line 36.
fn forged_paef(keyed: &mut Keyed, header: &[u8], whole: &[u8], last: &LastBlock) -> Vec<u8> {
    let size = keyed.scheme.block_bytes;
    let mut sum = paef::header_sum(keyed, header, false);
    let mut run = Vec::new();
    let mut number = 1;
    for block in whole.chunks_exact(size) {
        let tweak = paef::make_tweak(keyed.nonce, paef::BODY, number);
        let (half0, half1) = keyed.both(&tweak, &load_block(block));
        run.extend(&half0[..size]);
        sum = xor(&sum, &half1);
        number += 1;
    }
    let tweak = paef::make_tweak(keyed.nonce, paef::last_body_flag(false), number);
    let (half0, half1) = keyed.both(&tweak, &last.block);
    run.extend(&xor(&half0, &sum)[..size]);
    run.extend(&half1[..last.body_bytes]);
    run
}

/// 001, figure 8, lines 21 to 34 without the padding of line 33.
fn forged_saef(keyed: &mut Keyed, header: &[u8], whole: &[u8], last: &LastBlock) -> Vec<u8> {
    let mut tweaks = saef::Tweaks::new(keyed.nonce);
    let mut delta = saef::header_delta(keyed, &mut tweaks, header, false);
    let mut run = Vec::new();
    for block in whole.chunks_exact(keyed.scheme.block_bytes) {
        let input = xor(&load_block(block), &delta);
        let (half0, half1) = keyed.both(&tweaks.take(saef::BODY), &input);
        run.extend(xor(&half0, &delta));
        delta = half1;
    }
    let tweak = tweaks.take(saef::last_body_flag(false));
    let (half0, half1) = keyed.both(&tweak, &xor(&last.block, &delta));
    run.extend(xor(&half0, &delta));
    run.extend(&half1[..last.body_bytes]);
    run
}

/// 000, figure 9, lines 38 to 75 without the padding of line 35.
fn forged_eevee(
    keyed: &mut Keyed,
    seal_front: eevee::Front,
    header: &[u8],
    whole: &[u8],
    last: &LastBlock,
) -> Vec<u8> {
    let sum = eevee::header_sum(keyed, header, false);
    let mut run = vec![0; whole.len()];
    let added = seal_front(keyed, sum, whole, &mut run);
    let (sealed, tag) = eevee::seal_last(keyed, &added, &last.block, false);
    run.extend(&sealed[..last.body_bytes]);
    run.extend(&tag[..keyed.scheme.block_bytes]);
    run
}
