//! SAEF: 001, figure 8. Lines are those of the sealing (E) where nothing else
//! is said. Section 6.4 and figure 13 have a nonce of 124 bits; here it has
//! 120 and line 6 fills up with zeros.

use crate::blocks::{is_padding, load_block, pad10, split_last, split_sealed, xor, Block};
use crate::schemes::Keyed;

/// Lines 8 and 22.
pub const HEADER: u8 = 0b000;
pub const BODY: u8 = 0b001;

/// Lines 13 and 17: noM, then 10 or 11.
pub fn last_header_flag(full: bool, body_is_empty: bool) -> u8 {
    let no_body = if body_is_empty { 0b100 } else { 0b000 };
    no_body | if full { 0b010 } else { 0b011 }
}

/// Lines 27 and 29.
pub fn last_body_flag(full: bool) -> u8 {
    if full {
        0b100
    } else {
        0b101
    }
}

/// The tweaks of one call, which lack the flag until it is known.
pub struct Tweaks {
    next: Block,
}

impl Tweaks {
    /// Line 6: the nonce, 0000, 1.
    pub fn new(nonce: &[u8]) -> Tweaks {
        let mut next = [0; 16];
        next[..15].copy_from_slice(nonce);
        next[15] = 0b0000_1000;
        Tweaks { next }
    }

    /// The next block's tweak. Every later one has zeros before the flag:
    /// lines 10, 15, 19 and 24.
    pub fn take(&mut self, flag: u8) -> Block {
        let mut tweak = self.next;
        tweak[15] |= flag;
        self.next = [0; 16];
        tweak
    }
}

/// Delta after the header: lines 6 to 20.
pub fn header_delta(
    keyed: &mut Keyed,
    tweaks: &mut Tweaks,
    header: &[u8],
    body_is_empty: bool,
) -> Block {
    let size = keyed.scheme.block_bytes;
    let (whole, last) = split_last(header, size);
    let mut delta = [0; 16];
    for block in whole.chunks_exact(size) {
        let tweak = tweaks.take(HEADER);
        delta = keyed.half0(&tweak, &xor(&load_block(block), &delta));
    }
    if !last.is_empty() || body_is_empty {
        let tweak = tweaks.take(last_header_flag(last.len() == size, body_is_empty));
        delta = keyed.half0(&tweak, &xor(&pad10(last, size), &delta));
    }
    delta
}

/// Lines 21 to 34. The room is a block longer than the body.
pub fn seal(keyed: &mut Keyed, header: &[u8], body: &[u8], room: &mut [u8]) {
    let size = keyed.scheme.block_bytes;
    let mut tweaks = Tweaks::new(keyed.nonce);
    let mut delta = header_delta(keyed, &mut tweaks, header, body.is_empty());
    let (whole, last) = split_last(body, size);
    let (front, end) = room.split_at_mut(whole.len());
    for (block, sealed) in whole.chunks_exact(size).zip(front.chunks_exact_mut(size)) {
        let tweak = tweaks.take(BODY);
        let (half0, half1) = keyed.both(&tweak, &xor(&load_block(block), &delta));
        sealed.copy_from_slice(&xor(&half0, &delta)[..size]);
        delta = half1;
    }
    if last.is_empty() {
        end.copy_from_slice(&delta[..size]);
        return;
    }
    let tweak = tweaks.take(last_body_flag(last.len() == size));
    let (half0, half1) = keyed.both(&tweak, &xor(&pad10(last, size), &delta));
    let (sealed, tag) = end.split_at_mut(size);
    sealed.copy_from_slice(&xor(&half0, &delta)[..size]);
    tag.copy_from_slice(&half1[..last.len()]);
}

/// The opening (D), lines 21 to 38: whether the run is authentic. Then, and
/// only then, the room, which is a block shorter than the run, is the body.
pub fn open(keyed: &mut Keyed, header: &[u8], run: &[u8], room: &mut [u8]) -> bool {
    let size = keyed.scheme.block_bytes;
    let mut tweaks = Tweaks::new(keyed.nonce);
    let mut delta = header_delta(keyed, &mut tweaks, header, run.len() == size);
    let (whole, last, tag) = split_sealed(run, size);
    let (front, end) = room.split_at_mut(whole.len());
    for (sealed, block) in whole.chunks_exact(size).zip(front.chunks_exact_mut(size)) {
        let tweak = tweaks.take(BODY);
        let (input, half1) = keyed.back(&tweak, &xor(&load_block(sealed), &delta));
        block.copy_from_slice(&xor(&input, &delta)[..size]);
        delta = half1;
    }
    if tag.is_empty() {
        return *last == delta[..size];
    }
    let tweak = tweaks.take(last_body_flag(tag.len() == size));
    let (input, half1) = keyed.back(&tweak, &xor(&load_block(last), &delta));
    let input = xor(&input, &delta);
    let (block, padding) = input[..size].split_at(tag.len());
    end.copy_from_slice(block);
    *tag == half1[..tag.len()] && is_padding(padding)
}
