//! What Umbreon and Jolteon share: 000, figure 9, its unmarked lines. Lines are
//! those of the sealing (Enc) where nothing else is said. The empty header over
//! the empty body, lines 29 to 31, is refused before.

use crate::blocks::{is_padding, load_block, pad10, split_last, xor, Block};
use crate::schemes::Keyed;

/// How a mode seals, or opens, the blocks before a body's last one, from one run
/// into the other. It is given T_A, and gives what is added to the last block.
pub type Front = fn(&mut Keyed, Block, &[u8], &mut [u8]) -> Block;

fn make_tweak(nonce: &[u8], end: u16) -> Block {
    let mut tweak = [0; 16];
    tweak[..nonce.len()].copy_from_slice(nonce);
    tweak[nonce.len()..nonce.len() + 2].copy_from_slice(&end.to_be_bytes());
    tweak
}

/// The nonce, the number in fourteen bits, 00: lines 19 and 23 of AD.
pub fn header_tweak(nonce: &[u8], number: u16) -> Block {
    make_tweak(nonce, number << 2)
}

/// The nonce, the number in fifteen bits, 1: lines 50, 53, 65 and 66.
pub fn body_tweak(nonce: &[u8], number: u16) -> Block {
    make_tweak(nonce, number << 1 | 1)
}

/// Line 23 of AD.
pub fn last_header_number(full: bool, body_is_empty: bool) -> u16 {
    2 * u16::from(full) + u16::from(body_is_empty)
}

/// Lines 65 and 66.
pub fn last_body_number(full: bool) -> u16 {
    u16::from(full)
}

/// T_A: lines 38 to 41, with AD.
pub fn header_sum(keyed: &mut Keyed, header: &[u8], body_is_empty: bool) -> Block {
    let size = keyed.scheme.block_bytes;
    let (whole, last) = split_last(header, size);
    let mut sum = [0; 16];
    for (block, number) in whole.chunks_exact(size).zip(1 + 4..) {
        let tweak = header_tweak(keyed.nonce, number);
        sum = xor(&sum, &keyed.half0(&tweak, &load_block(block)));
    }
    if !last.is_empty() {
        let number = last_header_number(last.len() == size, body_is_empty);
        let tweak = header_tweak(keyed.nonce, number);
        sum = xor(&sum, &keyed.half0(&tweak, &pad10(last, size)));
    }
    sum
}

/// Lines 65, 66 and 73 to 75, of a last block that is padded: what is sealed of
/// it, of which as many bytes count as it had before, and the tag.
pub fn seal_last(keyed: &mut Keyed, added: &Block, padded: &Block, full: bool) -> (Block, Block) {
    let tweak = body_tweak(keyed.nonce, last_body_number(full));
    let (tag, half1) = keyed.both(&tweak, &xor(padded, added));
    (xor(&half1, padded), tag)
}

/// Lines 38 to 75. The room is a block longer than the body.
pub fn seal(keyed: &mut Keyed, seal_front: Front, header: &[u8], body: &[u8], room: &mut [u8]) {
    let size = keyed.scheme.block_bytes;
    let sum = header_sum(keyed, header, body.is_empty());
    if body.is_empty() {
        room.copy_from_slice(&sum[..size]);
        return;
    }
    let (whole, last) = split_last(body, size);
    let (front, end) = room.split_at_mut(whole.len());
    let added = seal_front(keyed, sum, whole, front);
    let full = last.len() == size;
    let (sealed, tag) = seal_last(keyed, &added, &pad10(last, size), full);
    let (sealed_room, tag_room) = end.split_at_mut(last.len());
    sealed_room.copy_from_slice(&sealed[..last.len()]);
    tag_room.copy_from_slice(&tag[..size]);
}

/// The opening (Dec), lines 88 to 133: whether the run is authentic. Then, and
/// only then, the room, which is a block shorter than the run, is the body.
pub fn open(
    keyed: &mut Keyed,
    open_front: Front,
    header: &[u8],
    run: &[u8],
    room: &mut [u8],
) -> bool {
    let size = keyed.scheme.block_bytes;
    let (ciphertext, tag) = run.split_at(room.len());
    let sum = header_sum(keyed, header, ciphertext.is_empty());
    if ciphertext.is_empty() {
        return *tag == sum[..size];
    }
    let (whole, last) = split_last(ciphertext, size);
    let (front, end) = room.split_at_mut(whole.len());
    let added = open_front(keyed, sum, whole, front);
    let tweak = body_tweak(keyed.nonce, last_body_number(last.len() == size));
    let (input, half1) = keyed.back(&tweak, &load_block(tag));
    let padded = xor(&input, &added);
    let (block, padding) = padded[..size].split_at(last.len());
    end.copy_from_slice(block);
    xor(&padded, &half1)[..last.len()] == *last && is_padding(padding)
}
