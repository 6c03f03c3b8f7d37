//! PAEF: 001, figure 5, its unmarked lines and those marked with a diamond.
//! Lines are those of the sealing (E) where nothing else is said.

use crate::blocks::{is_padding, load_block, pad10, split_last, split_sealed, xor, Block};
use crate::schemes::Keyed;

/// Lines 6 and 20. The prose of 001, section 6.2, gives the flags otherwise;
/// document 01 has those of the figure.
pub const HEADER: u16 = 0b000;
pub const BODY: u16 = 0b100;

/// Lines 11 and 15.
pub fn last_header_flag(full: bool) -> u16 {
    if full {
        0b001
    } else {
        0b011
    }
}

/// Lines 28 and 31.
pub fn last_body_flag(full: bool) -> u16 {
    if full {
        0b101
    } else {
        0b111
    }
}

/// Nonce, three bits of flag, thirteen of number: the last two bytes hold
/// flag times 8,192 plus number (document 01, "PAEF").
pub fn make_tweak(nonce: &[u8], flag: u16, number: u16) -> Block {
    let mut tweak = [0; 16];
    let (front, end) = tweak.split_at_mut(nonce.len());
    front.copy_from_slice(nonce);
    end[..2].copy_from_slice(&(flag * 8192 + number).to_be_bytes());
    tweak
}

/// S after the header: lines 4 to 18.
pub fn header_sum(keyed: &mut Keyed, header: &[u8], body_is_empty: bool) -> Block {
    let size = keyed.scheme.block_bytes;
    let (whole, last) = split_last(header, size);
    let mut sum = [0; 16];
    let mut number = 1;
    for block in whole.chunks_exact(size) {
        let tweak = make_tweak(keyed.nonce, HEADER, number);
        sum = xor(&sum, &keyed.half0(&tweak, &load_block(block)));
        number += 1;
    }
    if !last.is_empty() || body_is_empty {
        let flag = last_header_flag(last.len() == size);
        let tweak = make_tweak(keyed.nonce, flag, number);
        sum = xor(&sum, &keyed.half0(&tweak, &pad10(last, size)));
    }
    sum
}

/// Lines 19 to 38. The room is a block longer than the body.
pub fn seal(keyed: &mut Keyed, header: &[u8], body: &[u8], room: &mut [u8]) {
    let size = keyed.scheme.block_bytes;
    let mut sum = header_sum(keyed, header, body.is_empty());
    let (whole, last) = split_last(body, size);
    let (front, end) = room.split_at_mut(whole.len());
    let mut number = 1;
    for (block, sealed) in whole.chunks_exact(size).zip(front.chunks_exact_mut(size)) {
        let tweak = make_tweak(keyed.nonce, BODY, number);
        let (half0, half1) = keyed.both(&tweak, &load_block(block));
        sealed.copy_from_slice(&half0[..size]);
        sum = xor(&sum, &half1);
        number += 1;
    }
    if last.is_empty() {
        end.copy_from_slice(&sum[..size]);
        return;
    }
    let tweak = make_tweak(keyed.nonce, last_body_flag(last.len() == size), number);
    let (half0, half1) = keyed.both(&tweak, &pad10(last, size));
    let (sealed, tag) = end.split_at_mut(size);
    sealed.copy_from_slice(&xor(&half0, &sum)[..size]);
    tag.copy_from_slice(&half1[..last.len()]);
}

/// The opening (D), lines 19 to 42: whether the run is authentic. Then, and
/// only then, the room, which is a block shorter than the run, is the body.
/// Lines 37 and 38 both add S; the sealing adds it once, and that decides.
pub fn open(keyed: &mut Keyed, header: &[u8], run: &[u8], room: &mut [u8]) -> bool {
    let size = keyed.scheme.block_bytes;
    let mut sum = header_sum(keyed, header, run.len() == size);
    let (whole, last, tag) = split_sealed(run, size);
    let (front, end) = room.split_at_mut(whole.len());
    let mut number = 1;
    for (sealed, block) in whole.chunks_exact(size).zip(front.chunks_exact_mut(size)) {
        let tweak = make_tweak(keyed.nonce, BODY, number);
        let (input, half1) = keyed.back(&tweak, &load_block(sealed));
        block.copy_from_slice(&input[..size]);
        sum = xor(&sum, &half1);
        number += 1;
    }
    if tag.is_empty() {
        return *last == sum[..size];
    }
    let tweak = make_tweak(keyed.nonce, last_body_flag(tag.len() == size), number);
    let (input, half1) = keyed.back(&tweak, &xor(&load_block(last), &sum));
    let (block, padding) = input[..size].split_at(tag.len());
    end.copy_from_slice(block);
    *tag == half1[..tag.len()] && is_padding(padding)
}
