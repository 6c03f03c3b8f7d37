//! The library's calls once more, each with the rounds that it runs (C-13),
//! which the C entry points do not tell: from libmeter.a, a second proved
//! archive that is there for the comparison alone.

use crate::calls::{Fork, Unfork};
use crate::entries::{UNCOUNTED, UNWRITTEN};
use crate::sealing::Answer;

type Block = [u8; 16];

/// Seal and open have one shape.
type Entry = unsafe extern "C" fn(
    u32,
    *const u8,
    usize,
    *const u8,
    usize,
    *const u8,
    usize,
    *const u8,
    usize,
    *mut u8,
    usize,
    *mut usize,
    *mut u32,
) -> u32;

extern "C" {
    fn meter_fork(
        cipher: u32,
        key: *const u8,
        tweak: *const u8,
        block: *const u8,
        want: u32,
        half0: *mut u8,
        half1: *mut u8,
        rounds: *mut u32,
    ) -> u32;

    fn meter_unfork(
        cipher: u32,
        key: *const u8,
        tweak: *const u8,
        block: *const u8,
        from: u32,
        want: u32,
        input: *mut u8,
        other: *mut u8,
        rounds: *mut u32,
    ) -> u32;

    fn meter_seal(
        scheme: u32,
        key: *const u8,
        key_len: usize,
        nonce: *const u8,
        nonce_len: usize,
        header: *const u8,
        header_len: usize,
        body: *const u8,
        body_len: usize,
        room: *mut u8,
        room_len: usize,
        length: *mut usize,
        rounds: *mut u32,
    ) -> u32;

    fn meter_open(
        scheme: u32,
        key: *const u8,
        key_len: usize,
        nonce: *const u8,
        nonce_len: usize,
        header: *const u8,
        header_len: usize,
        run: *const u8,
        run_len: usize,
        room: *mut u8,
        room_len: usize,
        length: *mut usize,
        rounds: *mut u32,
    ) -> u32;
}

/// Forward. The result blocks are filled with what the caller gives, so that a
/// byte not written is seen.
pub fn fork(
    cipher: u32,
    key: &Block,
    tweak: &Block,
    block: &Block,
    want: u32,
    [mut half0, mut half1]: [Block; 2],
) -> Fork {
    let mut rounds = UNCOUNTED;
    // Every pointer is to a whole block of sixteen bytes, or to the rounds, that
    // outlives the call; the three that are written belong to this call alone.
    let number = unsafe {
        meter_fork(
            cipher,
            key.as_ptr(),
            tweak.as_ptr(),
            block.as_ptr(),
            want,
            half0.as_mut_ptr(),
            half1.as_mut_ptr(),
            &mut rounds,
        )
    };
    Fork {
        number,
        half0,
        half1,
        rounds,
    }
}

/// Back from a half; the result blocks as above.
pub fn unfork(
    cipher: u32,
    key: &Block,
    tweak: &Block,
    block: &Block,
    from: u32,
    want: u32,
    [mut input, mut other]: [Block; 2],
) -> Unfork {
    let mut rounds = UNCOUNTED;
    // As above.
    let number = unsafe {
        meter_unfork(
            cipher,
            key.as_ptr(),
            tweak.as_ptr(),
            block.as_ptr(),
            from,
            want,
            input.as_mut_ptr(),
            other.as_mut_ptr(),
            &mut rounds,
        )
    };
    Unfork {
        number,
        input,
        other,
        rounds,
    }
}

/// One call of seal or open. A run without a byte has a pointer too, which is
/// not null.
fn answer(
    entry: Entry,
    scheme: u32,
    [key, nonce, header, text]: [&[u8]; 4],
    room: &mut [u8],
) -> Answer {
    let (mut length, mut rounds) = (UNWRITTEN, UNCOUNTED);
    // Every run outlives the call and is as long as the number behind it says;
    // room, length and rounds are written by this call alone.
    let number = unsafe {
        entry(
            scheme,
            key.as_ptr(),
            key.len(),
            nonce.as_ptr(),
            nonce.len(),
            header.as_ptr(),
            header.len(),
            text.as_ptr(),
            text.len(),
            room.as_mut_ptr(),
            room.len(),
            &mut length,
            &mut rounds,
        )
    };
    Answer {
        number,
        length,
        rounds,
    }
}

/// Seals a body into the room.
pub fn seal(
    scheme: u32,
    key: &[u8],
    nonce: &[u8],
    header: &[u8],
    body: &[u8],
    room: &mut [u8],
) -> Answer {
    answer(meter_seal, scheme, [key, nonce, header, body], room)
}

/// Opens a sealed run into the room.
pub fn open(
    scheme: u32,
    key: &[u8],
    nonce: &[u8],
    header: &[u8],
    run: &[u8],
    room: &mut [u8],
) -> Answer {
    answer(meter_open, scheme, [key, nonce, header, run], room)
}
