//! The library's seal and open, through its C entry points, by key and with a
//! prepared key, and the meter's, which tell rounds too, against the second
//! program: number, length, every byte of the room, and the rounds; and the
//! library's rounds of lengths.

mod both;
mod changes;
mod damage;
mod faults;
mod lengths;
mod limits;
mod long;
mod others;
mod rooms;
mod rounds;

use compare::records::{row_of, Call};
use compare::sealing::{NOTHING, NOT_AUTHENTIC, NO_BLOCK};

const SCHEMES: [u32; 7] = [1, 2, 3, 4, 5, 6, 7];

/// Umbreon and Jolteon over one cipher, and over the other.
const SIBLINGS: [[u32; 2]; 2] = [[4, 5], [6, 7]];

/// Whether these lengths are sealed: from scheme 4 on not where both are 0 (C-14).
fn takes(scheme: u32, header: usize, body: usize) -> bool {
    scheme < 4 || header + body > 0
}

/// What a run is refused with that no sealing made.
fn refusal_of(opening: &Call) -> u32 {
    match opening
        .text
        .len()
        .checked_sub(row_of(opening.scheme).block_bytes)
    {
        None => NO_BLOCK,
        Some(body) if takes(opening.scheme, opening.header.len(), body) => NOT_AUTHENTIC,
        Some(_) => NOTHING,
    }
}
