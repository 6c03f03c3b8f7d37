//! The rounds of a seal or an open by scheme and lengths.

use crate::book::Book;
use compare::records::row_of;
use compare::schemes::numbers;
use compare::sealing::{BODY_TOO_LONG, DONE, HEADER_TOO_LONG, NOTHING, UNKNOWN_SCHEME};

/// The greatest length that the file can write.
const GREATEST: usize = u32::MAX as usize;

/// Header and body empty, short, full, and of more blocks than one.
fn write_short(book: &mut Book, scheme: u32) {
    let row = row_of(scheme);
    let block = row.block_bytes;
    let lengths = [
        [0, 1],
        [1, 0],
        [0, block],
        [block, 0],
        [0, block + 1],
        [block + 1, 0],
        [1, 1],
        [block, block],
        [block + 1, block + 1],
        [3 * block, 3 * block],
        [block - 1, 3 * block + 1],
    ];
    if row.seals_nothing() {
        book.rounds("Nothing: a block is worked.", scheme, [0, 0], DONE);
    } else {
        book.rounds("Nothing, which is not sealed.", scheme, [0, 0], NOTHING);
    }
    for [header, body] in lengths {
        book.rounds("", scheme, [header, body], DONE);
    }
}

/// The longest that a scheme takes, and longer.
fn write_limits(book: &mut Book, scheme: u32) {
    let row = row_of(scheme);
    let (header, body) = (row.most_header_bytes(), row.most_body_bytes());
    for lengths in [[header, 0], [0, body - 1], [header, body]] {
        book.rounds("", scheme, lengths, DONE);
    }
    let about = "The header too long.";
    for lengths in [[header + 1, 0], [header + 1, body], [GREATEST, 1]] {
        book.rounds(about, scheme, lengths, HEADER_TOO_LONG);
    }
    let about = "The body too long.";
    for lengths in [[0, body + 1], [header, body + 1], [1, GREATEST]] {
        book.rounds(about, scheme, lengths, BODY_TOO_LONG);
    }
    let about = "Both too long.";
    for lengths in [[header + 1, body + 1], [GREATEST; 2]] {
        book.rounds(about, scheme, lengths, HEADER_TOO_LONG);
    }
}

/// Some have a known number in their low byte.
fn write_unknown(book: &mut Book) {
    for scheme in [0, 8, 257, u32::MAX] {
        for lengths in [[0, 0], [1, 20], [GREATEST; 2]] {
            book.rounds("", scheme, lengths, UNKNOWN_SCHEME);
        }
    }
}

pub fn write(book: &mut Book) {
    for scheme in numbers() {
        book.section(&format!("Scheme {}: rounds", scheme));
        write_short(book, scheme);
        write_limits(book, scheme);
    }
    book.section("Rounds under no such scheme");
    write_unknown(book);
}
