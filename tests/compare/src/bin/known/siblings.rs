//! Umbreon and Jolteon over one cipher: a body of at most a block is sealed to the
//! same run by both, and a longer one is not.

use crate::book::Book;
use compare::random::Random;
use compare::records::{row_of, Call};
use compare::sealing::{DONE, NOT_AUTHENTIC};

const SIBLINGS: [[u32; 2]; 2] = [[4, 5], [6, 7]];

/// A body sealed under one scheme and opened under the other.
fn write_crossed(book: &mut Book, call: &Call, other: u32, number: u32) {
    let about = format!("A body of {} bytes.", call.text.len());
    let run = book.sealing(&about, call, DONE);
    let crossed = call.opening(&run).with(|call| call.scheme = other);
    let about = format!("Opened under scheme {}.", other);
    book.sealing(&about, &crossed, number);
}

pub fn write(book: &mut Book) {
    let mut random = Random::new(10);
    for schemes in SIBLINGS {
        let [umbreon, jolteon] = schemes;
        book.section(&format!(
            "Schemes {} and {}: one opened under the other",
            umbreon, jolteon
        ));
        let block = row_of(umbreon).block_bytes;
        for (body, number) in [
            (0, DONE),
            (1, DONE),
            (block, DONE),
            (block + 1, NOT_AUTHENTIC),
            (2 * block, NOT_AUTHENTIC),
        ] {
            let call = Call::drawn(&mut random, umbreon, 5, body);
            write_crossed(book, &call, jolteon, number);
            let call = call.with(|call| call.scheme = jolteon);
            write_crossed(book, &call, umbreon, number);
        }
    }
}
