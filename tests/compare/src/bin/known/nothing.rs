//! An empty header over an empty body: some schemes seal it, and the others
//! refuse it with 10.

use crate::book::Book;
use compare::random::Random;
use compare::records::{row_of, Call};
use compare::schemes::numbers;
use compare::sealing::{DONE, NOTHING, NOT_AUTHENTIC, NO_BLOCK, SHORT_ROOM};

/// Sealed to a block, which is the only one that opens.
fn write_sealed(book: &mut Book, call: &Call) {
    let run = book.sealing("", call, DONE);
    book.sealing("And open.", &call.opening(&run), DONE);
    let zeros = vec![0; run.len()];
    book.sealing("Zeros.", &call.opening(&zeros), NOT_AUTHENTIC);
}

/// No block opens, and what is told before 10 is told.
fn write_refused(book: &mut Book, random: &mut Random, call: &Call) {
    let block = row_of(call.scheme).block_bytes;
    book.sealing("", call, NOTHING);
    let about = "The key prepared.";
    book.sealing_prepared(about, call, call.cipher(), NOTHING);
    let short = call.with(|call| call.room = block - 1);
    book.sealing("A room one byte short.", &short, SHORT_ROOM);
    for run in [vec![0; block], random.bytes(block)] {
        let opening = call.opening(&run);
        book.sealing("And open.", &opening, NOTHING);
        let about = "The key prepared.";
        book.sealing_prepared(about, &opening, call.cipher(), NOTHING);
        let no_room = opening.with(|call| call.room = 0);
        book.sealing("No room.", &no_room, NOTHING);
        let shorter = call.opening(&run[1..]);
        book.sealing("A run one byte shorter.", &shorter, NO_BLOCK);
    }
    for (about, header, body) in [
        ("One byte of header.", &[0x80][..], &[][..]),
        ("One byte of body.", &[], &[0x80]),
    ] {
        let call = Call::seal(random, call.scheme, header, body);
        let run = book.sealing(about, &call, DONE);
        book.sealing("And open.", &call.opening(&run), DONE);
    }
}

pub fn write(book: &mut Book) {
    let mut random = Random::new(9);
    for scheme in numbers() {
        book.section(&format!("Scheme {}: header and body both empty", scheme));
        let call = Call::seal(&mut random, scheme, &[], &[]);
        if row_of(scheme).seals_nothing() {
            write_sealed(book, &call);
        } else {
            write_refused(book, &mut random, &call);
        }
    }
}
