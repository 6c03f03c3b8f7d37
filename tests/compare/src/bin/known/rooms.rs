//! Rooms that are exact, one byte short, empty and larger than is needed.

use crate::book::Book;
use compare::random::Random;
use compare::records::Call;
use compare::schemes::numbers;
use compare::sealing::{DONE, NOT_AUTHENTIC, SHORT_ROOM};

/// Larger than any block, so that a rest that is touched is seen.
const LARGE: usize = 40;

fn write_rooms(book: &mut Book, call: &Call, number: u32) {
    let exact = call.exact_room();
    book.sealing("An exact room.", &call.roomy(0), number);
    book.sealing("A larger room.", &call.roomy(LARGE), number);
    if exact > 0 {
        let short = call.with(|call| call.room = exact - 1);
        book.sealing("A room one byte short.", &short, SHORT_ROOM);
        let none = call.with(|call| call.room = 0);
        book.sealing("No room.", &none, SHORT_ROOM);
    }
}

pub fn write(book: &mut Book) {
    let mut random = Random::new(4);
    for scheme in numbers() {
        for body in [0, 21] {
            book.section(&format!("Scheme {}: rooms, body of {} bytes", scheme, body));
            let call = Call::drawn(&mut random, scheme, 5, body);
            write_rooms(book, &call, DONE);
            let run = book.sealing("The run of the next records.", &call, DONE);
            let opening = call.opening(&run);
            write_rooms(book, &opening, DONE);
            let damaged = opening.with(|call| call.text[0] ^= 1);
            book.sealing(
                "A bit changed, an exact room.",
                &damaged.roomy(0),
                NOT_AUTHENTIC,
            );
            book.sealing(
                "A bit changed, a larger room.",
                &damaged.roomy(LARGE),
                NOT_AUTHENTIC,
            );
        }
    }
}
