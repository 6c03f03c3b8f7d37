//! Headers that pad to the same block and are not the same header.

use crate::book::Book;
use compare::random::Random;
use compare::records::{row_of, Call};
use compare::schemes::numbers;
use compare::sealing::{DONE, NOT_AUTHENTIC};

const LIMITS: &[u8; 16] = b"limits 2026    \x80";
const BODY: [u8; 4] = [36, 40, 44, 30];

/// Sealed under each of two headers, and opened under both.
fn write_crossed(book: &mut Book, call: &Call, headers: [(&str, &[u8]); 2]) {
    for (place, (name, header)) in headers.iter().enumerate() {
        let (other_name, other) = headers[1 - place];
        let sealed = call.with(|call| call.header = header.to_vec());
        let run = book.sealing(&format!("Under {}.", name), &sealed, DONE);
        let opening = sealed.opening(&run);
        book.sealing("Opened under the same.", &opening, DONE);
        let crossed = opening.with(|call| call.header = other.to_vec());
        let about = format!("Opened under {}.", other_name);
        book.sealing(&about, &crossed, NOT_AUTHENTIC);
    }
}

pub fn write(book: &mut Book) {
    let mut random = Random::new(3);
    book.section("The desk's accident: fifteen bytes and the same with 80 behind them pad alike");
    for scheme in numbers() {
        let call = Call::seal(&mut random, scheme, &[], &BODY);
        let headers: [(&str, &[u8]); 2] = [
            ("sixteen bytes that end in 80", LIMITS),
            ("the first fifteen of them", &LIMITS[..15]),
        ];
        write_crossed(book, &call, headers);
    }
    book.section("No header and a header of 80 and zeros, which pad alike");
    for scheme in numbers() {
        let row = row_of(scheme);
        let body = if row.seals_nothing() { &[][..] } else { &BODY };
        let call = Call::seal(&mut random, scheme, &[], body);
        let mut full = vec![0; row.block_bytes];
        full[0] = 0x80;
        let headers: [(&str, &[u8]); 2] = [("no header", &[]), ("a block of 80 and zeros", &full)];
        write_crossed(book, &call, headers);
    }
}
