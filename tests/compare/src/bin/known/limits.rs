//! Both sides of the limits of header and body.

use crate::book::Book;
use compare::random::Random;
use compare::records::{row_of, Call};
use compare::schemes::{numbers, Mode, Scheme};
use compare::sealing::{BODY_TOO_LONG, DONE, HEADER_TOO_LONG, NOT_AUTHENTIC, NO_BLOCK};

const FILLING: u8 = 0x61;

/// Lengths of header and body where the header is at its limit. A record of a
/// limit takes long from scheme 3 on: there is one of the header and one of the
/// body, each with a block of the other; so SAEF's has more blocks than sixteen
/// bits count.
fn long_headers(row: &Scheme) -> Vec<(usize, usize)> {
    let limit = row.most_header_bytes();
    match row.mode {
        Mode::Paef => vec![(limit, 5), (limit - 1, 0)],
        _ => vec![(limit, 5)],
    }
}

/// The same where the body is at its limit.
fn long_bodies(row: &Scheme) -> Vec<(usize, usize)> {
    let limit = row.most_body_bytes();
    match row.mode {
        Mode::Paef => vec![(0, limit), (limit, limit), (3, limit - 1)],
        _ => vec![(3, limit)],
    }
}

fn write_headers(book: &mut Book, random: &mut Random, scheme: u32) {
    let row = row_of(scheme);
    let limit = row.most_header_bytes();
    for (header, body) in long_headers(row) {
        let call = Call::seal(random, scheme, &vec![FILLING; header], &vec![FILLING; body]);
        let about = format!("Header of {} bytes.", header);
        let run = book.sealing(&about, &call, DONE);
        book.sealing("And open.", &call.opening(&run), DONE);
        let longer = call.with(|call| call.header = vec![FILLING; limit + 1]);
        book.sealing("The header one byte too long.", &longer, HEADER_TOO_LONG);
        book.sealing("And open.", &longer.opening(&run), HEADER_TOO_LONG);
    }
}

fn write_bodies(book: &mut Book, random: &mut Random, scheme: u32) {
    let row = row_of(scheme);
    let limit = row.most_body_bytes();
    for (header, body) in long_bodies(row) {
        let call = Call::seal(random, scheme, &vec![FILLING; header], &vec![FILLING; body]);
        let about = format!("Header of {} bytes, body of {}.", header, body);
        let run = book.sealing(&about, &call, DONE);
        book.sealing("And open.", &call.opening(&run), DONE);
    }
    let call = Call::seal(random, scheme, &[FILLING; 3], &vec![FILLING; limit + 1]);
    book.sealing("The body one byte too long.", &call, BODY_TOO_LONG);
    let longest = call.opening(&vec![FILLING; limit + row.block_bytes]);
    let about = "The longest run that is judged; no body seals to it.";
    book.sealing(about, &longest, NOT_AUTHENTIC);
    let longer = call.opening(&vec![FILLING; limit + row.block_bytes + 1]);
    book.sealing("A run one byte longer.", &longer, BODY_TOO_LONG);
}

/// A run shorter than a block has no body that could be too long.
fn write_short_runs(book: &mut Book, random: &mut Random, scheme: u32) {
    let row = row_of(scheme);
    let header = vec![FILLING; row.most_header_bytes()];
    let call = Call::seal(random, scheme, &header, &[]);
    book.sealing("A run of no byte.", &call.opening(&[]), NO_BLOCK);
    let short = call.opening(&vec![FILLING; row.block_bytes - 1]);
    book.sealing("A run one byte shorter than a block.", &short, NO_BLOCK);
    let longer = short.with(|call| call.header.push(FILLING));
    let about = "The same, and the header too long.";
    book.sealing(about, &longer, HEADER_TOO_LONG);
    let block = call.opening(&vec![FILLING; row.block_bytes]);
    let about = "A run of a block is judged, as that of an empty body.";
    book.sealing(about, &block, NOT_AUTHENTIC);
}

pub fn write(book: &mut Book) {
    let mut random = Random::new(7);
    for scheme in numbers() {
        let row = row_of(scheme);
        let (header, body) = (row.most_header_bytes(), row.most_body_bytes());
        book.section(&format!(
            "Scheme {}: both sides of {} bytes of header and {} of body",
            scheme, header, body
        ));
        write_headers(book, &mut random, scheme);
        write_bodies(book, &mut random, scheme);
        write_short_runs(book, &mut random, scheme);
    }
}
