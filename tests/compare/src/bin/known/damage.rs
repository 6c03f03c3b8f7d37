//! Opens of what was not sealed so: a part of the call changed, and runs whose
//! tag is right and whose padding is not.

use crate::book::Book;
use compare::blocks::pad10;
use compare::forged::{forged_run, LastBlock};
use compare::random::Random;
use compare::records::{row_of, Call};
use compare::schemes::{numbers, Keyed, Mode, Scheme};
use compare::sealing::{DONE, NOT_AUTHENTIC};

/// What is done to the open of a good run; where the tag begins is told.
type Change = fn(&mut Call, usize);

const CHANGES: [(&str, Change); 12] = [
    ("The run's first bit.", |call, _| call.text[0] ^= 0x80),
    ("The last bit before the tag.", |call, tag| {
        call.text[tag - 1] ^= 1
    }),
    ("The first bit of the tag.", |call, tag| {
        call.text[tag] ^= 0x80
    }),
    ("The last bit of the tag.", |call, _| {
        *call.text.last_mut().unwrap() ^= 1
    }),
    ("Two blocks changed over.", |call, _| {
        let block = row_of(call.scheme).block_bytes;
        call.text[..2 * block].rotate_left(block)
    }),
    ("The last byte cut off.", |call, _| {
        call.text.pop();
    }),
    ("A byte of zero put behind.", |call, _| call.text.push(0)),
    ("The key's first bit.", |call, _| call.key[0] ^= 0x80),
    ("The key's last bit.", |call, _| call.key[15] ^= 1),
    ("The nonce's last bit.", |call, _| {
        *call.nonce.last_mut().unwrap() ^= 1
    }),
    ("The header's last bit.", |call, _| {
        *call.header.last_mut().unwrap() ^= 1
    }),
    ("The header's last byte cut off.", |call, _| {
        call.header.pop();
    }),
];

/// Bytes of the tag behind a body's last block of so many.
fn tag_bytes(row: &Scheme, last: usize) -> usize {
    match row.mode {
        Mode::Paef | Mode::Saef => last,
        Mode::Umbreon | Mode::Jolteon => row.block_bytes,
    }
}

/// A body of a whole block and five bytes.
fn write_changed(book: &mut Book, random: &mut Random, scheme: u32) {
    let row = row_of(scheme);
    let call = Call::drawn(random, scheme, row.block_bytes + 2, row.block_bytes + 5);
    let run = book.sealing("A good run.", &call, DONE);
    let tag = run.len() - tag_bytes(row, 5);
    for (about, change) in CHANGES {
        let changed = call.opening(&run).with(|call| change(call, tag));
        book.sealing(about, &changed, NOT_AUTHENTIC);
    }
}

/// The shortest last block and the longest, each with the tag's last bit changed.
fn write_tags(book: &mut Book, random: &mut Random, scheme: u32) {
    let row = row_of(scheme);
    for (body, last) in [(1, 1), (2 * row.block_bytes, row.block_bytes)] {
        let about = format!("A tag's length is {}.", tag_bytes(row, last));
        let call = Call::drawn(random, scheme, 0, body);
        let run = book.sealing(&about, &call, DONE);
        let last = run.len() - 1;
        let changed = call.opening(&run).with(|call| call.text[last] ^= 1);
        book.sealing("Its last bit changed.", &changed, NOT_AUTHENTIC);
    }
}

/// The run of an empty body, which is a block: 6 clears no byte.
fn write_empty(book: &mut Book, random: &mut Random, scheme: u32) {
    let call = Call::drawn(random, scheme, 3, 0);
    let run = book.sealing("The run of an empty body.", &call, DONE);
    let changed = call.opening(&run).with(|call| call.text[0] ^= 1);
    book.sealing("Its first byte changed.", &changed, NOT_AUTHENTIC);
    let last = run.len() - 1;
    let changed = call.opening(&run).with(|call| call.text[last] ^= 0x80);
    book.sealing("Its last byte changed.", &changed, NOT_AUTHENTIC);
}

/// Runs that no sealing makes, and as a measure one with the right padding,
/// which is what sealing makes of the three bytes.
fn write_forged(book: &mut Book, random: &mut Random, scheme: u32) {
    let row = row_of(scheme);
    let body = random.bytes(3);
    let call = Call::drawn(random, scheme, 6, 0).with(|call| call.text = body.clone());
    let mut keyed = Keyed::new(row, call.key[..].try_into().unwrap(), &call.nonce);
    let paddings: [(&str, usize, u8, u32); 5] = [
        ("The right padding.", 3, 0x80, DONE),
        ("Zeros for the padding.", 3, 0x00, NOT_AUTHENTIC),
        ("Padding of 81.", 3, 0x81, NOT_AUTHENTIC),
        ("Padding of c0.", 3, 0xc0, NOT_AUTHENTIC),
        (
            "80, zeros and a last byte of 01.",
            row.block_bytes - 1,
            0x01,
            NOT_AUTHENTIC,
        ),
    ];
    for (about, place, byte, number) in paddings {
        let mut block = pad10(&body, row.block_bytes);
        block[place] = byte;
        let last = LastBlock {
            block,
            body_bytes: body.len(),
        };
        let run = forged_run(&mut keyed, &call.header, &[], &last);
        book.sealing(about, &call.opening(&run), number);
    }
}

pub fn write(book: &mut Book) {
    let mut random = Random::new(6);
    for scheme in numbers() {
        book.section(&format!("Scheme {}: opens with one thing changed", scheme));
        write_changed(book, &mut random, scheme);
        write_tags(book, &mut random, scheme);
        write_empty(book, &mut random, scheme);
        book.section(&format!(
            "Scheme {}: three bytes of body, the right tag, and the padding changed",
            scheme
        ));
        write_forged(book, &mut random, scheme);
    }
}
