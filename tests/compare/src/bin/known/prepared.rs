//! Keys prepared once: what preparing answers, and calls with a prepared key.

use crate::book::{BlockCall, Book};
use compare::calls::{DONE, NOT_ADMITTED, REFUSED};
use compare::random::Random;
use compare::records::{row_of, Call};
use compare::schemes::numbers;
use compare::sealing::{NOT_AUTHENTIC, SHORT_ROOM, WRONG_NONCE_LENGTH};

const CIPHERS: [u32; 2] = [1, 2];

/// Of two ciphers the other one.
fn other_than(cipher: u32) -> u32 {
    3 - cipher
}

/// One of the unknown ciphers has a known number in its low byte.
fn write_preparing(book: &mut Book, random: &mut Random) {
    let key = random.bytes(17);
    for cipher in CIPHERS {
        book.prepare("", cipher, &key[..16], DONE);
        for length in [0, 15, 17] {
            book.prepare("", cipher, &key[..length], NOT_ADMITTED);
        }
    }
    for cipher in [0, 3, 257] {
        book.prepare("", cipher, &key[..16], REFUSED);
        book.prepare("", cipher, &key[..15], REFUSED);
    }
}

/// What makes a call's key one that is not admitted: the cipher that it is
/// prepared for, or its length.
fn write_not_admitted(book: &mut Book, call: &Call) {
    let cipher = call.cipher();
    let short = call.with(|call| call.key.truncate(15));
    let about = "Prepared for the other cipher.";
    book.sealing_prepared(about, call, other_than(cipher), NOT_ADMITTED);
    let about = "Prepared for no cipher.";
    book.sealing_prepared(about, call, 0, NOT_ADMITTED);
    let about = "A key of 15 bytes.";
    book.sealing_prepared(about, &short, cipher, NOT_ADMITTED);
    let about = "The same, and no such scheme.";
    let unknown = short.with(|call| call.scheme = 8);
    book.sealing_prepared(about, &unknown, cipher, REFUSED);
    let about = "The other cipher's, and a nonce a byte too long.";
    let longer = call.with(|call| call.nonce.push(0));
    book.sealing_prepared(about, &longer, other_than(cipher), NOT_ADMITTED);
    let about = "The nonce alone.";
    book.sealing_prepared(about, &longer, cipher, WRONG_NONCE_LENGTH);
    let no_room = call.with(|call| call.room = 0);
    book.sealing_prepared("No room.", &no_room, cipher, SHORT_ROOM);
}

fn write_scheme(book: &mut Book, random: &mut Random, scheme: u32) {
    let cipher = row_of(scheme).cipher;
    let call = Call::drawn(random, scheme, 5, 21);
    let by_key = book.sealing("By key..", &call, DONE);
    let run = book.sealing_prepared("..and with the key prepared.", &call, cipher, DONE);
    assert_eq!(run, by_key);
    let opening = call.opening(&run);
    book.sealing_prepared("And open.", &opening, cipher, DONE);
    let changed = opening.with(|call| call.text[0] ^= 1);
    book.sealing_prepared("A bit changed.", &changed, cipher, NOT_AUTHENTIC);
    write_not_admitted(book, &call);
    write_not_admitted(book, &opening);
}

/// Every choice, and choices that there are not.
fn write_blocks(book: &mut Book, call: BlockCall) {
    let halves = book.fork("", &call, DONE);
    for want in 0..2 {
        book.fork("", &BlockCall { want, ..call }, DONE);
    }
    for (from, block) in (0..).zip(halves) {
        for want in 0..3 {
            let back = BlockCall {
                block,
                want,
                ..call
            };
            book.unfork("", &back, from, DONE);
        }
    }
    let other = BlockCall {
        prepared: Some(other_than(call.cipher)),
        ..call
    };
    let unknown = BlockCall { want: 3, ..other };
    let about = "Prepared for the other cipher.";
    book.fork(about, &other, NOT_ADMITTED);
    book.unfork(about, &other, 0, NOT_ADMITTED);
    let about = "The same, and no such choice.";
    book.fork(about, &unknown, REFUSED);
    book.unfork(about, &unknown, 0, REFUSED);
    book.unfork("The same, and no such half.", &other, 2, REFUSED);
}

pub fn write(book: &mut Book) {
    let mut random = Random::new(8);
    book.section("Keys prepared");
    write_preparing(book, &mut random);
    for scheme in numbers() {
        book.section(&format!("Scheme {}: a prepared key", scheme));
        write_scheme(book, &mut random, scheme);
    }
    for cipher in CIPHERS {
        book.section(&format!("Cipher {}: a prepared key", cipher));
        let call = BlockCall {
            cipher,
            prepared: Some(cipher),
            key: random.block(),
            tweak: random.block(),
            block: random.block(),
            want: 2,
        };
        write_blocks(book, call);
    }
}
