//! The block calls: every choice forward and back, and what is refused.

use crate::book::{BlockCall, Book};
use crate::side::Block;
use compare::calls::{DONE, REFUSED};
use compare::random::Random;

const CIPHERS: [(u32, &str); 2] = [(1, "ForkSkinny-64-192"), (2, "ForkSkinny-128-256")];

/// Key, tweak and block: rising and falling, all zero, and drawn.
fn inputs(random: &mut Random) -> Vec<[Block; 3]> {
    let mut rising = [[0; 16]; 3];
    for place in 0..16u8 {
        rising[0][usize::from(place)] = place;
        rising[1][usize::from(place)] = place << 4;
        rising[2][usize::from(place)] = 255 - place;
    }
    let mut all = vec![rising, [[0; 16]; 3]];
    for _ in 0..2 {
        all.push([random.block(), random.block(), random.block()]);
    }
    all
}

fn call_of(cipher: u32, [key, tweak, block]: [Block; 3], want: u32) -> BlockCall {
    BlockCall {
        cipher,
        prepared: None,
        key,
        tweak,
        block,
        want,
    }
}

/// A block forward with every choice, and back from each half with every
/// choice.
fn write_choices(book: &mut Book, cipher: u32, inputs: [Block; 3]) {
    let both = call_of(cipher, inputs, 2);
    let halves = book.fork("", &both, DONE);
    for want in 0..2 {
        book.fork("", &BlockCall { want, ..both }, DONE);
    }
    for (from, block) in (0..).zip(halves) {
        for want in 0..3 {
            book.unfork(
                "",
                &BlockCall {
                    block,
                    want,
                    ..both
                },
                from,
                DONE,
            );
        }
    }
}

/// The same as a call before, but for bytes 8 to 15 of tweak and block.
fn write_ignored(book: &mut Book, inputs: [Block; 3]) {
    let mut short = inputs;
    short[1][8..].fill(0);
    short[2][8..].fill(0);
    let call = call_of(1, short, 2);
    book.fork("Bytes 8 to 15 of tweak and block cleared.", &call, DONE);
    for from in 0..2 {
        book.unfork("Back with these bytes cleared..", &call, from, DONE);
        let long = call_of(1, inputs, 2);
        book.unfork("..and with others.", &long, from, DONE);
    }
}

/// Numbers that are none, alone and two at once; some have a known number in
/// their low byte.
fn write_refused(book: &mut Book, inputs: [Block; 3]) {
    let unknown = [
        (0, 2),
        (3, 0),
        (257, 1),
        (u32::MAX, 2),
        (1, 3),
        (2, 256),
        (2, u32::MAX),
        (0, 3),
    ];
    for (cipher, want) in unknown {
        let call = call_of(cipher, inputs, want);
        book.fork("", &call, REFUSED);
        book.unfork("", &call, 0, REFUSED);
    }
    for (cipher, from, want) in [
        (1, 2, 0),
        (2, 256, 1),
        (1, u32::MAX, 2),
        (2, 2, 3),
        (9, 9, 9),
    ] {
        book.unfork("", &call_of(cipher, inputs, want), from, REFUSED);
    }
}

pub fn write(book: &mut Book) {
    let inputs = inputs(&mut Random::new(1));
    for (cipher, name) in CIPHERS {
        book.section(&format!(
            "{}: a block forward, and back from each half",
            name
        ));
        for input in &inputs {
            write_choices(book, cipher, *input);
        }
    }
    book.section("ForkSkinny-64-192: bytes 8 to 15 of tweak and block do not count");
    write_ignored(book, inputs[0]);
    book.section("Block calls that are refused");
    write_refused(book, inputs[0]);
}
