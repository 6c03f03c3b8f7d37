//! Every fault alone, and two at once: the first of the checks that applies
//! answers.

use crate::book::Book;
use compare::random::Random;
use compare::records::{row_of, Call, Direction, SPARE};
use compare::schemes::{numbers, Scheme};
use compare::sealing::{
    first_of, BODY_TOO_LONG, HEADER_TOO_LONG, NOTHING, NOT_AUTHENTIC, NO_BLOCK, SHORT_ROOM,
    UNKNOWN_SCHEME, WRONG_KEY_LENGTH, WRONG_NONCE_LENGTH,
};

const FILLING: u8 = 0x61;

/// A fault by its number, what is said of it and how it comes about. Rooms
/// are seen to last, since what is enough depends on the rest.
#[derive(Clone, Copy)]
struct Fault {
    number: u32,
    about: &'static str,
    make: fn(&mut Call, &Scheme),
}

/// A macro, because a constant function may not speak of `&mut` before Rust
/// 1.83.
macro_rules! fault {
    ($number:expr, $about:expr, $make:expr $(,)?) => {
        Fault {
            number: $number,
            about: $about,
            make: $make,
        }
    };
}

/// Those that are met with others; one of each number.
const MET: [Fault; 6] = [
    fault!(UNKNOWN_SCHEME, "no such scheme", |call, _| call.scheme = 8),
    fault!(WRONG_KEY_LENGTH, "key of 15 bytes", |call, _| {
        call.key.truncate(15)
    }),
    fault!(WRONG_NONCE_LENGTH, "nonce a byte too long", |call, _| {
        call.nonce.push(0)
    }),
    fault!(HEADER_TOO_LONG, "header too long", |call, row| {
        call.header = vec![FILLING; row.most_header_bytes() + 1]
    }),
    fault!(BODY_TOO_LONG, "body too long", |call, row| {
        call.text = vec![FILLING; shortest_text(call, row) + row.most_body_bytes() + 1]
    }),
    fault!(SHORT_ROOM, "no room", |call, _| call.room = 0),
];

/// A further one where an empty header over an empty body is not sealed.
const EMPTY: Fault = fault!(NOTHING, "header and body empty", |call, row| {
    call.text.truncate(shortest_text(call, row));
    call.header.clear();
});

/// Further ones that only an open can have.
const OPENS: [Fault; 2] = [
    fault!(NOT_AUTHENTIC, "a bit changed", |call, _| call.text[0] ^= 1),
    fault!(NO_BLOCK, "run a byte shorter than a block", |call, row| {
        call.text.truncate(row.block_bytes - 1)
    }),
];

/// Further ones that are tried alone.
const ALONE: [Fault; 8] = [
    fault!(UNKNOWN_SCHEME, "scheme 0", |call, _| call.scheme = 0),
    fault!(
        UNKNOWN_SCHEME,
        "a known scheme in the low byte alone",
        |call, _| call.scheme += 256,
    ),
    fault!(UNKNOWN_SCHEME, "the highest number", |call, _| {
        call.scheme = u32::MAX
    }),
    fault!(WRONG_KEY_LENGTH, "no key", |call, _| call.key.clear()),
    fault!(WRONG_KEY_LENGTH, "key of 17 bytes", |call, _| {
        call.key.push(0)
    }),
    fault!(WRONG_NONCE_LENGTH, "no nonce", |call, _| call.nonce.clear()),
    fault!(WRONG_NONCE_LENGTH, "nonce a byte too short", |call, _| {
        call.nonce.pop();
    }),
    fault!(WRONG_KEY_LENGTH, "key and nonce changed over", |call, _| {
        std::mem::swap(&mut call.key, &mut call.nonce)
    }),
];

/// That of an empty body.
fn shortest_text(call: &Call, row: &Scheme) -> usize {
    call.direction.of([0, row.block_bytes])
}

/// The call with faults put in, and room for what it would give.
fn faulty(good: &Call, faults: &[Fault]) -> Call {
    let row = row_of(good.scheme);
    let mut call = good.clone();
    for fault in faults {
        (fault.make)(&mut call, row);
    }
    call.room = call.room_under(row) + SPARE;
    for fault in faults {
        if fault.number == SHORT_ROOM {
            (fault.make)(&mut call, row);
        }
    }
    call
}

fn write_faults(book: &mut Book, good: &Call, faults: &[Fault]) {
    let names: Vec<&str> = faults.iter().map(|fault| fault.about).collect();
    let numbers: Vec<u32> = faults.iter().map(|fault| fault.number).collect();
    let first = first_of(&numbers);
    let about = format!("{}: {}.", first, names.join("; "));
    book.sealing(&about, &faulty(good, faults), first);
}

/// Two that change the same run exclude each other, and what is empty is not too
/// long. An open of an empty body has room enough in every room.
fn can_meet(first: &Fault, second: &Fault, direction: Direction) -> bool {
    let apart = [
        &[BODY_TOO_LONG, NO_BLOCK, NOT_AUTHENTIC][..],
        &[BODY_TOO_LONG, NO_BLOCK, NOTHING],
        &[HEADER_TOO_LONG, NOTHING],
        direction.of([&[], &[SHORT_ROOM, NOTHING]]),
    ];
    let both = |group: &&[u32]| group.contains(&first.number) && group.contains(&second.number);
    !apart.iter().any(both)
}

fn write_all(book: &mut Book, good: &Call) {
    let mut faults = MET.to_vec();
    if !row_of(good.scheme).seals_nothing() {
        faults.push(EMPTY);
    }
    if good.direction == Direction::Open {
        faults.extend(OPENS);
    }
    for fault in faults.iter().chain(&ALONE) {
        write_faults(book, good, &[*fault]);
    }
    for (place, first) in faults.iter().enumerate() {
        for second in &faults[place + 1..] {
            if can_meet(first, second, good.direction) {
                write_faults(book, good, &[*first, *second]);
            }
        }
    }
}

pub fn write(book: &mut Book) {
    let mut random = Random::new(5);
    for scheme in numbers() {
        let call = Call::drawn(&mut random, scheme, 4, 9);
        book.section(&format!("Scheme {}: seals with faults", scheme));
        write_all(book, &call);
        book.section(&format!("Scheme {}: opens with faults", scheme));
        let run = book.sealing("A good run, for the next records.", &call, 0);
        write_all(book, &call.opening(&run));
    }
}
