//! Rooms of every length from none to some bytes more than the output.

use crate::both::Tally;
use crate::SCHEMES;
use compare::random::Random;
use compare::records::{row_of, Call, SPARE};
use compare::sealing::{DONE, NOT_AUTHENTIC, SHORT_ROOM};

/// Compares the call with every such room; `enough` is the answer to an exact
/// or longer one.
fn compare_rooms(tally: &mut Tally, call: &Call, output: usize, enough: u32) {
    for room in 0..=output + SPARE {
        let number = if room < output { SHORT_ROOM } else { enough };
        let call = Call {
            room,
            ..call.clone()
        };
        tally.expect(&call, number);
    }
}

#[test]
fn rooms_agree() {
    let mut random = Random::new(101);
    let mut tally = Tally::default();
    for scheme in SCHEMES {
        let size = row_of(scheme).block_bytes;
        for body in [0, 1, size - 1, size, size + 1, 2 * size, 3 * size + 1] {
            let call = Call::drawn(&mut random, scheme, 20, body);
            let run = tally.expect(&call, DONE);
            compare_rooms(&mut tally, &call, run.len(), DONE);
            let mut opening = call.opening(&run);
            compare_rooms(&mut tally, &opening, body, DONE);
            opening.text[0] ^= 1;
            compare_rooms(&mut tally, &opening, body, NOT_AUTHENTIC);
        }
    }
    tally.print("rooms");
}

/// A room much longer than the output stays as it was behind it.
#[test]
fn long_rooms_agree() {
    let mut random = Random::new(102);
    let mut tally = Tally::default();
    for scheme in SCHEMES {
        let mut call = Call::drawn(&mut random, scheme, 20, 33);
        call.room = 5000;
        let run = tally.expect(&call, DONE);
        let mut opening = call.opening(&run);
        opening.room = 5000;
        tally.expect(&opening, DONE);
        opening.text[40] ^= 1;
        tally.expect(&opening, NOT_AUTHENTIC);
    }
    tally.print("long rooms");
}
