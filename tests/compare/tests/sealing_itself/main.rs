//! Seal, open and view of the second program, against themselves and against
//! documents 01, 000 and 001; their rounds, against C-13; prepared keys, those of
//! the block calls too, against C-16; and what a changed block moves, against C-23.

mod changes;
mod damage;
mod facts;
mod figure_9;
mod figures;
mod not_said;
mod prepared;
mod refusals;
mod round_trips;
mod rounds;
mod siblings;

use compare::random::Random;
use compare::schemes::{Mode, Scheme};
use compare::sealing::{open, seal, Answer, DONE};

const SCHEMES: [u32; 7] = [1, 2, 3, 4, 5, 6, 7];

/// Those of C-14: Umbreon and Jolteon over one cipher, and over the other.
const SIBLINGS: [[u32; 2]; 2] = [[4, 5], [6, 7]];

/// The longest header and the longest body of each scheme (document 01; C-12 for
/// scheme 3, C-14 from 4 on).
const LIMITS: [(u32, usize, usize); 7] = [
    (1, 65_528, 65_528),
    (2, 131_056, 131_056),
    (3, 1_048_576, 1_048_576),
    (4, 131_040, 262_136),
    (5, 131_040, 262_136),
    (6, 262_080, 524_272),
    (7, 262_080, 524_272),
];

/// Bytes of room behind the longest output, to see that they stay.
const SPARE: usize = 5;

/// What both directions share: a scheme with a key, a nonce and a header.
#[derive(Clone)]
struct Case {
    scheme: u32,
    key: Vec<u8>,
    nonce: Vec<u8>,
    header: Vec<u8>,
}

fn row_of(scheme: u32) -> &'static Scheme {
    Scheme::find(scheme).expect("a scheme of the table")
}

fn size_of(scheme: u32) -> usize {
    row_of(scheme).block_bytes
}

/// C-13's formula of the lengths alone: the header's blocks give one half each
/// and the body's both, but for Jolteon's before the last. Where PAEF or SAEF
/// seals nothing, one block is worked.
fn rounds_of(scheme: u32, header_length: usize, body_length: usize) -> u32 {
    let row = row_of(scheme);
    let (one_half, both) = if row.cipher == 1 { (40, 63) } else { (48, 75) };
    let blocks_of = |length: usize| ((length + row.block_bytes - 1) / row.block_bytes) as u32;
    let (header, body) = (blocks_of(header_length), blocks_of(body_length));
    match row.mode {
        Mode::Paef | Mode::Saef if header + body == 0 => one_half,
        Mode::Jolteon if body > 0 => (header + body - 1) * one_half + both,
        _ => header * one_half + body * both,
    }
}

/// What is told with every refusal but 6.
fn refused(number: u32) -> Answer {
    Answer {
        number,
        length: 0,
        rounds: 0,
    }
}

/// What a room holds before a call: no byte is zero.
fn unused_room(length: usize) -> Vec<u8> {
    (0..length).map(|place| (place % 251) as u8 + 1).collect()
}

impl Case {
    fn random(random: &mut Random, scheme: u32, header_length: usize) -> Case {
        Case {
            scheme,
            key: random.bytes(16),
            nonce: random.bytes(row_of(scheme).nonce_bytes),
            header: random.bytes(header_length),
        }
    }

    /// The same under another header.
    fn under(&self, header: &[u8]) -> Case {
        Case {
            header: header.to_vec(),
            ..self.clone()
        }
    }

    fn seal_into(&self, body: &[u8], room: &mut [u8]) -> Answer {
        seal(
            self.scheme,
            &self.key,
            &self.nonce,
            &self.header,
            body,
            room,
        )
    }

    fn open_into(&self, run: &[u8], room: &mut [u8]) -> Answer {
        open(self.scheme, &self.key, &self.nonce, &self.header, run, room)
    }

    /// Whether a body of this length is sealed under the header: from scheme 4
    /// on not where both are empty.
    fn takes(&self, body_length: usize) -> bool {
        self.scheme < 4 || self.header.len() + body_length > 0
    }

    /// By the formula.
    fn rounds(&self, body_length: usize) -> u32 {
        rounds_of(self.scheme, self.header.len(), body_length)
    }

    /// A seal that is done, in a room with bytes to spare.
    fn sealed(&self, body: &[u8]) -> Vec<u8> {
        let length = body.len() + size_of(self.scheme);
        let mut room = unused_room(length + SPARE);
        let answer = self.seal_into(body, &mut room);
        let expected = Answer {
            number: DONE,
            length,
            rounds: self.rounds(body.len()),
        };
        assert_eq!(answer, expected);
        assert_eq!(room[length..], unused_room(length + SPARE)[length..]);
        room.truncate(length);
        room
    }

    /// An open of a run of at least one block, in a room with bytes to spare;
    /// gives the number and the part of the room that a body would take. The
    /// rounds are the same with 0 and with 6.
    fn opened(&self, run: &[u8]) -> (u32, Vec<u8>) {
        let length = run.len() - size_of(self.scheme);
        let mut room = unused_room(length + SPARE);
        let answer = self.open_into(run, &mut room);
        let expected_length = if answer.number == DONE { length } else { 0 };
        assert_eq!(answer.length, expected_length);
        assert_eq!(answer.rounds, self.rounds(length));
        assert_eq!(room[length..], unused_room(length + SPARE)[length..]);
        room.truncate(length);
        (answer.number, room)
    }

    /// An open that is refused with 6, and the zeros it leaves.
    fn assert_not_authentic(&self, run: &[u8]) {
        let zeros = vec![0; run.len() - size_of(self.scheme)];
        assert_eq!(self.opened(run), (compare::sealing::NOT_AUTHENTIC, zeros));
    }
}
