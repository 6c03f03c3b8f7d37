//! That all sides answer alike, on random calls of every kind, and ours with a
//! prepared key as by key; nothing is timed before.

use crate::block_calls::{answer, answer_prepared, Block, Kind};
use crate::rival;
use crate::sealing_calls::{call_of, prepared_call_of};
use crate::side::Side;
use compare::entries::Told;
use compare::random::Random;
use compare::records::Direction;
use compare::schemes::{Scheme, SCHEMES};
use compare::sealing::{numbers, Rounds};
use compare::{auraski, second};
use std::collections::BTreeMap;

const SEED: u64 = 10;
const BLOCK_CALLS: usize = 20_000;
const RECORDS: usize = 3_000;

/// The longest header and body of a random record.
const MOST: usize = 100;

/// What the room holds before a call.
const BEFORE: u8 = 0xa5;

/// How often each number has been the answer.
type Answered = BTreeMap<u32, usize>;

/// What is the same for a record's calls, and where their answers are counted.
struct Record<'a> {
    scheme: u32,
    key: Vec<u8>,
    nonce: Vec<u8>,
    header: Vec<u8>,
    answered: &'a mut Answered,
}

/// One of the numbers that mean something, or the first on either side that
/// does not.
fn near(random: &mut Random, first: u32, last: u32) -> u32 {
    (first + random.below((last - first + 3) as usize) as u32).wrapping_sub(1)
}

fn check_block_call(random: &mut Random) {
    let kind = Kind {
        cipher: near(random, 1, 2),
        from: [None, Some(near(random, 0, 1))][random.below(2)],
        want: near(random, 0, 2),
    };
    let (key, tweak, block) = (random.block(), random.block(), random.block());
    let answers: [(u32, Block, Block); 3] =
        Side::ALL.map(|side| answer(side, kind, &key, &tweak, &block));
    assert!(
        answers.iter().all(|one| *one == answers[0]),
        "the sides do not agree on a block call: {kind:?} {answers:x?}"
    );
    let (_, prepared) = auraski::prepare(kind.cipher, &key);
    let answer = answer_prepared(kind, &prepared, &tweak, &block);
    assert_eq!(answer, answers[0], "with a prepared key: {kind:?}");
}

fn rounds_of(side: Side, scheme: u32, header: usize, body: usize) -> Rounds {
    match side {
        Side::Ours => auraski::rounds(scheme, header, body),
        Side::Rival => rival::rounds(scheme, header, body),
        Side::Second => second::rounds(scheme, header, body),
    }
}

impl Record<'_> {
    /// Rarely a scheme, key or nonce that is refused, or both key and nonce.
    fn new<'a>(random: &mut Random, answered: &'a mut Answered) -> Record<'a> {
        let last = SCHEMES.len();
        let number = 1 + random.below(last) as u32;
        let nonce = Scheme::find(number).map_or(0, |scheme| scheme.nonce_bytes);
        let odd = random.below(100);
        let (short_key, long_nonce) = (matches!(odd, 1 | 3), matches!(odd, 2 | 3));
        let length = random.below(MOST + 1);
        Record {
            scheme: if odd == 0 {
                near(random, 1, last as u32)
            } else {
                number
            },
            key: random.bytes(if short_key { 15 } else { 16 }),
            nonce: random.bytes(if long_nonce { nonce + 1 } else { nonce }),
            header: random.bytes(length),
            answered,
        }
    }

    /// The room that all sides leave, and the length that they tell.
    fn call(&mut self, direction: Direction, text: &[u8], room_bytes: usize) -> (usize, Vec<u8>) {
        let parts = [&self.key[..], &self.nonce, &self.header, text];
        let [ours, rival, second] = Side::ALL.map(|side| {
            let mut room = vec![BEFORE; room_bytes];
            let [key, nonce, header, text] = parts;
            let answer = call_of(side, direction)(self.scheme, key, nonce, header, text, &mut room);
            (answer, room)
        });
        let prepared = self.call_prepared(direction, text, room_bytes);
        if ours != rival || ours != second || ours != prepared {
            let lengths = parts.map(<[u8]>::len);
            panic!(
                "the sides do not agree: {}, scheme {}, lengths {lengths:?}, room {room_bytes}: {:?}, {:?}, {:?}, prepared {:?}",
                direction.name(), self.scheme, ours.0, rival.0, second.0, prepared.0
            );
        }
        let (Told { number, length }, room) = ours;
        *self.answered.entry(number).or_insert(0) += 1;
        (length, room)
    }

    /// What ours answers with the key prepared, and the room that it leaves.
    fn call_prepared(
        &self,
        direction: Direction,
        text: &[u8],
        room_bytes: usize,
    ) -> (Told, Vec<u8>) {
        let cipher = Scheme::find(self.scheme).map_or(1, |row| row.cipher);
        let (_, prepared) = auraski::prepare(cipher, &self.key);
        let mut room = vec![BEFORE; room_bytes];
        let call = prepared_call_of(direction);
        let (nonce, header) = (&self.nonce, &self.header);
        let answer = call(self.scheme, &prepared, nonce, header, text, &mut room);
        (answer, room)
    }

    /// The rounds of a body of this length under the header.
    fn check_rounds(&self, body: usize) {
        let header = self.header.len();
        let rounds = Side::ALL.map(|side| rounds_of(side, self.scheme, header, body));
        assert!(
            rounds.iter().all(|one| *one == rounds[0]),
            "the sides do not agree on rounds: scheme {}, lengths {header} and {body}: {rounds:?}",
            self.scheme
        );
    }

    /// A body sealed and its run opened: as it is, with one bit changed, cut
    /// short, in too short a room, and under another header.
    fn check(mut self, random: &mut Random, body: &[u8]) {
        let block = Scheme::find(self.scheme).map_or(16, |scheme| scheme.block_bytes);
        let spare = random.below(20);
        self.check_rounds(body.len());
        let (length, room) = self.call(Direction::Seal, body, body.len() + block - 1 + spare);
        let run = &room[..length];
        let exact = length.saturating_sub(block);
        self.call(Direction::Open, run, exact + spare);
        self.call(Direction::Open, run, exact.saturating_sub(1));
        self.call(Direction::Open, &run[..random.below(length + 1)], exact);
        let mut damaged = run.to_vec();
        if let Some(byte) = damaged.get_mut(random.below(length.max(1))) {
            *byte ^= 1 << random.below(8);
        }
        self.call(Direction::Open, &damaged, exact);
        self.header.push(0x80);
        self.call(Direction::Open, run, exact);
    }
}

/// Nothing at all, the longest header and body, and one byte more of each and of
/// both.
fn check_limits(random: &mut Random, answered: &mut Answered) {
    for (scheme, row) in (1..).zip(&SCHEMES) {
        let (header, body) = (row.most_header_bytes(), row.most_body_bytes());
        for (header, body) in [
            (0, 0),
            (header, body),
            (header + 1, body),
            (header, body + 1),
            (header + 1, body + 1),
        ] {
            let mut record = Record {
                scheme,
                key: random.bytes(16),
                nonce: random.bytes(row.nonce_bytes),
                header: random.bytes(header),
                answered,
            };
            let room_bytes = body + row.block_bytes;
            let (_, run) = record.call(Direction::Seal, &random.bytes(body), room_bytes);
            record.call(Direction::Open, &run, body);
            record.check_rounds(body);
        }
    }
}

/// Stops the program where the sides do not agree; else says what was
/// compared.
pub fn check() -> String {
    let mut random = Random::new(SEED);
    let mut answered = Answered::default();
    for _ in 0..BLOCK_CALLS {
        check_block_call(&mut random);
    }
    for _ in 0..RECORDS {
        let length = random.below(MOST + 1);
        let body = random.bytes(length);
        Record::new(&mut random, &mut answered).check(&mut random, &body);
    }
    check_limits(&mut random, &mut answered);
    assert!(
        numbers().all(|number| answered.contains_key(&number)),
        "a number was never the answer: {answered:?}"
    );
    let calls: usize = answered.values().sum();
    format!("ours, rival and second answer alike: {BLOCK_CALLS} block calls, {calls} seals and opens (by number: {answered:?}), and the rounds of their lengths; and ours with prepared keys as by key")
}
