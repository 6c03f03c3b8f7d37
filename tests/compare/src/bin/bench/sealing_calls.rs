//! What sealing and opening take, under one header.

use crate::rival;
use crate::side::{over_passes, quickest, Costs, Side, Times};
use compare::auraski::{self, opaque, Prepared};
use compare::entries::Told;
use compare::records::{Direction, Sealing, SealingPrepared};
use compare::schemes::{Scheme, SCHEMES};
use compare::second;
use std::iter::once;

/// The header of every call.
pub const HEADER: [u8; 16] = *b"header of a body";

/// The shortest body that is not empty.
pub const SHORTEST: usize = 16;

/// From here on every fourfold is a body too.
const FOURFOLD: usize = 64;

/// One kind of call.
#[derive(Clone, Copy, Debug)]
pub struct Kind {
    pub direction: Direction,
    pub number: u32,
    pub scheme: &'static Scheme,
    pub body: usize,
}

impl Kind {
    /// A body of the greatest length that the scheme takes.
    pub fn is_longest(&self) -> bool {
        self.body == self.scheme.most_body_bytes()
    }

    /// Of a batch: fewer for long bodies, so that batches are short.
    pub fn calls(&self) -> u32 {
        (4096 / self.body.max(1)).clamp(1, 100) as u32
    }
}

/// What was measured of one kind.
pub struct Figure {
    pub kind: Kind,
    pub costs: Costs,
}

pub fn call_of(side: Side, direction: Direction) -> Sealing<Told> {
    match (side, direction) {
        (Side::Ours, Direction::Seal) => auraski::seal,
        (Side::Ours, Direction::Open) => auraski::open,
        (Side::Rival, Direction::Seal) => rival::seal,
        (Side::Rival, Direction::Open) => rival::open,
        (Side::Second, Direction::Seal) => second::seal,
        (Side::Second, Direction::Open) => second::open,
    }
}

/// Ours with a prepared key.
pub fn prepared_call_of(direction: Direction) -> SealingPrepared<Prepared, Told> {
    direction.of([auraski::seal_prepared, auraski::open_prepared])
}

/// What the calls of one kind work on: a body, or its sealed run.
pub struct Work {
    kind: Kind,
    key: [u8; 16],
    nonce: Vec<u8>,
    text: Vec<u8>,
    room: Vec<u8>,
}

impl Work {
    pub fn new(kind: Kind) -> Work {
        let mut work = Work {
            kind,
            key: *b"a key of a batch",
            nonce: vec![7; kind.scheme.nonce_bytes],
            text: (0..kind.body).map(|place| place as u8).collect(),
            room: vec![0; kind.body + kind.scheme.block_bytes],
        };
        if kind.direction == Direction::Open {
            work.call(second::seal);
            work.text = work.room.clone();
        }
        work
    }

    fn call(&mut self, call: Sealing<Told>) -> u32 {
        let answer = call(
            self.kind.number,
            &self.key,
            &self.nonce,
            &HEADER,
            &self.text,
            &mut self.room,
        );
        answer.number
    }

    /// A batch of calls; gives the sum of the answers' numbers, which is 0 if
    /// none was refused. What is called is hidden, so that no call can be left
    /// out, moved or worked out beforehand.
    pub fn run(&mut self, side: Side, count: u32) -> u32 {
        let call = call_of(side, self.kind.direction);
        (0..count).map(|_| self.call(opaque(call))).sum()
    }

    /// The same of ours with the key prepared before the first call.
    pub fn run_prepared(&mut self, count: u32) -> u32 {
        let (_, prepared) = auraski::prepare(self.kind.scheme.cipher, &self.key);
        let call = prepared_call_of(self.kind.direction);
        let Work {
            kind,
            nonce,
            text,
            room,
            ..
        } = self;
        let once = |_| opaque(call)(kind.number, &prepared, nonce, &HEADER, text, room).number;
        (0..count).map(once).sum()
    }
}

/// Times one kind of call, of which all sides leave the same room.
fn measure(kind: Kind) -> Times {
    let mut work = Work::new(kind);
    let rooms = Side::ALL.map(|side| {
        work.room.fill(0);
        (work.run(side, 1), work.room.clone())
    });
    assert!(
        rooms.iter().all(|room| *room == rooms[0]),
        "the sides do not agree: {kind:?}"
    );
    quickest(kind.calls(), |side| work.run(side, kind.calls()))
}

/// Times every kind of call.
pub fn timed() -> Vec<(Kind, Times)> {
    let kinds = kinds();
    let all = over_passes(&kinds, measure);
    kinds.into_iter().zip(all).collect()
}

/// No body, one of sixteen bytes and of two times that, the fourfolds, and the
/// longest that the scheme takes.
fn bodies_of(scheme: &Scheme) -> Vec<usize> {
    let most = scheme.most_body_bytes();
    let fourfolds = (0..).map(|times| FOURFOLD << (2 * times));
    let shorter = fourfolds.take_while(|body| *body < most);
    let first = [0, SHORTEST, 2 * SHORTEST].into_iter();
    first.chain(shorter).chain(once(most)).collect()
}

/// Every kind of call.
pub fn kinds() -> Vec<Kind> {
    let mut kinds = Vec::new();
    for (number, scheme) in (1..).zip(&SCHEMES) {
        for direction in Direction::BOTH {
            kinds.extend(bodies_of(scheme).into_iter().map(|body| Kind {
                direction,
                number,
                scheme,
                body,
            }));
        }
    }
    kinds
}

/// DIRECTION SCHEME BODY, a body that the scheme takes.
pub fn parse_kind(words: &[&str]) -> Option<Kind> {
    let [direction, number, body]: [&str; 3] = words.try_into().ok()?;
    let (number, body) = (number.parse().ok()?, body.parse().ok()?);
    let scheme = Scheme::find(number)?;
    let kind = Kind {
        direction: Direction::find(direction)?,
        number,
        scheme,
        body,
    };
    (body <= scheme.most_body_bytes()).then(|| kind)
}

/// SIDE DIRECTION SCHEME BODY N.
pub fn parse_count(words: &[&str]) -> Option<(Side, Kind, u32)> {
    match words {
        [side, kind @ .., count] => {
            Some((Side::find(side)?, parse_kind(kind)?, count.parse().ok()?))
        }
        _ => None,
    }
}

/// DIRECTION SCHEME BODY OURS RIVAL SECOND: what was counted of one kind.
pub fn parse_figure(words: &[&str]) -> Option<Figure> {
    let (kind, costs) = match words {
        [kind @ .., ours, rival, second] => (parse_kind(kind)?, [ours, rival, second]),
        _ => return None,
    };
    let [ours, rival, second] = costs.map(|cost| cost.parse().ok());
    Some(Figure {
        kind,
        costs: Costs::new([ours?, rival?, second?]),
    })
}
