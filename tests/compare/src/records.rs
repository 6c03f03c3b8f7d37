//! Calls of seal and open with their arguments, and how one is changed into
//! another: for the comparison, the known answers and the benchmark.

use crate::random::Random;
use crate::schemes::Scheme;

/// Seal or open, of any side; some tell rounds and some don't.
pub type Sealing<A> = fn(u32, &[u8], &[u8], &[u8], &[u8], &mut [u8]) -> A;

/// The same with a key that the side has prepared.
pub type SealingPrepared<P, A> = fn(u32, &P, &[u8], &[u8], &[u8], &mut [u8]) -> A;

/// Bytes of room behind an output, where no other room is asked for.
pub const SPARE: usize = 3;

#[derive(Clone, Copy, PartialEq, Eq, Debug)]
pub enum Direction {
    Seal,
    Open,
}

impl Direction {
    pub const BOTH: [Direction; 2] = [Direction::Seal, Direction::Open];

    pub fn name(self) -> &'static str {
        match self {
            Direction::Seal => "seal",
            Direction::Open => "open",
        }
    }

    pub fn find(word: &str) -> Option<Direction> {
        Direction::BOTH.into_iter().find(|one| one.name() == word)
    }

    /// Which of a seal and an open it is.
    pub fn of<F>(self, [seal, open]: [F; 2]) -> F {
        match self {
            Direction::Seal => seal,
            Direction::Open => open,
        }
    }
}

/// The text is a body or a sealed run; of the room only the length is told.
#[derive(Clone)]
pub struct Call {
    pub direction: Direction,
    pub scheme: u32,
    pub key: Vec<u8>,
    pub nonce: Vec<u8>,
    pub header: Vec<u8>,
    pub text: Vec<u8>,
    pub room: usize,
}

pub fn row_of(scheme: u32) -> &'static Scheme {
    Scheme::find(scheme).expect("a scheme of the table")
}

impl Call {
    /// A seal with nothing wrong, under a key and nonce that are drawn.
    pub fn seal(random: &mut Random, scheme: u32, header: &[u8], body: &[u8]) -> Call {
        let call = Call {
            direction: Direction::Seal,
            scheme,
            key: random.bytes(16),
            nonce: random.bytes(row_of(scheme).nonce_bytes),
            header: header.to_vec(),
            text: body.to_vec(),
            room: 0,
        };
        call.roomy(SPARE)
    }

    /// The same with header and body drawn, of these lengths.
    pub fn drawn(random: &mut Random, scheme: u32, header: usize, body: usize) -> Call {
        let (header, body) = (random.bytes(header), random.bytes(body));
        Call::seal(random, scheme, &header, &body)
    }

    /// The open of a run under the same key, nonce and header.
    pub fn opening(&self, run: &[u8]) -> Call {
        let call = Call {
            direction: Direction::Open,
            text: run.to_vec(),
            ..self.clone()
        };
        call.roomy(SPARE)
    }

    /// The same with one part changed.
    pub fn with(&self, change: impl FnOnce(&mut Call)) -> Call {
        let mut call = self.clone();
        change(&mut call);
        call
    }

    /// Made by one side's seal or open, in the front of a room.
    pub fn make<A>(&self, calls: [Sealing<A>; 2], room: &mut [u8]) -> A {
        let function = self.direction.of(calls);
        let (key, nonce, header) = (&self.key, &self.nonce, &self.header);
        let room = &mut room[..self.room];
        function(self.scheme, key, nonce, header, &self.text, room)
    }

    /// The same with a prepared key in place of the key.
    pub fn make_prepared<P, A>(
        &self,
        calls: [SealingPrepared<P, A>; 2],
        prepared: &P,
        room: &mut [u8],
    ) -> A {
        let function = self.direction.of(calls);
        let (nonce, header) = (&self.nonce, &self.header);
        let room = &mut room[..self.room];
        function(self.scheme, prepared, nonce, header, &self.text, room)
    }

    /// The cipher for which the key is to be prepared; of an unknown scheme any,
    /// since that is told first.
    pub fn cipher(&self) -> u32 {
        Scheme::find(self.scheme).map_or(1, |row| row.cipher)
    }

    /// How long the output would be.
    pub fn exact_room(&self) -> usize {
        self.room_under(row_of(self.scheme))
    }

    /// The same under a scheme that the call need not name.
    pub fn room_under(&self, row: &Scheme) -> usize {
        match self.direction {
            Direction::Seal => self.text.len() + row.block_bytes,
            Direction::Open => self.text.len().saturating_sub(row.block_bytes),
        }
    }

    /// The same with so many bytes of room behind the output.
    pub fn roomy(&self, spare: usize) -> Call {
        self.with(|call| call.room = call.exact_room() + spare)
    }
}
