//! One call made by the library, by key and with a prepared key, by the meter and
//! by the second program, and compared.

use compare::records::{row_of, Call, Direction};
use compare::sealing::{Answer, Rounds, DONE, NOT_AUTHENTIC};
use compare::{auraski, meter, prepared, sealing};
use std::collections::BTreeMap;

/// Bytes behind the room that are not lent and must stay.
const GUARD: usize = 16;

/// What all sides answered: the number, and the room's front part of the
/// length told.
pub struct Outcome {
    pub number: u32,
    pub output: Vec<u8>,
}

/// How many calls were compared, by direction and answer number.
#[derive(Default)]
pub struct Tally {
    seals: BTreeMap<u32, usize>,
    opens: BTreeMap<u32, usize>,
}

/// What document 01's table, with C-11 and C-14, says of the room, all but the
/// output itself.
fn fits_the_table(call: &Call, answer: Answer, before: &[u8], after: &[u8]) -> bool {
    let written = match answer.number {
        DONE => answer.length,
        NOT_AUTHENTIC => call.text.len() - row_of(call.scheme).block_bytes,
        _ => 0,
    };
    let is_cleared = || after[..written].iter().all(|byte| *byte == 0);
    before[written..] == after[written..]
        && (answer.number == DONE || answer.length == 0)
        && (answer.number != NOT_AUTHENTIC || is_cleared())
}

/// Whether the rounds are those that the library tells of the lengths: of a call
/// that was judged to its end. All others have run none (C-13).
fn fits_the_lengths(call: &Call, answer: Answer) -> bool {
    if answer.number != DONE && answer.number != NOT_AUTHENTIC {
        return answer.rounds == 0;
    }
    let body = match call.direction {
        Direction::Seal => call.text.len(),
        Direction::Open => call.exact_room(),
    };
    let told = Rounds {
        number: DONE,
        rounds: answer.rounds,
    };
    auraski::rounds(call.scheme, call.header.len(), body) == told
}

/// The bytes of two rooms are the same.
fn assert_same(ours: &[u8], second: &[u8], call: &Call) {
    if let Some(place) = (0..second.len()).find(|place| ours[*place] != second[*place]) {
        panic!("byte {} of the room: {}", place, description(call));
    }
}

/// With the key prepared, the library answers as by key and leaves the same room
/// (C-16). A key that can't be prepared is refused as by its length.
fn compare_prepared(call: &Call, answer: Answer, before: &[u8], second: &[u8]) {
    let (number, key) = auraski::prepare(call.cipher(), &call.key);
    assert_eq!(number, prepared::prepare(call.cipher(), &call.key).0);
    let mut ours = before.to_vec();
    let calls = [auraski::seal_prepared, auraski::open_prepared];
    let told = call.make_prepared(calls, &key, &mut ours);
    assert_eq!(told, answer.told(), "prepared: {}", description(call));
    assert_same(&ours, second, call);
}

fn description(call: &Call) -> String {
    format!(
        "{:?} under scheme {}: key of {} bytes, nonce {}, header {}, text {}, room {}",
        call.direction,
        call.scheme,
        call.key.len(),
        call.nonce.len(),
        call.header.len(),
        call.text.len(),
        call.room
    )
}

impl Tally {
    /// What a room and its guard hold before a call: no zero, and not the
    /// same from call to call.
    fn filling(&self, length: usize) -> Vec<u8> {
        let start = self.seals() + self.opens();
        let bytes = (start..start + length).map(|place| (place % 251) as u8 + 1);
        bytes.collect()
    }

    /// Makes the call on all sides and asserts that nothing differs.
    pub fn compare(&mut self, call: &Call) -> Outcome {
        let before = self.filling(call.room + GUARD);
        let [mut ours, mut metered, mut second] = [(); 3].map(|_| before.clone());
        let told = call.make([auraski::seal, auraski::open], &mut ours);
        let counted = call.make([meter::seal, meter::open], &mut metered);
        let answer = call.make([sealing::seal, sealing::open], &mut second);
        assert_eq!(told, answer.told(), "{}", description(call));
        assert_eq!(counted, answer, "{}", description(call));
        assert_same(&ours, &second, call);
        assert_same(&metered, &second, call);
        compare_prepared(call, answer, &before, &second);
        let fits = fits_the_table(call, answer, &before, &ours) && fits_the_lengths(call, answer);
        assert!(fits, "{}", description(call));
        self.count(call.direction, answer.number);
        let output = sealing::view(answer.number, answer.length, &ours).to_vec();
        Outcome {
            number: answer.number,
            output,
        }
    }

    /// Compares, and asserts the number besides; gives the output.
    pub fn expect(&mut self, call: &Call, number: u32) -> Vec<u8> {
        let outcome = self.compare(call);
        assert_eq!(outcome.number, number, "{}", description(call));
        outcome.output
    }

    fn count(&mut self, direction: Direction, number: u32) {
        let counts = direction.of([&mut self.seals, &mut self.opens]);
        *counts.entry(number).or_insert(0) += 1;
    }

    pub fn seals(&self) -> usize {
        self.seals.values().sum()
    }

    pub fn opens(&self) -> usize {
        self.opens.values().sum()
    }

    pub fn print(&self, what: &str) {
        println!(
            "{}: {} seals and {} opens agree; by number, {:?} and {:?}",
            what,
            self.seals(),
            self.opens(),
            self.seals,
            self.opens
        );
    }
}
