//! Every fault by itself and every two at once: which one answers (document
//! 01, "Checks run in this order", with the refusals of C-11 and C-14).

use crate::both::Tally;
use crate::{takes, SCHEMES};
use compare::random::Random;
use compare::records::{row_of, Call, Direction, SPARE};
use compare::schemes::Scheme;
use compare::sealing::{
    first_of, BODY_TOO_LONG, DONE, HEADER_TOO_LONG, NOTHING, NOT_AUTHENTIC, NO_BLOCK, SHORT_ROOM,
    UNKNOWN_SCHEME, WRONG_KEY_LENGTH, WRONG_NONCE_LENGTH,
};

#[derive(Clone, Copy, PartialEq, Debug)]
enum Fault {
    Scheme(u32),
    /// A key of so many bytes.
    Key(usize),
    /// A nonce of so many bytes.
    Nonce(usize),
    LongHeader,
    LongText,
    /// A run of so many bytes.
    ShortRun(usize),
    /// A room so many bytes too short, or empty if that is not enough.
    Room(usize),
    /// No byte of header and none of body.
    Nothing,
    Damage,
}

impl Fault {
    fn number(self) -> u32 {
        match self {
            Fault::Scheme(_) => UNKNOWN_SCHEME,
            Fault::Key(_) => WRONG_KEY_LENGTH,
            Fault::Nonce(_) => WRONG_NONCE_LENGTH,
            Fault::LongHeader => HEADER_TOO_LONG,
            Fault::LongText => BODY_TOO_LONG,
            Fault::ShortRun(_) => NO_BLOCK,
            Fault::Room(_) => SHORT_ROOM,
            Fault::Nothing => NOTHING,
            Fault::Damage => NOT_AUTHENTIC,
        }
    }

    /// Which arguments it changes; two faults of one argument exclude each
    /// other. Damage to a run goes with every other fault.
    fn arguments(self) -> &'static [u32] {
        match self {
            Fault::Scheme(_) => &[0],
            Fault::Key(_) => &[1],
            Fault::Nonce(_) => &[2],
            Fault::LongHeader => &[3],
            Fault::LongText | Fault::ShortRun(_) => &[4],
            Fault::Room(_) => &[5],
            Fault::Nothing => &[3, 4],
            Fault::Damage => &[6],
        }
    }

    /// An open of nothing has room enough in every room.
    fn can_meet(self, other: Fault, direction: Direction) -> bool {
        let room = |fault| matches!(fault, Fault::Room(_));
        let nothing = self == Fault::Nothing || other == Fault::Nothing;
        let enough = direction == Direction::Open && nothing && (room(self) || room(other));
        let arguments = self.arguments();
        !enough && !other.arguments().iter().any(|one| arguments.contains(one))
    }

    /// Puts the fault in; a room is seen to by `faulty`.
    fn apply(self, call: &mut Call, row: &Scheme) {
        match self {
            Fault::Scheme(number) => call.scheme = number,
            Fault::Key(length) => call.key.resize(length, 1),
            Fault::Nonce(length) => call.nonce.resize(length, 1),
            Fault::LongHeader => call.header.resize(row.most_header_bytes() + 1, 1),
            Fault::LongText => call.text.resize(longest_text(call, row) + 1, 1),
            Fault::ShortRun(length) => call.text.truncate(length),
            Fault::Room(_) => (),
            Fault::Nothing => {
                call.header.clear();
                call.text.truncate(shortest_text(call, row));
            }
            Fault::Damage => call.text[0] ^= 1,
        }
    }
}

/// That of an empty body.
fn shortest_text(call: &Call, row: &Scheme) -> usize {
    call.direction.of([0, row.block_bytes])
}

fn longest_text(call: &Call, row: &Scheme) -> usize {
    shortest_text(call, row) + row.most_body_bytes()
}

/// Damage comes first: once a run is too short there is nothing to damage.
fn every_fault(scheme: u32, direction: Direction) -> Vec<Fault> {
    let row = row_of(scheme);
    let mut faults = Vec::new();
    if direction == Direction::Open {
        faults.push(Fault::Damage);
        faults.extend([0, 1, row.block_bytes - 1].map(Fault::ShortRun));
    }
    faults.extend([Fault::LongHeader, Fault::LongText]);
    if !takes(scheme, 0, 0) {
        faults.push(Fault::Nothing);
    }
    faults.extend([0, 8, u32::MAX].map(Fault::Scheme));
    faults.extend([0, 15, 17].map(Fault::Key));
    faults.extend([row.nonce_bytes - 1, row.nonce_bytes + 1].map(Fault::Nonce));
    faults.extend([1, usize::MAX].map(Fault::Room));
    faults
}

/// A good call with some faults put in. The room comes last, since what is
/// enough depends on the rest.
fn faulty(good: &Call, faults: &[Fault]) -> Call {
    let row = row_of(good.scheme);
    let mut call = good.clone();
    for fault in faults {
        fault.apply(&mut call, row);
    }
    let exact = call.room_under(row);
    call.room = exact + SPARE;
    for fault in faults {
        if let Fault::Room(missing) = fault {
            call.room = exact.saturating_sub(*missing);
        }
    }
    call
}

fn compare_faults(tally: &mut Tally, good: &Call, faults: &[Fault]) {
    let numbers: Vec<u32> = faults.iter().map(|fault| fault.number()).collect();
    tally.expect(&faulty(good, faults), first_of(&numbers));
}

fn compare_pairs(tally: &mut Tally, good: &Call) {
    tally.expect(good, DONE);
    let faults = every_fault(good.scheme, good.direction);
    for (place, first) in faults.iter().enumerate() {
        compare_faults(tally, good, &[*first]);
        for second in &faults[place + 1..] {
            if first.can_meet(*second, good.direction) {
                compare_faults(tally, good, &[*first, *second]);
            }
        }
    }
}

#[test]
fn every_pair_of_faults_agrees() {
    let mut random = Random::new(111);
    let mut tally = Tally::default();
    for scheme in SCHEMES {
        for body in [1, 40] {
            let call = Call::drawn(&mut random, scheme, 20, body);
            let run = tally.expect(&call, DONE);
            compare_pairs(&mut tally, &call);
            compare_pairs(&mut tally, &call.opening(&run));
        }
    }
    tally.print("faults");
}

/// Keys and nonces of every other length up to 33 bytes.
#[test]
fn every_wrong_length_agrees() {
    let mut random = Random::new(112);
    let mut tally = Tally::default();
    for scheme in SCHEMES {
        let call = Call::drawn(&mut random, scheme, 20, 40);
        let run = tally.expect(&call, DONE);
        for good in [call.clone(), call.opening(&run)] {
            for length in (0..=33).filter(|length| *length != 16) {
                compare_faults(&mut tally, &good, &[Fault::Key(length)]);
            }
            for length in (0..=33).filter(|length| *length != call.nonce.len()) {
                compare_faults(&mut tally, &good, &[Fault::Nonce(length)]);
            }
        }
    }
    tally.print("lengths of key and nonce");
}

/// Every other scheme up to 300, and numbers that have a scheme's number in
/// their last byte or last two bytes.
#[test]
fn every_unknown_scheme_agrees() {
    let mut random = Random::new(113);
    let mut tally = Tally::default();
    for scheme in SCHEMES {
        let call = Call::drawn(&mut random, scheme, 20, 40);
        let run = tally.expect(&call, DONE);
        for good in [call.clone(), call.opening(&run)] {
            let near = (0..=300).filter(|number| !SCHEMES.contains(number));
            let far = [0x0001_0000, 0x8000_0000, 0xffff_ff00].map(|high| high + scheme);
            for number in near.chain(far) {
                compare_faults(&mut tally, &good, &[Fault::Scheme(number)]);
            }
        }
    }
    tally.print("unknown schemes");
}
