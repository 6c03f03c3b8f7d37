//! Random calls, most of them good or nearly so.

use crate::both::Tally;
use crate::{SCHEMES, SIBLINGS};
use compare::random::Random;
use compare::records::{row_of, Call};
use compare::sealing::DONE;

const TIMES_EACH: usize = 400;
const LONGEST: usize = 600;

/// What was sealed, or that with one thing changed.
fn nearly_good_opening(random: &mut Random, call: &Call, run: &[u8]) -> Call {
    let mut opening = call.opening(run);
    match random.below(6) {
        0 => {
            let place = random.below(run.len());
            opening.text[place] ^= 1 << random.below(8);
        }
        1 => opening.text.truncate(random.below(run.len())),
        2 => opening.room = random.below(run.len() + 1),
        3 => {
            opening.header.push(0x80);
        }
        _ => (),
    }
    opening
}

#[test]
fn random_seals_and_opens_agree() {
    let mut random = Random::new(121);
    let mut tally = Tally::default();
    for scheme in SCHEMES {
        for _ in 0..TIMES_EACH {
            let (header, body) = (random.below(LONGEST), random.below(LONGEST));
            let call = Call::drawn(&mut random, scheme, header, body);
            let run = tally.expect(&call, DONE);
            tally.compare(&nearly_good_opening(&mut random, &call, &run));
        }
    }
    tally.print("random seals and opens");
}

/// Runs nobody sealed, of every length from less than a block.
#[test]
fn random_runs_agree() {
    let mut random = Random::new(122);
    let mut tally = Tally::default();
    for scheme in SCHEMES {
        for _ in 0..TIMES_EACH {
            let (header, length) = (random.below(40), random.below(LONGEST));
            let call = Call::drawn(&mut random, scheme, header, 0);
            let run = random.bytes(length);
            let outcome = tally.compare(&call.opening(&run));
            assert_ne!(outcome.number, DONE);
        }
    }
    tally.print("random runs");
}

/// Whether a run of one scheme opens under the other: Umbreon and Jolteon seal a
/// body of at most a block alike.
fn opens_under(sealed_under: u32, scheme: u32, body: usize) -> bool {
    let siblings = SIBLINGS
        .iter()
        .any(|two| two.contains(&sealed_under) && two.contains(&scheme));
    siblings && body <= row_of(scheme).block_bytes
}

/// A run of one scheme under another: the nonce is cut or filled up to fit.
#[test]
fn runs_under_another_scheme_agree() {
    let mut random = Random::new(123);
    let mut tally = Tally::default();
    for sealed_under in SCHEMES {
        for scheme in SCHEMES.into_iter().filter(|other| *other != sealed_under) {
            for body in 0..40 {
                let call = Call::drawn(&mut random, sealed_under, 10, body);
                let run = tally.expect(&call, DONE);
                let mut opening = call.opening(&run);
                opening.scheme = scheme;
                opening.nonce.resize(row_of(scheme).nonce_bytes, 0);
                opening.room = LONGEST;
                let outcome = tally.compare(&opening);
                let opened = outcome.number == DONE;
                assert_eq!(opened, opens_under(sealed_under, scheme, body));
                assert!(!opened || outcome.output == call.text);
            }
        }
    }
    tally.print("other schemes");
}
