//! Umbreon and Jolteon over one cipher. By the listing both add T_A to the only
//! block of a body, and differ where there are more.

use crate::{size_of, Case, SIBLINGS};
use compare::random::Random;
use compare::sealing::DONE;

/// Runs a check on a case of either scheme with the same key, nonce and header,
/// under headers that are empty, short, full and longer.
fn for_siblings(seed: u64, check: impl Fn(&mut Random, [&Case; 2])) {
    let mut random = Random::new(seed);
    for [umbreon, jolteon] in SIBLINGS {
        let size = size_of(umbreon);
        for header in [0, 1, size, 2 * size + 1] {
            let one = Case::random(&mut random, umbreon, header);
            let other = Case {
                scheme: jolteon,
                ..one.clone()
            };
            check(&mut random, [&one, &other]);
        }
    }
}

#[test]
fn bodies_of_at_most_a_block_are_sealed_alike() {
    for_siblings(56, |random, [one, other]| {
        for length in (0..=size_of(one.scheme)).filter(|length| one.takes(*length)) {
            let body = random.bytes(length);
            let run = one.sealed(&body);
            assert_eq!(other.sealed(&body), run);
            assert_eq!(one.opened(&run), (DONE, body.clone()));
            assert_eq!(other.opened(&run), (DONE, body));
        }
    });
}

#[test]
fn longer_bodies_do_not_open_under_the_other_mode() {
    for_siblings(57, |random, [one, other]| {
        let size = size_of(one.scheme);
        for length in size + 1..=3 * size {
            let body = random.bytes(length);
            other.assert_not_authentic(&one.sealed(&body));
            one.assert_not_authentic(&other.sealed(&body));
        }
    });
}
