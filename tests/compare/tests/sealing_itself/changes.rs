//! C-23: what one changed block moves. What it does not say is in `not_said`.

use crate::{size_of, Case, LIMITS, SCHEMES};
use compare::changes::{check_blocks_of, check_one_block, check_shared_blocks, header_lengths};
use compare::random::Random;

/// The schemes of PAEF.
pub(crate) const PAEF: [u32; 2] = [1, 2];

/// Under headers of several lengths.
fn cases(random: &mut Random, scheme: u32) -> [Case; 5] {
    header_lengths(size_of(scheme)).map(|header| Case::random(random, scheme, header))
}

/// For each header and each length of the last block there are fifteen blocks,
/// changed in two ways.
#[test]
fn one_changed_block_of_paef_moves_itself_and_the_last() {
    let mut random = Random::new(151);
    let mut pairs = 0;
    for scheme in PAEF {
        for case in cases(&mut random, scheme) {
            let seal = |body: &[u8]| case.sealed(body);
            pairs += check_one_block(&mut random, size_of(scheme), seal);
        }
    }
    assert_eq!(pairs, 5 * (8 + 16) * 15 * 2);
    println!("{} bodies with one block changed", pairs);
}

/// Of 8,191 blocks the first, a middle one and the last but one.
#[test]
fn so_it_is_in_the_longest_bodies() {
    let mut random = Random::new(152);
    let mut pairs = 0;
    for (scheme, _, longest) in LIMITS.into_iter().take(2) {
        let case = Case::random(&mut random, scheme, 5);
        let body = random.bytes(longest);
        let (size, seal) = (size_of(scheme), |body: &[u8]| case.sealed(body));
        pairs += check_blocks_of(&mut random, &body, [1, 4096, 8190], size, seal);
    }
    assert_eq!(pairs, 2 * 3 * 2);
    println!("{} of the longest bodies with one block changed", pairs);
}

/// For each header there are five k, and behind these blocks five lengths of
/// either body and three agreements.
#[test]
fn bodies_that_begin_alike_have_runs_that_do() {
    let mut random = Random::new(153);
    let mut pairs = 0;
    for scheme in SCHEMES {
        for case in cases(&mut random, scheme) {
            let seal = |body: &[u8]| case.sealed(body);
            pairs += check_shared_blocks(&mut random, size_of(scheme), seal);
        }
    }
    assert_eq!(pairs, 7 * 5 * 5 * (5 * 5) * 3);
    println!("{} pairs of bodies that begin alike", pairs);
}
