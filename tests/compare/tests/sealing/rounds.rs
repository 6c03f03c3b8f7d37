//! The library's rounds of lengths (C-13) against those that the second program
//! counts when it seals so many zeros. That they are those of every seal and
//! open is seen to in `both`.

use crate::limits::{every_limit, Limit, EEVEE, PAEF, SAEF};
use crate::{takes, SCHEMES};
use compare::random::Random;
use compare::schemes::Scheme;
use compare::sealing::{BODY_TOO_LONG, DONE, HEADER_TOO_LONG, NOTHING, UNKNOWN_SCHEME};
use compare::{auraski, sealing};

/// Lengths far beyond every limit. Where a length is too narrow, a good one is
/// left of some of them.
const HUGE: [usize; 8] = [
    1 << 31,
    u32::MAX as usize,
    (1 << 32) + 16,
    1 << 63,
    (1 << 63) + 5,
    usize::MAX - 15,
    usize::MAX - 1,
    usize::MAX,
];

/// Compares, and asserts the number besides.
fn expect(scheme: u32, header: usize, body: usize, number: u32) {
    let about = format!("scheme {}, lengths {} and {}", scheme, header, body);
    let ours = auraski::rounds(scheme, header, body);
    assert_eq!(ours, sealing::rounds(scheme, header, body), "{}", about);
    assert_eq!(ours.number, number, "{}", about);
}

/// From nothing to three blocks and one byte; under unknown schemes as under
/// those with the longer block.
#[test]
fn every_pair_of_short_lengths_agrees() {
    for scheme in 0..=9 {
        let row = Scheme::find(scheme);
        let block = row.map_or(16, |row| row.block_bytes);
        for header in 0..=3 * block + 1 {
            for body in 0..=3 * block + 1 {
                let number = match row {
                    None => UNKNOWN_SCHEME,
                    Some(_) if takes(scheme, header, body) => DONE,
                    Some(_) => NOTHING,
                };
                expect(scheme, header, body, number);
            }
        }
    }
}

/// One byte more than the limit, of either and of both.
fn compare_longer(limit: Limit) {
    for body in [0, limit.body, limit.body + 1] {
        expect(limit.scheme, limit.header + 1, body, HEADER_TOO_LONG);
    }
    for header in [0, limit.header] {
        expect(limit.scheme, header, limit.body + 1, BODY_TOO_LONG);
    }
}

#[test]
fn both_sides_of_paef_s_limits_agree() {
    for limit in PAEF {
        let Limit { header, body, .. } = limit;
        for [header, body] in [
            [header, 0],
            [0, body],
            [header, body],
            [header - 1, 1],
            [1, body - 1],
        ] {
            expect(limit.scheme, header, body, DONE);
        }
        compare_longer(limit);
    }
}

/// One alone is counted here, which takes long; the others come with the long
/// records of `limits` and `long`.
#[test]
fn both_sides_of_the_other_limits_agree() {
    for limit in EEVEE.into_iter().chain([SAEF]) {
        expect(limit.scheme, limit.header - 1, limit.body, DONE);
        compare_longer(limit);
    }
}

#[test]
fn huge_lengths_agree() {
    for limit in every_limit() {
        for huge in HUGE {
            for body in [0, 1, limit.body, limit.body + 1, huge, usize::MAX] {
                expect(limit.scheme, huge, body, HEADER_TOO_LONG);
            }
            for header in [0, 1, limit.header] {
                expect(limit.scheme, header, huge, BODY_TOO_LONG);
            }
            expect(limit.scheme, limit.header + 1, huge, HEADER_TOO_LONG);
        }
    }
}

/// The scheme is judged before any length.
#[test]
fn unknown_schemes_agree() {
    let far = [256, 257, 0x0001_0001, 0x8000_0002, 0xffff_ff07, u32::MAX];
    for scheme in [0, 8, 9].into_iter().chain(far) {
        for length in [0, 1, 65_529].into_iter().chain(HUGE) {
            expect(scheme, length, 0, UNKNOWN_SCHEME);
            expect(scheme, 0, length, UNKNOWN_SCHEME);
            expect(scheme, length, length, UNKNOWN_SCHEME);
        }
    }
}

/// Lengths up to some hundred blocks.
#[test]
fn random_lengths_agree() {
    let mut random = Random::new(141);
    for scheme in SCHEMES {
        for _ in 0..200 {
            let [header, body] = [(); 2].map(|_| 1 + random.below(2_000));
            expect(scheme, header, body, DONE);
        }
    }
}
