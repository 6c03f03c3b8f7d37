//! The rounds of C-13: sums that are written out, opens that are refused with
//! 6, and the rounds of lengths. That every other seal and open runs what the
//! formula says is asserted with each of them, in `Case`.

use crate::{rounds_of, size_of, Case, LIMITS, SCHEMES};
use compare::random::Random;
use compare::sealing::{
    rounds, Rounds, BODY_TOO_LONG, DONE, HEADER_TOO_LONG, NOTHING, NOT_AUTHENTIC, UNKNOWN_SCHEME,
};

/// Every pair of lengths up to three blocks and one byte, of which one is not 0.
fn short_lengths(scheme: u32) -> impl Iterator<Item = (usize, usize)> {
    let longest = 3 * size_of(scheme) + 1;
    let pairs = (0..=longest).flat_map(move |header| (0..=longest).map(move |body| (header, body)));
    pairs.skip(1)
}

fn done(rounds: u32) -> Rounds {
    Rounds {
        number: DONE,
        rounds,
    }
}

fn refused(number: u32) -> Rounds {
    Rounds { number, rounds: 0 }
}

/// With the document's figures and no formula.
#[test]
fn sums_are_those_of_the_document_s_figures() {
    assert_eq!(rounds(1, 0, 0), done(40));
    assert_eq!(rounds(1, 0, 1), done(63));
    assert_eq!(rounds(1, 8, 0), done(40));
    assert_eq!(rounds(1, 9, 17), done(40 + 40 + 63 + 63 + 63));
    for scheme in [2, 3] {
        assert_eq!(rounds(scheme, 0, 0), done(48));
        assert_eq!(rounds(scheme, 0, 1), done(75));
        assert_eq!(rounds(scheme, 16, 0), done(48));
        assert_eq!(rounds(scheme, 17, 33), done(48 + 48 + 75 + 75 + 75));
    }
}

/// The same of Umbreon and of Jolteon, which works one half of each body block
/// but the last.
#[test]
fn sums_of_c_14_are_those_of_the_listing_s_calls() {
    for scheme in [4, 5] {
        assert_eq!(rounds(scheme, 0, 1), done(63));
        assert_eq!(rounds(scheme, 8, 0), done(40));
        assert_eq!(rounds(scheme, 9, 8), done(40 + 40 + 63));
    }
    assert_eq!(rounds(4, 9, 17), done(40 + 40 + 63 + 63 + 63));
    assert_eq!(rounds(5, 9, 17), done(40 + 40 + 40 + 40 + 63));
    for scheme in [6, 7] {
        assert_eq!(rounds(scheme, 0, 1), done(75));
        assert_eq!(rounds(scheme, 16, 0), done(48));
        assert_eq!(rounds(scheme, 17, 16), done(48 + 48 + 75));
    }
    assert_eq!(rounds(6, 17, 33), done(48 + 48 + 75 + 75 + 75));
    assert_eq!(rounds(7, 17, 33), done(48 + 48 + 48 + 48 + 75));
    for scheme in [4, 5, 6, 7] {
        assert_eq!(rounds(scheme, 0, 0), refused(NOTHING));
    }
}

/// A run with its last byte changed, and one with its first: 6 either way, and
/// `opened` asserts that as many rounds were run as for the good run.
#[test]
fn a_refused_open_runs_what_a_good_one_does() {
    let mut random = Random::new(58);
    for scheme in SCHEMES {
        for (header, body) in short_lengths(scheme) {
            let case = Case::random(&mut random, scheme, header);
            let run = case.sealed(&random.bytes(body));
            for place in [0, run.len() - 1] {
                let mut damaged = run.clone();
                damaged[place] ^= 1;
                assert_eq!(case.opened(&damaged).0, NOT_AUTHENTIC);
            }
            assert_eq!(case.opened(&run).0, DONE);
        }
    }
}

#[test]
fn the_rounds_of_lengths_are_the_formula_s() {
    for scheme in SCHEMES {
        for (header, body) in short_lengths(scheme) {
            let expected = done(rounds_of(scheme, header, body));
            assert_eq!(rounds(scheme, header, body), expected);
        }
    }
}

#[test]
fn the_longest_take_the_most_rounds() {
    let most = [
        843_673, 1_007_493, 8_060_928, 2_719_521, 1_965_903, 3_243_765, 2_359_083,
    ];
    for ((scheme, header, body), most) in LIMITS.into_iter().zip(most) {
        assert_eq!(rounds(scheme, header, body), done(most));
        assert_eq!(rounds_of(scheme, header, body), most);
    }
}

/// First scheme, then header, then body, up to lengths that no memory holds.
#[test]
fn lengths_are_refused_in_the_order_of_the_checks() {
    for (scheme, header, body) in LIMITS {
        for longer in [header + 1, usize::MAX] {
            assert_eq!(rounds(scheme, longer, 0), refused(HEADER_TOO_LONG));
            assert_eq!(rounds(scheme, longer, body + 1), refused(HEADER_TOO_LONG));
        }
        for longer in [body + 1, usize::MAX] {
            assert_eq!(rounds(scheme, 0, longer), refused(BODY_TOO_LONG));
            assert_eq!(rounds(scheme, header, longer), refused(BODY_TOO_LONG));
        }
    }
    for scheme in [0, 8, 9, 257, u32::MAX] {
        for length in [0, 1, usize::MAX] {
            assert_eq!(rounds(scheme, length, length), refused(UNKNOWN_SCHEME));
        }
    }
}
