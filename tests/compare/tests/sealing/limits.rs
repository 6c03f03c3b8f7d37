//! Both sides of every limit (document 01, "Both sides of the limit", C-12 for
//! scheme 3 and C-14 from 4 on), of the header and of the body apart (C-11).
//! `long` goes further at those from 3 on, where a call takes long.

use crate::both::Tally;
use compare::random::Random;
use compare::records::{row_of, Call};
use compare::sealing::{BODY_TOO_LONG, DONE, HEADER_TOO_LONG, NOT_AUTHENTIC};

/// A scheme, and the bytes that a header and a body may have.
#[derive(Clone, Copy)]
pub struct Limit {
    pub scheme: u32,
    pub header: usize,
    pub body: usize,
}

const fn limit(scheme: u32, header: usize, body: usize) -> Limit {
    Limit {
        scheme,
        header,
        body,
    }
}

pub const PAEF: [Limit; 2] = [limit(1, 65_528, 65_528), limit(2, 131_056, 131_056)];

/// Scheme 3's, and Umbreon's and Jolteon's over either cipher.
pub const SAEF: Limit = limit(3, 1_048_576, 1_048_576);
pub const EEVEE: [Limit; 4] = [
    limit(4, 131_040, 262_136),
    limit(5, 131_040, 262_136),
    limit(6, 262_080, 524_272),
    limit(7, 262_080, 524_272),
];

pub fn every_limit() -> impl Iterator<Item = Limit> {
    PAEF.into_iter().chain([SAEF]).chain(EEVEE)
}

/// Sealed and opened, by all sides.
pub fn goes_round(tally: &mut Tally, call: &Call) -> Vec<u8> {
    let run = tally.expect(call, DONE);
    assert_eq!(tally.expect(&call.opening(&run), DONE), call.text);
    run
}

/// The run of a call with a bit changed.
pub fn compare_forged(tally: &mut Tally, call: &Call, run: &[u8], place: usize) {
    let forged = call.opening(run).with(|call| call.text[place] ^= 1);
    tally.expect(&forged, NOT_AUTHENTIC);
}

/// The longest header and one byte more, over a body of so many bytes.
pub fn compare_headers(tally: &mut Tally, random: &mut Random, limit: Limit, body: usize) {
    let longest = Call::drawn(random, limit.scheme, limit.header, body);
    let run = goes_round(tally, &longest);
    let longer = longest.with(|call| call.header.push(0x80));
    tally.expect(&longer, HEADER_TOO_LONG);
    tally.expect(&longer.opening(&run), HEADER_TOO_LONG);
    tally.expect(&longer.opening(&[]), HEADER_TOO_LONG);
}

/// The longest body, and run, and one byte more of each, under a header of so
/// many bytes; gives the longest and its run.
pub fn compare_bodies(
    tally: &mut Tally,
    random: &mut Random,
    limit: Limit,
    header: usize,
) -> (Call, Vec<u8>) {
    let longest = Call::drawn(random, limit.scheme, header, limit.body);
    let run = goes_round(tally, &longest);
    assert_eq!(run.len(), limit.body + row_of(limit.scheme).block_bytes);
    let longer = Call::drawn(random, limit.scheme, header, limit.body + 1);
    tally.expect(&longer, BODY_TOO_LONG);
    let longer_run = [&run[..], &[0]].concat();
    tally.expect(&longest.opening(&longer_run), BODY_TOO_LONG);
    (longest, run)
}

/// The longest header and body at once, and one byte more of each and of both.
fn compare_both(tally: &mut Tally, random: &mut Random, limit: Limit) {
    let longest = Call::drawn(random, limit.scheme, limit.header, limit.body);
    let mut run = goes_round(tally, &longest);
    let longer = longest.with(|call| call.header.push(0x80));
    tally.expect(&longer, HEADER_TOO_LONG);
    tally.expect(&longer.opening(&run), HEADER_TOO_LONG);
    run.push(0);
    tally.expect(&longest.opening(&run), BODY_TOO_LONG);
    let mut longer = Call::drawn(random, limit.scheme, limit.header, limit.body + 1);
    tally.expect(&longer, BODY_TOO_LONG);
    longer.header.push(0x80);
    tally.expect(&longer, HEADER_TOO_LONG);
    tally.expect(&longer.opening(&run), HEADER_TOO_LONG);
}

#[test]
fn longest_and_longer_headers_agree() {
    let mut random = Random::new(91);
    let mut tally = Tally::default();
    for limit in PAEF {
        for body in [0, 5] {
            compare_headers(&mut tally, &mut random, limit, body);
        }
        // The last block short: as many blocks, one byte less.
        let short = Call::drawn(&mut random, limit.scheme, limit.header - 1, 20);
        goes_round(&mut tally, &short);
    }
    compare_headers(&mut tally, &mut random, SAEF, 5);
    tally.print("limit of the header");
}

#[test]
fn longest_and_longer_bodies_agree() {
    let mut random = Random::new(92);
    let mut tally = Tally::default();
    for limit in PAEF.into_iter().chain([SAEF]) {
        let (longest, run) = compare_bodies(&mut tally, &mut random, limit, 5);
        compare_forged(&mut tally, &longest, &run, limit.body / 2);
    }
    for limit in PAEF {
        let short = Call::drawn(&mut random, limit.scheme, 0, limit.body - 1);
        goes_round(&mut tally, &short);
    }
    tally.print("limit of the body");
}

#[test]
fn both_at_their_limits_agree() {
    let mut random = Random::new(93);
    let mut tally = Tally::default();
    for limit in every_limit() {
        compare_both(&mut tally, &mut random, limit);
    }
    tally.print("both limits");
}
