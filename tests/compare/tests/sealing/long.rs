//! What more is compared at the limits of schemes 3 (C-12) to 7 (C-14) and on the
//! way to them. A call of so many blocks takes long, so these run with
//! `tools/compare --long`.

use crate::both::Tally;
use crate::limits::{
    compare_bodies, compare_forged, compare_headers, goes_round, Limit, EEVEE, SAEF,
};
use compare::random::Random;
use compare::records::{row_of, Call};
use compare::sealing::{DONE, NOT_AUTHENTIC, SHORT_ROOM};

/// Lengths at which a count that is too narrow, or a limit that is another
/// scheme's or the other part's, would show: 65,536 bytes, scheme 1's and 2's
/// limits, those of the headers from 4 on, and 8,192, 16,384, 32,768 and 65,535
/// blocks.
const EDGES: [usize; 9] = [
    65_528, 65_536, 131_040, 131_056, 131_072, 262_080, 262_144, 524_288, 1_048_560,
];

/// Both sides of each edge below a limit, and the edge.
fn lengths(limit: usize) -> impl Iterator<Item = usize> {
    let edges = EDGES.into_iter().filter(move |edge| *edge < limit);
    edges.flat_map(|edge| edge - 1..=edge + 1)
}

fn long_limits() -> impl Iterator<Item = Limit> {
    [SAEF].into_iter().chain(EEVEE)
}

/// Empty, short and full blocks beside the longest header.
#[test]
#[ignore = "takes long; tools/compare --long"]
fn longest_headers_agree_over_every_kind_of_body() {
    let mut random = Random::new(131);
    let mut tally = Tally::default();
    for limit in long_limits() {
        for body in [0, 1, 15, 16, 17] {
            compare_headers(&mut tally, &mut random, limit, body);
        }
    }
    tally.print("longest headers");
}

/// Empty, short and full blocks beside the longest body.
#[test]
#[ignore = "takes long; tools/compare --long"]
fn longest_bodies_agree_under_every_kind_of_header() {
    let mut random = Random::new(132);
    let mut tally = Tally::default();
    for limit in long_limits() {
        for header in [0, 15, 16, 17] {
            compare_bodies(&mut tally, &mut random, limit, header);
        }
    }
    tally.print("longest bodies");
}

/// One byte less than the limit of each and of both: as many blocks.
#[test]
#[ignore = "takes long; tools/compare --long"]
fn short_last_blocks_agree() {
    let mut random = Random::new(133);
    let mut tally = Tally::default();
    for limit in long_limits() {
        let (short_header, short_body) = (limit.header - 1, limit.body - 1);
        for (header, body) in [
            (short_header, 0),
            (short_header, 20),
            (0, short_body),
            (20, short_body),
            (short_header, short_body),
        ] {
            let call = Call::drawn(&mut random, limit.scheme, header, body);
            goes_round(&mut tally, &call);
        }
    }
    tally.print("short last blocks");
}

/// A bit of the longest run changed in its first block, its middle, its last
/// block and its tag, and a bit of the longest header at its ends.
#[test]
#[ignore = "takes long; tools/compare --long"]
fn forged_calls_agree() {
    let mut random = Random::new(134);
    let mut tally = Tally::default();
    for Limit {
        scheme,
        header,
        body,
    } in long_limits()
    {
        let call = Call::drawn(&mut random, scheme, 20, body);
        let run = tally.expect(&call, DONE);
        for place in [0, body / 2, body - 1, body, run.len() - 1] {
            compare_forged(&mut tally, &call, &run, place);
        }
        let call = Call::drawn(&mut random, scheme, header, 20);
        let run = tally.expect(&call, DONE);
        for place in [0, header - 1] {
            let other = call.opening(&run).with(|call| call.header[place] ^= 1);
            tally.expect(&other, NOT_AUTHENTIC);
        }
    }
    tally.print("forged calls");
}

/// A room a byte short, and an exact one; gives the output in that.
fn compare_two_rooms(tally: &mut Tally, call: &Call, enough: u32) -> Vec<u8> {
    let exact = call.roomy(0);
    tally.expect(&exact.with(|call| call.room -= 1), SHORT_ROOM);
    tally.expect(&exact, enough)
}

#[test]
#[ignore = "takes long; tools/compare --long"]
fn rooms_of_the_longest_body_agree() {
    let mut random = Random::new(135);
    let mut tally = Tally::default();
    for limit in long_limits() {
        let call = Call::drawn(&mut random, limit.scheme, 20, limit.body);
        let run = compare_two_rooms(&mut tally, &call, DONE);
        let opening = call.opening(&run);
        assert_eq!(compare_two_rooms(&mut tally, &opening, DONE), call.text);
        let forged = opening.with(|call| call.text[limit.body / 2] ^= 1);
        compare_two_rooms(&mut tally, &forged, NOT_AUTHENTIC);
    }
    tally.print("rooms of the longest body");
}

#[test]
#[ignore = "takes long; tools/compare --long"]
fn headers_agree_at_every_edge() {
    let mut random = Random::new(136);
    let mut tally = Tally::default();
    for limit in long_limits() {
        for header in lengths(limit.header) {
            let call = Call::drawn(&mut random, limit.scheme, header, 20);
            goes_round(&mut tally, &call);
        }
    }
    tally.print("headers at edges");
}

#[test]
#[ignore = "takes long; tools/compare --long"]
fn bodies_agree_at_every_edge() {
    let mut random = Random::new(137);
    let mut tally = Tally::default();
    for limit in long_limits() {
        for body in lengths(limit.body) {
            let call = Call::drawn(&mut random, limit.scheme, 20, body);
            let run = goes_round(&mut tally, &call);
            assert_eq!(run.len(), body + row_of(limit.scheme).block_bytes);
        }
    }
    tally.print("bodies at edges");
}
