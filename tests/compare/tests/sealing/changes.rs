//! C-23 on the library's runs, by the checks that the second program's go through,
//! and two examples of what it does not say.

use crate::both::Tally;
use crate::limits::{Limit, PAEF};
use crate::SCHEMES;
use compare::blocks::load_block;
use compare::changes::Piece::{Last, Sealed, Tag};
use compare::changes::{
    check_blocks_of, check_one_block, check_shared_blocks, check_two_blocks, header_lengths, moved,
};
use compare::random::Random;
use compare::records::{row_of, Call, SPARE};
use compare::schemes::Keyed;
use compare::sealing::DONE;

/// The run of a body under the call's key, nonce and header.
fn sealed(tally: &mut Tally, call: &Call, body: &[u8]) -> Vec<u8> {
    let call = call.with(|call| call.text = body.to_vec());
    tally.expect(&call.roomy(SPARE), DONE)
}

/// Calls under headers of several lengths, whose bodies are still to come.
fn calls(random: &mut Random, scheme: u32) -> [Call; 5] {
    let lengths = header_lengths(row_of(scheme).block_bytes);
    lengths.map(|header| Call::drawn(random, scheme, header, 0))
}

#[test]
fn one_changed_block_of_paef_moves_itself_and_the_last() {
    let mut random = Random::new(171);
    let mut tally = Tally::default();
    let mut pairs = 0;
    for Limit { scheme, .. } in PAEF {
        let size = row_of(scheme).block_bytes;
        for call in calls(&mut random, scheme) {
            let seal = |body: &[u8]| sealed(&mut tally, &call, body);
            pairs += check_one_block(&mut random, size, seal);
        }
    }
    assert_eq!(pairs, 5 * (8 + 16) * 15 * 2);
    tally.print("one block changed");
}

/// Of 8,191 blocks the first, a middle one and the last but one.
#[test]
fn so_it_is_in_the_longest_bodies() {
    let mut random = Random::new(172);
    let mut tally = Tally::default();
    for limit in PAEF {
        let call = Call::drawn(&mut random, limit.scheme, 5, limit.body);
        let size = row_of(limit.scheme).block_bytes;
        let seal = |body: &[u8]| sealed(&mut tally, &call, body);
        let pairs = check_blocks_of(&mut random, &call.text, [1, 4096, 8190], size, seal);
        assert_eq!(pairs, 3 * 2);
    }
    tally.print("one block of the longest changed");
}

#[test]
fn bodies_that_begin_alike_have_runs_that_do() {
    let mut random = Random::new(173);
    let mut tally = Tally::default();
    let mut pairs = 0;
    for scheme in SCHEMES {
        let size = row_of(scheme).block_bytes;
        for call in calls(&mut random, scheme) {
            let seal = |body: &[u8]| sealed(&mut tally, &call, body);
            pairs += check_shared_blocks(&mut random, size, seal);
        }
    }
    assert_eq!(pairs, 7 * 5 * 5 * (5 * 5) * 3);
    tally.print("bodies that begin alike");
}

/// Changed so that S stays as it was.
#[test]
fn any_two_blocks_of_paef_may_be_all_that_is_moved() {
    let mut random = Random::new(174);
    let mut tally = Tally::default();
    let mut pairs = 0;
    for Limit { scheme, .. } in PAEF {
        for call in calls(&mut random, scheme) {
            let key = load_block(&call.key);
            let keyed = Keyed::new(row_of(scheme), &key, &call.nonce);
            let seal = |body: &[u8]| sealed(&mut tally, &call, body);
            pairs += check_two_blocks(&mut random, &keyed, seal);
        }
    }
    assert_eq!(pairs, 2 * 5 * 5 * 4);
    tally.print("two blocks changed");
}

/// The two headers of document 01's P12 over one body of three blocks: under PAEF
/// they move C_* alone, under SAEF everything.
#[test]
fn two_headers_that_pad_alike_move_what_comes_behind() {
    let mut random = Random::new(175);
    let mut tally = Tally::default();
    let all = [Sealed(1), Sealed(2), Last, Tag];
    for (scheme, expected) in [(1, &all[2..3]), (2, &all[2..3]), (3, &all[..])] {
        let size = row_of(scheme).block_bytes;
        let short = Call::drawn(&mut random, scheme, size - 1, 2 * size + 3);
        let full = short.with(|call| call.header.push(0x80));
        let runs = [short, full].map(|call| tally.expect(&call, DONE));
        assert_eq!(moved([&runs[0], &runs[1]], size), expected);
    }
    tally.print("headers that pad alike");
}
