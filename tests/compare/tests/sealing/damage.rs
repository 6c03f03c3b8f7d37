//! Runs that were changed, cut or lengthened, and good runs under another
//! header, nonce or key.

use crate::both::Tally;
use crate::{refusal_of, takes, SCHEMES};
use compare::blocks::load_block;
use compare::forged::{forged_run, LastBlock};
use compare::random::Random;
use compare::records::{row_of, Call};
use compare::schemes::Keyed;
use compare::sealing::{DONE, NOT_AUTHENTIC};

/// Each bit by itself, and all of a byte.
const FLIPS: [u8; 9] = [0x01, 0x02, 0x04, 0x08, 0x10, 0x20, 0x40, 0x80, 0xff];

/// Sealed calls with their runs, of lengths on both sides of block ends.
fn sealed_calls(random: &mut Random, tally: &mut Tally, scheme: u32) -> Vec<(Call, Vec<u8>)> {
    let size = row_of(scheme).block_bytes;
    let mut calls = Vec::new();
    for header in [0, 1, size - 1, size, size + 1, 2 * size] {
        let bodies = [0, 1, size - 1, size, size + 1, 2 * size, 3 * size - 1].into_iter();
        for body in bodies.filter(|body| takes(scheme, header, *body)) {
            let call = Call::drawn(random, scheme, header, body);
            let run = tally.expect(&call, DONE);
            calls.push((call, run));
        }
    }
    calls
}

/// Runs a check on every sealed call and prints the counts.
fn for_sealed_calls(seed: u64, what: &str, check: impl Fn(&mut Tally, &Call, &[u8])) {
    let mut random = Random::new(seed);
    let mut tally = Tally::default();
    for scheme in SCHEMES {
        for (call, run) in sealed_calls(&mut random, &mut tally, scheme) {
            check(&mut tally, &call, &run);
        }
    }
    tally.print(what);
}

#[test]
fn damaged_runs_agree() {
    for_sealed_calls(81, "damaged runs", |tally, call, run| {
        for place in 0..run.len() {
            for flip in FLIPS {
                let mut opening = call.opening(run);
                opening.text[place] ^= flip;
                tally.expect(&opening, NOT_AUTHENTIC);
            }
        }
    });
}

#[test]
fn cut_runs_agree() {
    for_sealed_calls(82, "cut runs", |tally, call, run| {
        for length in 0..run.len() {
            // The same count taken from the front, too.
            for left in [&run[..length], &run[run.len() - length..]] {
                let opening = call.opening(left);
                tally.expect(&opening, refusal_of(&opening));
            }
        }
    });
}

#[test]
fn lengthened_runs_agree() {
    for_sealed_calls(83, "lengthened runs", |tally, call, run| {
        for added in 1..=2 * row_of(call.scheme).block_bytes + 1 {
            for filling in [0x00, 0x80] {
                let longer = [run, &vec![filling; added]].concat();
                tally.expect(&call.opening(&longer), NOT_AUTHENTIC);
            }
        }
    });
}

/// The header with 80 added and the header without: document 01, P12 and the
/// first slip. Also with other bytes added, and with its last byte gone.
#[test]
fn other_headers_agree() {
    for_sealed_calls(84, "other headers", |tally, call, run| {
        for added in [0x80, 0x00, 0x01] {
            let mut other = call.opening(run);
            other.header.push(added);
            tally.expect(&other, NOT_AUTHENTIC);
            let mut longer = call.clone();
            longer.header.push(added);
            let longer_run = tally.expect(&longer, DONE);
            assert_ne!(longer_run, run);
            tally.expect(&longer.opening(&longer_run), DONE);
            tally.expect(&call.opening(&longer_run), NOT_AUTHENTIC);
        }
        let mut shorter = call.opening(run);
        if shorter.header.pop().is_some() {
            tally.expect(&shorter, refusal_of(&shorter));
        }
        for place in 0..call.header.len() {
            let mut other = call.opening(run);
            other.header[place] ^= 0x80;
            tally.expect(&other, NOT_AUTHENTIC);
        }
    });
}

#[test]
fn other_nonces_and_keys_agree() {
    for_sealed_calls(85, "other nonces and keys", |tally, call, run| {
        for place in 0..call.nonce.len() {
            let mut other = call.opening(run);
            other.nonce[place] ^= 0x01;
            tally.expect(&other, NOT_AUTHENTIC);
        }
        for place in 0..call.key.len() {
            let mut other = call.opening(run);
            other.key[place] ^= 0x40;
            tally.expect(&other, NOT_AUTHENTIC);
        }
    });
}

/// The run of some whole blocks and a last one as it stands.
fn forged(call: &Call, whole: &[u8], last: &LastBlock) -> Vec<u8> {
    let key = load_block(&call.key);
    let mut keyed = Keyed::new(row_of(call.scheme), &key, &call.nonce);
    forged_run(&mut keyed, &call.header, whole, last)
}

/// Each bit of the padding wrong under a tag that is right: no flip of a bit
/// of a run comes to this.
fn compare_paddings(tally: &mut Tally, call: &Call) {
    let size = row_of(call.scheme).block_bytes;
    let (whole, part) = call.text.split_at(call.text.len() / size * size);
    let mut last = LastBlock {
        block: load_block(part),
        body_bytes: part.len(),
    };
    last.block[part.len()] = 0x80;
    assert_eq!(tally.expect(call, DONE), forged(call, whole, &last));
    for bit in 8 * part.len()..8 * size {
        last.block[bit / 8] ^= 1 << (bit % 8);
        tally.expect(&call.opening(&forged(call, whole, &last)), NOT_AUTHENTIC);
        last.block[bit / 8] ^= 1 << (bit % 8);
    }
}

#[test]
fn wrong_paddings_agree() {
    let mut random = Random::new(86);
    let mut tally = Tally::default();
    for scheme in SCHEMES {
        let size = row_of(scheme).block_bytes;
        for part in 1..size {
            for (header, blocks) in [(0, 0), (20, 0), (0, 2), (2 * size, 1)] {
                let body = blocks * size + part;
                let call = Call::drawn(&mut random, scheme, header, body);
                compare_paddings(&mut tally, &call);
            }
        }
    }
    tally.print("wrong paddings");
}
