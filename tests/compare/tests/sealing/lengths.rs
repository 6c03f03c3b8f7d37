//! Every pair of short lengths of header and body.

use crate::both::Tally;
use crate::{takes, SCHEMES};
use compare::random::Random;
use compare::records::{row_of, Call};
use compare::sealing::{DONE, NOTHING};

/// Sealed and opened. Where nothing is not sealed, every run of a block is
/// refused alike.
fn compare_both_ways(tally: &mut Tally, call: &Call) {
    if takes(call.scheme, call.header.len(), call.text.len()) {
        let run = tally.expect(call, DONE);
        let opened = tally.expect(&call.opening(&run), DONE);
        assert_eq!(opened, call.text);
    } else {
        tally.expect(call, NOTHING);
        for filling in [0x00, 0x80, 0xff] {
            let run = vec![filling; row_of(call.scheme).block_bytes];
            tally.expect(&call.opening(&run), NOTHING);
        }
    }
}

/// From nothing to three blocks and one byte.
#[test]
fn every_pair_of_short_lengths_agrees() {
    let mut random = Random::new(71);
    let mut tally = Tally::default();
    let mut pairs = 0;
    for scheme in SCHEMES {
        let longest = 3 * row_of(scheme).block_bytes + 1;
        for header in 0..=longest {
            for body in 0..=longest {
                let call = Call::drawn(&mut random, scheme, header, body);
                compare_both_ways(&mut tally, &call);
                pairs += 1;
            }
        }
    }
    assert_eq!(pairs, 3 * 26 * 26 + 4 * 50 * 50);
    tally.print("pairs of lengths");
}

/// The same bytes in header and body, and all zero, at block ends: nothing
/// random that could hide a block taken from the wrong place.
#[test]
fn plain_bytes_agree() {
    let mut random = Random::new(72);
    let mut tally = Tally::default();
    for scheme in SCHEMES {
        let size = row_of(scheme).block_bytes;
        for filling in [0x00, 0x80, 0xff] {
            for header in [0, size - 1, size, 2 * size, 2 * size + 1] {
                for body in [0, size - 1, size, 2 * size, 2 * size + 1] {
                    let mut call = Call::drawn(&mut random, scheme, header, body);
                    for part in [
                        &mut call.key,
                        &mut call.nonce,
                        &mut call.header,
                        &mut call.text,
                    ] {
                        part.fill(filling);
                    }
                    compare_both_ways(&mut tally, &call);
                }
            }
        }
    }
    tally.print("plain bytes");
}
