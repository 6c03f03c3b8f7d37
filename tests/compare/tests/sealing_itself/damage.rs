//! Runs and headers that were changed are refused with 6, and padding is
//! judged as well as the tag.

use crate::{row_of, size_of, Case, SCHEMES};
use compare::blocks::load_block;
use compare::forged::{forged_run, LastBlock};
use compare::random::Random;
use compare::schemes::Keyed;

/// Lengths on both sides of a block's end.
fn lengths(size: usize) -> [usize; 6] {
    [0, 1, size - 1, size, size + 1, 2 * size + 3]
}

#[test]
fn every_changed_bit_of_a_run_is_refused() {
    let mut random = Random::new(51);
    let mut refused = 0;
    for scheme in SCHEMES {
        for length in lengths(size_of(scheme)) {
            let case = Case::random(&mut random, scheme, length);
            let bodies = lengths(size_of(scheme)).into_iter();
            for body_length in bodies.filter(|length| case.takes(*length)) {
                let run = case.sealed(&random.bytes(body_length));
                for bit in 0..8 * run.len() {
                    let mut damaged = run.clone();
                    damaged[bit / 8] ^= 1 << (bit % 8);
                    case.assert_not_authentic(&damaged);
                    refused += 1;
                }
            }
        }
    }
    println!("{} damaged runs are refused", refused);
}

#[test]
fn cut_and_lengthened_runs_are_refused() {
    let mut random = Random::new(52);
    for scheme in SCHEMES {
        let size = size_of(scheme);
        for body_length in lengths(size) {
            let case = Case::random(&mut random, scheme, 5);
            let run = case.sealed(&random.bytes(body_length));
            for length in size..run.len() {
                case.assert_not_authentic(&run[..length]);
            }
            for added in 1..=size + 1 {
                let longer = [&run[..], &vec![0; added]].concat();
                case.assert_not_authentic(&longer);
            }
        }
    }
}

#[test]
fn every_changed_bit_of_a_header_is_refused() {
    let mut random = Random::new(53);
    for scheme in SCHEMES {
        for length in lengths(size_of(scheme)) {
            let case = Case::random(&mut random, scheme, length);
            let run = case.sealed(&random.bytes(10));
            for bit in 0..8 * length {
                let mut header = case.header.clone();
                header[bit / 8] ^= 1 << (bit % 8);
                case.under(&header).assert_not_authentic(&run);
            }
        }
    }
}

/// Two blocks of a body, and two of a header, changed over.
#[test]
fn blocks_keep_their_places() {
    let mut random = Random::new(54);
    for scheme in SCHEMES {
        let size = size_of(scheme);
        let case = Case::random(&mut random, scheme, 3 * size);
        let run = case.sealed(&random.bytes(3 * size));
        let turned = |bytes: &[u8]| {
            let mut bytes = bytes.to_vec();
            bytes[..2 * size].rotate_left(size);
            bytes
        };
        case.assert_not_authentic(&turned(&run));
        case.under(&turned(&case.header)).assert_not_authentic(&run);
    }
}

/// Seals whole blocks and a last one as it stands, padded well or not, with
/// the right key.
fn forged(case: &Case, whole: &[u8], last: &LastBlock) -> Vec<u8> {
    let key = load_block(&case.key);
    let mut keyed = Keyed::new(row_of(case.scheme), &key, &case.nonce);
    forged_run(&mut keyed, &case.header, whole, last)
}

/// Changes each bit of the padding behind a good body. The tag is right every
/// time, yet the room says no more than after a wrong tag.
fn check_padding(case: &Case, whole: &[u8], part: &[u8]) -> usize {
    let mut last = LastBlock {
        block: load_block(part),
        body_bytes: part.len(),
    };
    last.block[part.len()] = 0x80;
    let body = [whole, part].concat();
    let mut run = forged(case, whole, &last);
    assert_eq!(run, case.sealed(&body));
    assert_eq!(case.opened(&run), (0, body));
    let bits = 8 * part.len()..8 * size_of(case.scheme);
    for bit in bits.clone() {
        last.block[bit / 8] ^= 1 << (bit % 8);
        case.assert_not_authentic(&forged(case, whole, &last));
        last.block[bit / 8] ^= 1 << (bit % 8);
    }
    *run.last_mut().unwrap() ^= 1;
    case.assert_not_authentic(&run);
    bits.len()
}

#[test]
fn padding_is_judged() {
    let mut random = Random::new(55);
    let mut refused = 0;
    for scheme in SCHEMES {
        let size = size_of(scheme);
        for length in 1..size {
            for (header, blocks) in [(0, 0), (20, 0), (0, 2), (2 * size, 1)] {
                let case = Case::random(&mut random, scheme, header);
                let whole = random.bytes(blocks * size);
                refused += check_padding(&case, &whole, &random.bytes(length));
            }
        }
    }
    println!("{} wrong paddings under right tags are refused", refused);
}
