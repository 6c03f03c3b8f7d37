//! What was sealed is opened, and its length is the body's and a block.

use crate::{size_of, Case, LIMITS, SCHEMES};
use compare::blocks::pad10;
use compare::random::Random;

#[test]
fn every_pair_of_short_lengths_goes_round() {
    let mut random = Random::new(41);
    let mut trips = 0;
    for scheme in SCHEMES {
        let longest = 3 * size_of(scheme) + 1;
        for header_length in 0..=longest {
            let case = Case::random(&mut random, scheme, header_length);
            for body_length in (0..=longest).filter(|length| case.takes(*length)) {
                let body = random.bytes(body_length);
                assert_eq!(case.opened(&case.sealed(&body)), (0, body));
                trips += 1;
            }
        }
    }
    println!("{} bodies went round", trips);
}

#[test]
fn longer_lengths_go_round() {
    let mut random = Random::new(42);
    for scheme in SCHEMES {
        for length in [100, 255, 256, 257, 1000, 4096, 5001] {
            let case = Case::random(&mut random, scheme, length);
            let body = random.bytes(length);
            assert_eq!(case.opened(&case.sealed(&body)), (0, body));
        }
    }
}

#[test]
fn the_longest_header_and_body_go_round() {
    let mut random = Random::new(43);
    for (scheme, header, body) in LIMITS {
        let case = Case::random(&mut random, scheme, header);
        let body = random.bytes(body);
        assert_eq!(case.opened(&case.sealed(&body)), (0, body));
    }
}

#[test]
fn nothing_sealed_is_one_block_bound_to_everything() {
    let mut random = Random::new(44);
    for scheme in [1, 2, 3] {
        let case = Case::random(&mut random, scheme, 0);
        let run = case.sealed(&[]);
        assert_eq!(run.len(), size_of(scheme));
        assert!(run.iter().any(|byte| *byte != 0), "the block is skipped");
        assert_eq!(case.opened(&run), (0, vec![]));
        let zeros = vec![0; size_of(scheme)];
        case.assert_not_authentic(&zeros);
        case.under(&[0x80]).assert_not_authentic(&run);
        // What an empty header is padded to.
        let padded = pad10(&[], size_of(scheme))[..size_of(scheme)].to_vec();
        case.under(&padded).assert_not_authentic(&run);
    }
}

#[test]
fn another_key_or_nonce_gives_another_run() {
    let mut random = Random::new(45);
    for scheme in SCHEMES {
        let case = Case::random(&mut random, scheme, 20);
        let body = random.bytes(40);
        let run = case.sealed(&body);
        for bit in 0..8 * case.key.len() {
            let mut other = case.clone();
            other.key[bit / 8] ^= 1 << (bit % 8);
            assert_ne!(other.sealed(&body), run);
            other.assert_not_authentic(&run);
        }
        for bit in 0..8 * case.nonce.len() {
            let mut other = case.clone();
            other.nonce[bit / 8] ^= 1 << (bit % 8);
            assert_ne!(other.sealed(&body), run);
            other.assert_not_authentic(&run);
        }
    }
}
