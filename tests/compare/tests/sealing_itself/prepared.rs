//! Prepared keys (C-16): each call answers as by key, and only under the cipher
//! that the key was prepared for.

use crate::{refused, row_of, unused_room, Case, SCHEMES};
use compare::calls::{fork, fork_prepared, unfork, unfork_prepared, DONE, NOT_ADMITTED, REFUSED};
use compare::prepared::{prepare, Prepared};
use compare::random::Random;
use compare::sealing::{
    open_prepared, seal_prepared, Answer, NOT_AUTHENTIC, UNKNOWN_SCHEME, WRONG_KEY_LENGTH,
};

/// Seal and open with a prepared key.
fn answers(case: &Case, key: &Prepared, body: &[u8], run: &[u8]) -> [(Answer, Vec<u8>); 2] {
    let (scheme, nonce, header) = (case.scheme, &case.nonce, &case.header);
    let [mut sealed, mut opened] = [(); 2].map(|_| unused_room(100));
    let seal = seal_prepared(scheme, key, nonce, header, body, &mut sealed);
    let open = open_prepared(scheme, key, nonce, header, run, &mut opened);
    [(seal, sealed), (open, opened)]
}

/// The same by key.
fn answers_by_key(case: &Case, body: &[u8], run: &[u8]) -> [(Answer, Vec<u8>); 2] {
    let [mut sealed, mut opened] = [(); 2].map(|_| unused_room(100));
    let seal = case.seal_into(body, &mut sealed);
    let open = case.open_into(run, &mut opened);
    [(seal, sealed), (open, opened)]
}

#[test]
fn preparing_is_refused_with_1_and_then_with_2() {
    let made = Prepared::Made {
        cipher: 2,
        key: [7; 16],
    };
    assert_eq!(prepare(2, &[7; 16]), (DONE, made));
    for cipher in [0, 3, u32::MAX] {
        for length in [0, 15, 16, 17] {
            let key = vec![7; length];
            assert_eq!(prepare(cipher, &key), (REFUSED, Prepared::Refused));
        }
    }
    for length in [0, 15, 17, 32] {
        let key = vec![7; length];
        assert_eq!(prepare(1, &key), (NOT_ADMITTED, Prepared::Refused));
    }
}

#[test]
fn seals_and_opens_are_those_by_key() {
    let mut random = Random::new(64);
    for scheme in SCHEMES {
        let case = Case::random(&mut random, scheme, 21);
        let (_, key) = prepare(row_of(scheme).cipher, &case.key);
        let body = random.bytes(30);
        let mut run = case.sealed(&body);
        let same = answers_by_key(&case, &body, &run);
        assert_eq!(answers(&case, &key, &body, &run), same);
        run[0] ^= 1;
        let same = answers_by_key(&case, &body, &run);
        assert_eq!(same[1].0.number, NOT_AUTHENTIC);
        assert_eq!(answers(&case, &key, &body, &run), same);
    }
}

/// Another cipher's and none, whatever the nonce; but an unknown scheme is told
/// before.
#[test]
fn a_key_that_is_not_admitted_is_2() {
    let mut random = Random::new(65);
    for scheme in SCHEMES {
        let mut case = Case::random(&mut random, scheme, 21);
        let run = case.sealed(&[5; 30]);
        let (_, other) = prepare(3 - row_of(scheme).cipher, &case.key);
        case.nonce.pop();
        for key in [other, Prepared::Refused] {
            let mut due = WRONG_KEY_LENGTH;
            for scheme in [scheme, 8] {
                let case = Case {
                    scheme,
                    ..case.clone()
                };
                for (answer, room) in answers(&case, &key, &[5; 30], &run) {
                    assert_eq!((answer, room), (refused(due), unused_room(100)));
                }
                due = UNKNOWN_SCHEME;
            }
        }
    }
}

#[test]
fn block_calls_are_those_by_key() {
    let mut random = Random::new(66);
    for cipher in [1, 2] {
        let [key, tweak, block] = [random.block(), random.block(), random.block()];
        let (_, good) = prepare(cipher, &key);
        for want in 0..4 {
            let forward = fork_prepared(cipher, &good, &tweak, &block, want);
            assert_eq!(forward, fork(cipher, &key, &tweak, &block, want));
            for from in 0..3 {
                let back = unfork_prepared(cipher, &good, &tweak, &block, from, want);
                assert_eq!(back, unfork(cipher, &key, &tweak, &block, from, want));
            }
        }
    }
}

/// With zeros for the blocks, and after unknown numbers.
#[test]
fn a_block_call_is_refused_with_1_and_then_with_2() {
    let (_, other) = prepare(2, &[7; 16]);
    for key in [other, Prepared::Refused] {
        for (cipher, from, want, number) in [
            (1, 0, 2, NOT_ADMITTED),
            (1, 2, 2, REFUSED),
            (1, 0, 3, REFUSED),
            (3, 0, 2, REFUSED),
        ] {
            let back = unfork_prepared(cipher, &key, &[1; 16], &[2; 16], from, want);
            let told = (back.number, back.input, back.other, back.rounds);
            assert_eq!(told, (number, [0; 16], [0; 16], 0));
        }
        for (cipher, want, number) in [(1, 2, NOT_ADMITTED), (1, 3, REFUSED), (0, 2, REFUSED)] {
            let forward = fork_prepared(cipher, &key, &[1; 16], &[2; 16], want);
            let told = (forward.number, forward.half0, forward.half1, forward.rounds);
            assert_eq!(told, (number, [0; 16], [0; 16], 0));
        }
    }
}
