//! Document 01's table of answers with the refusals of C-11 and C-14, row by
//! row, and the view call.

use crate::{refused, row_of, size_of, unused_room, Case, LIMITS, SCHEMES};
use compare::random::Random;
use compare::sealing::{
    view, Answer, BODY_TOO_LONG, DONE, HEADER_TOO_LONG, NOTHING, NOT_AUTHENTIC, NO_BLOCK,
    SHORT_ROOM, UNKNOWN_SCHEME, WRONG_KEY_LENGTH, WRONG_NONCE_LENGTH,
};

/// Refused with this number by both directions, and the room as it was. The
/// run is not authentic, which must not matter.
fn assert_refused(case: &Case, body: &[u8], run: &[u8], number: u32) {
    let room = unused_room(body.len().max(run.len()) + 16);
    let mut after = room.clone();
    assert_eq!(case.seal_into(body, &mut after), refused(number));
    assert_eq!(after, room);
    assert_eq!(case.open_into(run, &mut after), refused(number));
    assert_eq!(after, room);
}

fn good_case(scheme: u32) -> Case {
    Case::random(&mut Random::new(61), scheme, 20)
}

/// A body, and a run, one byte above the limit of the body.
fn longer_texts(scheme: u32, limit: usize) -> (Vec<u8>, Vec<u8>) {
    let body = vec![5; limit + 1];
    let run = vec![6; limit + size_of(scheme) + 1];
    (body, run)
}

#[test]
fn the_numbers_are_those_of_the_table() {
    assert_eq!((DONE, UNKNOWN_SCHEME), (0, 1));
    assert_eq!((WRONG_KEY_LENGTH, WRONG_NONCE_LENGTH), (2, 7));
    assert_eq!((HEADER_TOO_LONG, BODY_TOO_LONG), (3, 8));
    assert_eq!((NO_BLOCK, SHORT_ROOM, NOT_AUTHENTIC), (4, 5, 6));
    assert_eq!(NOTHING, 10);
}

#[test]
fn unknown_schemes_are_1() {
    for scheme in [0, 8, 9, 256, u32::MAX] {
        let case = Case {
            scheme,
            ..good_case(2)
        };
        assert_refused(&case, &[1; 40], &[2; 40], UNKNOWN_SCHEME);
    }
}

#[test]
fn wrong_key_lengths_are_2() {
    for scheme in SCHEMES {
        let mut case = good_case(scheme);
        for length in [0, 1, 15, 17, 32] {
            case.key = vec![3; length];
            assert_refused(&case, &[1; 40], &[2; 40], WRONG_KEY_LENGTH);
        }
    }
}

#[test]
fn wrong_nonce_lengths_are_7() {
    for scheme in SCHEMES {
        let mut case = good_case(scheme);
        for length in (0..=17).filter(|length| *length != row_of(scheme).nonce_bytes) {
            case.nonce = vec![4; length];
            assert_refused(&case, &[1; 40], &[2; 40], WRONG_NONCE_LENGTH);
        }
    }
}

/// First a key and a nonce that stand in each other's place.
#[test]
fn a_key_and_a_nonce_of_wrong_lengths_are_2() {
    for scheme in SCHEMES {
        let mut case = good_case(scheme);
        std::mem::swap(&mut case.key, &mut case.nonce);
        assert_refused(&case, &[1; 40], &[2; 40], WRONG_KEY_LENGTH);
        case.key.clear();
        case.nonce.clear();
        assert_refused(&case, &[1; 40], &[2; 40], WRONG_KEY_LENGTH);
    }
}

#[test]
fn a_header_one_byte_above_the_limit_is_3() {
    for (scheme, header, body) in LIMITS {
        let case = good_case(scheme).under(&vec![5; header + 1]);
        assert_refused(&case, &[1; 40], &[2; 40], HEADER_TOO_LONG);
        // A body that is too long, or a run that is too short, comes later.
        let (body, run) = longer_texts(scheme, body);
        assert_refused(&case, &body, &run, HEADER_TOO_LONG);
        assert_refused(&case, &[], &[], HEADER_TOO_LONG);
    }
}

#[test]
fn a_body_one_byte_above_the_limit_is_8() {
    for (scheme, _, body) in LIMITS {
        let case = good_case(scheme);
        let (body, run) = longer_texts(scheme, body);
        assert_refused(&case, &body, &run, BODY_TOO_LONG);
        case.assert_not_authentic(&run[1..]);
    }
}

#[test]
fn runs_shorter_than_a_block_are_4() {
    for scheme in SCHEMES {
        let case = good_case(scheme);
        for length in 0..size_of(scheme) {
            let room = unused_room(30);
            let mut after = room.clone();
            let answer = case.open_into(&vec![7; length], &mut after);
            assert_eq!(answer, refused(NO_BLOCK));
            assert_eq!(after, room);
        }
        case.assert_not_authentic(&vec![7; size_of(scheme)]);
    }
}

#[test]
fn rooms_one_byte_short_are_5_and_exact_ones_enough() {
    for scheme in SCHEMES {
        let case = good_case(scheme);
        for body in [&[][..], &[1], &[2; 8], &[3; 16], &[4; 50]] {
            let run = case.sealed(body);
            let room = unused_room(run.len());
            let mut after = room.clone();
            let answer = case.seal_into(body, &mut after[1..]);
            assert_eq!(answer, refused(SHORT_ROOM));
            assert_eq!(after, room);
            let answer = case.seal_into(body, &mut after);
            let length = run.len();
            assert_eq!((answer.number, answer.length), (DONE, length));
            assert_eq!(after, run);

            let mut exact = unused_room(body.len());
            let answer = case.open_into(&run, &mut exact);
            assert_eq!((answer.number, answer.length), (DONE, body.len()));
            assert_eq!(exact, body);
            if !body.is_empty() {
                let mut short = unused_room(body.len() - 1);
                let answer = case.open_into(&run, &mut short);
                assert_eq!(answer, refused(SHORT_ROOM));
                assert_eq!(short, unused_room(body.len() - 1));
            }
        }
    }
}

/// Whatever the block of the run holds. A room without a byte is enough for an
/// open, and a room too short for the block of a seal is told before.
#[test]
fn an_empty_header_over_an_empty_body_is_10_from_scheme_4_on() {
    for scheme in [4, 5, 6, 7] {
        let case = good_case(scheme).under(&[]);
        let size = size_of(scheme);
        for run in [
            vec![0; size],
            vec![0x80; size],
            case.sealed(&[1])[1..].to_vec(),
        ] {
            assert_refused(&case, &[], &run, NOTHING);
            assert_eq!(case.open_into(&run, &mut []), refused(NOTHING));
            assert_eq!(case.open_into(&run[1..], &mut []), refused(NO_BLOCK));
        }
        let mut short = unused_room(size - 1);
        assert_eq!(case.seal_into(&[], &mut short), refused(SHORT_ROOM));
        assert_eq!(short, unused_room(size - 1));
        // Neither is refused where the other has a byte.
        assert_eq!(case.opened(&case.sealed(&[1])), (DONE, vec![1]));
        let under_one = case.under(&[1]);
        assert_eq!(under_one.opened(&under_one.sealed(&[])), (DONE, vec![]));
    }
}

/// As many zeros as a body would have taken, none for an empty one.
#[test]
fn a_run_that_is_not_authentic_is_6_and_leaves_zeros() {
    for scheme in SCHEMES {
        let case = good_case(scheme);
        for body_length in [0, 1, size_of(scheme), 37] {
            let mut run = case.sealed(&vec![8; body_length]);
            run[0] ^= 1;
            let mut room = unused_room(100);
            let answer = case.open_into(&run, &mut room);
            let expected = Answer {
                rounds: case.rounds(body_length),
                ..refused(NOT_AUTHENTIC)
            };
            assert_eq!(answer, expected);
            assert_eq!(room[..body_length], vec![0; body_length]);
            assert_eq!(room[body_length..], unused_room(100)[body_length..]);
        }
    }
}

/// Every fault at once, and then one taken away after the other, the first of
/// the table first.
#[test]
fn the_first_that_applies_answers() {
    for (scheme, _, longest) in LIMITS {
        let good = good_case(scheme);
        // A body is never the shorter of the two.
        let too_long = vec![1; longest + size_of(scheme) + 1];
        let mut case = Case {
            scheme: 8,
            key: vec![1; 15],
            nonce: vec![1; 16],
            header: too_long.clone(),
        };
        let answers = |case: &Case| {
            [
                case.seal_into(&too_long, &mut []).number,
                case.open_into(&too_long, &mut []).number,
                case.open_into(&[], &mut []).number,
            ]
        };
        assert_eq!(answers(&case), [UNKNOWN_SCHEME; 3]);
        case.scheme = scheme;
        assert_eq!(answers(&case), [WRONG_KEY_LENGTH; 3]);
        case.key = good.key;
        assert_eq!(answers(&case), [WRONG_NONCE_LENGTH; 3]);
        case.nonce = good.nonce;
        assert_eq!(answers(&case), [HEADER_TOO_LONG; 3]);
        case.header = good.header;
        assert_eq!(answers(&case), [BODY_TOO_LONG, BODY_TOO_LONG, NO_BLOCK]);
        assert_eq!(case.seal_into(&[1; 40], &mut []).number, SHORT_ROOM);
        assert_eq!(case.open_into(&[1; 40], &mut []).number, SHORT_ROOM);
        assert_eq!(case.opened(&[1; 40]).0, NOT_AUTHENTIC);
        assert_eq!(case.opened(&case.sealed(&[1; 40])).0, DONE);
    }
}

#[test]
fn view_is_the_front_part_after_0_alone() {
    let room = unused_room(10);
    for length in 0..=10 {
        assert_eq!(view(DONE, length, &room), &room[..length]);
    }
    for length in [11, 12, usize::MAX] {
        assert!(view(DONE, length, &room).is_empty());
    }
    for number in (1..=10).chain([u32::MAX]) {
        assert!(view(number, 4, &room).is_empty());
        assert!(view(number, 10, &room).is_empty());
    }
    assert!(view(DONE, 1, &[]).is_empty());
}
