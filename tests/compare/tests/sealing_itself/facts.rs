//! Document 01's small facts P9 to P12, its table of schemes with those of C-14,
//! and the ends of their tweaks.

use crate::{row_of, size_of, Case, LIMITS, SCHEMES};
use compare::blocks::{is_padding, pad10, split_last, split_sealed};
use compare::eevee::{self, body_tweak, header_tweak};
use compare::paef::{self, make_tweak};
use compare::random::Random;
use compare::saef::{self, Tweaks};
use compare::schemes::{numbers, Mode, Scheme};
use std::collections::BTreeSet;

#[test]
fn p9_paef_flag_101_number_2() {
    let flag = paef::last_body_flag(true);
    assert_eq!(flag, 0b101);
    assert_eq!(make_tweak(&[7; 14], flag, 2)[14..], [0xa0, 0x02]);
    assert_eq!(make_tweak(&[7; 6], flag, 2)[6..8], [0xa0, 0x02]);
}

/// The largest number, 8,191, fills its thirteen bits and leaves the flag's
/// three alone.
#[test]
fn paef_numbers_have_thirteen_bits() {
    let end = |flag, number| make_tweak(&[7; 14], flag, number)[14..].to_vec();
    assert_eq!(end(paef::HEADER, 8191), [0x1f, 0xff]);
    assert_eq!(end(paef::HEADER, 4096), [0x10, 0x00]);
    assert_eq!(end(paef::BODY, 8190), [0x9f, 0xfe]);
    assert_eq!(end(paef::last_body_flag(true), 8191), [0xbf, 0xff]);
    assert_eq!(end(paef::last_body_flag(false), 8191), [0xff, 0xff]);
}

/// Fourteen bits and 00, or fifteen and 1.
#[test]
fn eevee_numbers_have_fourteen_and_fifteen_bits() {
    let header = |number| header_tweak(&[7; 14], number)[14..].to_vec();
    assert_eq!(header(5), [0x00, 0x14]);
    assert_eq!(header(16_383), [0xff, 0xfc]);
    let last = |full, body_is_empty| header(eevee::last_header_number(full, body_is_empty));
    assert_eq!([last(false, false), last(false, true)], [[0, 0], [0, 4]]);
    assert_eq!([last(true, false), last(true, true)], [[0, 8], [0, 12]]);
    let body = |number| body_tweak(&[7; 6], number)[6..8].to_vec();
    assert_eq!(body(2), [0x00, 0x05]);
    assert_eq!(body(32_767), [0xff, 0xff]);
    let last = |full| body(eevee::last_body_number(full));
    assert_eq!([last(false), last(true)], [[0, 1], [0, 3]]);
}

/// Of the longest header, 16,380 blocks, over the longest body, 32,767, each with
/// a short and with a full last block.
#[test]
fn no_two_blocks_of_a_record_have_one_tweak() {
    let last_headers = [false, true].map(|full| eevee::last_header_number(full, false));
    let last_bodies = [false, true].map(eevee::last_body_number);
    let headers = last_headers.into_iter().chain(5..5 + 16_379);
    let bodies = last_bodies.into_iter().chain(2..2 + 32_766);
    let mut seen: BTreeSet<_> = headers
        .map(|number| header_tweak(&[7; 6], number))
        .collect();
    seen.extend(bodies.map(|number| body_tweak(&[7; 6], number)));
    assert_eq!(seen.len(), 2 + 16_379 + 2 + 32_766);
}

#[test]
fn p10_saef_first_tweak_of_nothing_ends_in_0f() {
    let mut tweaks = Tweaks::new(&[7; 15]);
    let first = tweaks.take(saef::last_header_flag(false, true));
    assert_eq!(first[..15], [7; 15]);
    assert_eq!(first[15], 0x0f);
}

#[test]
fn p11_padding_of_three_bytes() {
    let padded = pad10(&[0xaa, 0xbb, 0xcc], 8);
    assert_eq!(padded[..8], [0xaa, 0xbb, 0xcc, 0x80, 0, 0, 0, 0]);
    assert_eq!(padded[8..], [0; 8]);
}

#[test]
fn p12_two_headers_pad_alike_and_have_other_tweaks() {
    let short = [9; 15];
    let full = [&short[..], &[0x80]].concat();
    assert_eq!(pad10(&short, 16), pad10(&full, 16));
    let end = |full| make_tweak(&[7; 14], paef::last_header_flag(full), 1);
    assert_eq!(end(false)[14..], [0x60, 0x01]);
    assert_eq!(end(true)[14..], [0x20, 0x01]);
}

/// The same two headers through the calls, with and without a body: the runs
/// differ, and each is refused under the other header.
#[test]
fn the_two_headers_of_p12_are_kept_apart() {
    let mut random = Random::new(31);
    for scheme in SCHEMES {
        for body_length in [0, 1, size_of(scheme), 3 * size_of(scheme) + 2] {
            let short = Case::random(&mut random, scheme, size_of(scheme) - 1);
            let full = short.under(&[&short.header[..], &[0x80]].concat());
            let body = random.bytes(body_length);
            let (short_run, full_run) = (short.sealed(&body), full.sealed(&body));
            assert_ne!(short_run, full_run);
            assert_eq!(short.opened(&short_run), (0, body.clone()));
            assert_eq!(full.opened(&full_run), (0, body));
            short.assert_not_authentic(&full_run);
            full.assert_not_authentic(&short_run);
        }
    }
}

/// And the limits are those of document 01, C-12 and C-14.
#[test]
fn schemes_are_those_of_the_table() {
    let row = |cipher, mode, block_bytes, nonce_bytes| Scheme {
        cipher,
        mode,
        block_bytes,
        nonce_bytes,
    };
    assert_eq!(*row_of(1), row(1, Mode::Paef, 8, 6));
    assert_eq!(*row_of(2), row(2, Mode::Paef, 16, 14));
    assert_eq!(*row_of(3), row(2, Mode::Saef, 16, 15));
    assert_eq!(*row_of(4), row(1, Mode::Umbreon, 8, 6));
    assert_eq!(*row_of(5), row(1, Mode::Jolteon, 8, 6));
    assert_eq!(*row_of(6), row(2, Mode::Umbreon, 16, 14));
    assert_eq!(*row_of(7), row(2, Mode::Jolteon, 16, 14));
    assert_eq!(numbers().collect::<Vec<_>>(), SCHEMES);
    for (scheme, header, body) in LIMITS {
        let row = row_of(scheme);
        assert_eq!(
            (row.most_header_bytes(), row.most_body_bytes()),
            (header, body)
        );
    }
}

/// 001, section 2: a multiple of the block ends in a full block, and a sealed
/// run's tag is as long as the body's last block.
#[test]
fn runs_are_cut_as_section_2_says() {
    let run: Vec<u8> = (0..40).collect();
    for (length, whole, last) in [(0, 0, 0), (1, 0, 1), (8, 0, 8), (9, 8, 1), (16, 8, 8)] {
        let parts = split_last(&run[..length], 8);
        assert_eq!(parts, (&run[..whole], &run[whole..whole + last]));
        let parts = split_sealed(&run[..length + 8], 8);
        let end = whole + 8;
        assert_eq!(
            parts,
            (&run[..whole], &run[whole..end], &run[end..end + last])
        );
    }
}

#[test]
fn only_a_1_bit_and_zeros_are_padding() {
    assert!(is_padding(&[]) && is_padding(&[0x80]) && is_padding(&[0x80, 0, 0]));
    for wrong in [[0, 0, 0], [0x81, 0, 0], [0x80, 1, 0], [0x80, 0, 0x80]] {
        assert!(!is_padding(&wrong));
    }
}
