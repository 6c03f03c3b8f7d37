//! What is printed somewhere: SKINNY's vectors, 001's constants and tables,
//! and the small facts P1 to P8 of document 01.

use compare::cells::{
    step_word2, step_word3, Width, BYTE_SBOX, BYTE_SBOX_BACK, NIBBLE_SBOX, NIBBLE_SBOX_BACK,
};
use compare::forkskinny::{BRANCH_BYTES, BRANCH_NIBBLES, ROUND_NUMBERS};
use compare::rounds::{add_constants, mix_columns, RoundConstant};
use compare::skinny::{encipher, Skinny};

fn bytes_of(hex: &str) -> Vec<u8> {
    let pairs = hex.as_bytes().chunks(2);
    pairs
        .map(|pair| u8::from_str_radix(std::str::from_utf8(pair).unwrap(), 16).unwrap())
        .collect()
}

fn check_skinny(skinny: Skinny, tweakey: &str, plain: &str, expected: &str) {
    let expected = bytes_of(expected);
    let answer = encipher(&skinny, &bytes_of(tweakey), &bytes_of(plain));
    assert_eq!(answer[..expected.len()], expected[..]);
    assert!(answer[expected.len()..].iter().all(|byte| *byte == 0));
}

#[test]
fn skinny_64_64() {
    check_skinny(
        Skinny {
            width: Width::Nibble,
            words: 1,
            rounds: 32,
        },
        "f5269826fc681238",
        "06034f957724d19d",
        "bb39dfb2429b8ac7",
    );
}

#[test]
fn skinny_64_128() {
    check_skinny(
        Skinny {
            width: Width::Nibble,
            words: 2,
            rounds: 36,
        },
        "9eb93640d088da6376a39d1c8bea71e1",
        "cf16cfe8fd0f98aa",
        "6ceda1f43de92b9e",
    );
}

#[test]
fn skinny_64_192() {
    check_skinny(
        Skinny {
            width: Width::Nibble,
            words: 3,
            rounds: 40,
        },
        "ed00c85b120d68618753e24bfd908f60b2dbb41b422dfcd0",
        "530c61d35e8663c3",
        "dd2cf1a8f330303c",
    );
}

#[test]
fn skinny_128_128() {
    check_skinny(
        Skinny {
            width: Width::Byte,
            words: 1,
            rounds: 40,
        },
        "4f55cfb0520cac52fd92c15f37073e93",
        "f20adb0eb08b648a3b2eeed1f0adda14",
        "22ff30d498ea62d7e45b476e33675b74",
    );
}

#[test]
fn skinny_128_256() {
    check_skinny(
        Skinny {
            width: Width::Byte,
            words: 2,
            rounds: 48,
        },
        "009cec81605d4ac1d2ae9e3085d7a1f31ac123ebfc00fddcf01046ceeddfcab3",
        "3a0c47767a26a68dd382a695e7022e25",
        "b731d98a4bde147a7ed4a6f16b9b587f",
    );
}

#[test]
fn skinny_128_384() {
    check_skinny(
        Skinny {
            width: Width::Byte,
            words: 3,
            rounds: 56,
        },
        "df889548cfc7ea52d296339301797449ab588a34a47f1ab2dfe9c8293fbea9a5\
         ab1afac2611012cd8cef952618c3ebe8",
        "a3994b66ad85a3459f44e92b08f550cb",
        "94ecf589e2017c601b38c6346a10dcfa",
    );
}

#[test]
fn round_constants_are_table_2_of_001() {
    let printed = "0103070F1F3F7E7D7B776F5F3E7C7973\
                   674F1E3D7A756B572E5C38706143060D\
                   1B376E5D3A746953264C183162450A15\
                   2B562C5830604102050B172F5E3C7871\
                   63470E1D3B766D5B366C593264491225\
                   4A142952244810";
    assert_eq!(ROUND_NUMBERS[..], bytes_of(printed)[..]);
}

/// Document 01, "Constants": all four bits of the low part and all three of
/// the high part, the 2 of every round, and ForkSkinny's extra 2.
#[test]
fn constants_go_where_the_documents_say() {
    let mut cells = [0; 16];
    add_constants(
        &mut cells,
        RoundConstant {
            number: 0x5a,
            extra: 2,
        },
    );
    assert_eq!(cells, [0xa, 0, 2, 0, 5, 0, 0, 0, 2, 0, 0, 0, 0, 0, 0, 0]);
}

#[test]
fn branch_constants_are_those_printed_in_001() {
    let nibbles = [1, 2, 4, 9, 3, 6, 0xd, 0xa, 5, 0xb, 7, 0xf, 0xe, 0xc, 8, 1];
    assert_eq!(BRANCH_NIBBLES, nibbles);
    assert_eq!(
        BRANCH_BYTES[..],
        bytes_of("0102040810204182050a142851a24488")[..]
    );
}

/// Document 01, "Cells": the bit rule of the 8-bit S-box.
fn bit_rule(cell: u8) -> u8 {
    let mut bits = cell;
    for turn in 0..4 {
        if bits & 0xc0 == 0 {
            bits ^= 0x10;
        }
        if bits & 0x0c == 0 {
            bits ^= 0x01;
        }
        let sources = if turn < 3 {
            [2, 1, 7, 6, 4, 0, 3, 5]
        } else {
            [7, 6, 5, 4, 3, 1, 2, 0]
        };
        bits = sources
            .iter()
            .fold(0, |moved, source| (moved << 1) | ((bits >> source) & 1));
    }
    bits
}

#[test]
fn printed_byte_table_follows_the_bit_rule() {
    for cell in 0..=255u8 {
        assert_eq!(
            BYTE_SBOX[cell as usize],
            bit_rule(cell),
            "cell {:02x}",
            cell
        );
    }
}

#[test]
fn printed_nibble_table_is_document_01_s() {
    let listed = [0xc, 6, 9, 0, 1, 0xa, 2, 0xb, 3, 8, 5, 0xd, 4, 0xe, 7, 0xf];
    assert_eq!(NIBBLE_SBOX, listed);
}

#[test]
fn backward_tables_undo_the_forward_ones() {
    for cell in 0..=255usize {
        assert_eq!(BYTE_SBOX_BACK[BYTE_SBOX[cell] as usize] as usize, cell);
        assert_eq!(BYTE_SBOX[BYTE_SBOX_BACK[cell] as usize] as usize, cell);
    }
    for cell in 0..16usize {
        assert_eq!(NIBBLE_SBOX_BACK[NIBBLE_SBOX[cell] as usize] as usize, cell);
        assert_eq!(NIBBLE_SBOX[NIBBLE_SBOX_BACK[cell] as usize] as usize, cell);
    }
}

/// By 001's table 3 the steps of words 2 and 3 undo each other, in both
/// widths; so both are permutations.
#[test]
fn steps_of_words_2_and_3_undo_each_other() {
    for (width, last) in [(Width::Nibble, 15u8), (Width::Byte, 255)] {
        for cell in 0..=last {
            assert!(step_word2(width, cell) <= last && step_word3(width, cell) <= last);
            assert_eq!(step_word3(width, step_word2(width, cell)), cell);
            assert_eq!(step_word2(width, step_word3(width, cell)), cell);
        }
    }
}

#[test]
fn small_facts_p1_to_p8() {
    assert_eq!(BYTE_SBOX[0x00], 0x65, "P1");
    assert_eq!(BYTE_SBOX[0x01], 0x4c, "P2");
    assert_eq!(BYTE_SBOX[0xff], 0xff, "P3");
    assert_eq!(BYTE_SBOX_BACK[0x65], 0x00, "P4");
    assert_eq!((NIBBLE_SBOX[0], NIBBLE_SBOX[0xf]), (0xc, 0xf), "P5");
    assert_eq!(ROUND_NUMBERS[..8], bytes_of("0103070f1f3f7e7d")[..], "P6");
    assert_eq!(step_word2(Width::Byte, 0x82), 0x05, "P7");
    let mut cells = [1, 1, 1, 1, 2, 2, 2, 2, 4, 4, 4, 4, 8, 8, 8, 8];
    mix_columns(&mut cells);
    assert_eq!(
        cells,
        [0xd, 0xd, 0xd, 0xd, 1, 1, 1, 1, 6, 6, 6, 6, 5, 5, 5, 5],
        "P8"
    );
}
