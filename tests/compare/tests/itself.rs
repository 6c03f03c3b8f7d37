//! The second program against itself, on random inputs: 001, section 3.1, the
//! four correctness conditions, what document 01 says of the block calls and
//! what C-13 says of their rounds.

use compare::calls::{fork, unfork, Fork, Unfork, DONE, REFUSED};
use compare::cells::{load, store, Cells, Width};
use compare::forkskinny::{BRANCH_BYTES, BRANCH_NIBBLES, ROUND_NUMBERS};
use compare::random::Random;
use compare::rounds::{round, RoundConstant};
use compare::tweakey::{round_keys, MOST_ROUNDS};

type Block = [u8; 16];
const ZERO: Block = [0; 16];
const TRIALS: usize = 400;
const CIPHERS: [u32; 2] = [1, 2];

/// How many bytes of tweak and block count.
fn counted(cipher: u32) -> usize {
    if cipher == 1 {
        8
    } else {
        16
    }
}

/// The part of a block that counts, the rest zero.
fn counted_part(cipher: u32, block: &Block) -> Block {
    let mut part = ZERO;
    part[..counted(cipher)].copy_from_slice(&block[..counted(cipher)]);
    part
}

/// C-13's figures: the rounds of one half, of both, and of the other half alone
/// on the way back.
fn figures(cipher: u32) -> [u32; 3] {
    match cipher {
        1 => [40, 63, 46],
        _ => [48, 75, 54],
    }
}

/// Runs a check on many random (key, tweak, block) under both ciphers.
fn for_random_inputs(seed: u64, check: impl Fn(u32, &Block, &Block, &Block)) {
    let mut random = Random::new(seed);
    for cipher in CIPHERS {
        for _ in 0..TRIALS {
            check(cipher, &random.block(), &random.block(), &random.block());
        }
    }
}

/// One cipher as figure 4 of 001 needs it: width, words, r_init, r_0 = r_1 and
/// the branch constant.
fn parameters(cipher: u32) -> (Width, usize, usize, usize, Cells) {
    match cipher {
        1 => (Width::Nibble, 3, 17, 23, BRANCH_NIBBLES),
        _ => (Width::Byte, 2, 21, 27, BRANCH_BYTES),
    }
}

/// 001, figure 4, encryption, line by line, over the whole schedule: the near
/// rounds go straight on, the far ones start r_0 later with BC added. Counted
/// here too, the rounds are as many.
#[test]
fn halves_are_those_of_figure_4() {
    for_random_inputs(8, |cipher, key, tweak, block| {
        let (width, words, init, branch, constant) = parameters(cipher);
        let keys = round_keys(width, words, &[*key, *tweak].concat(), MOST_ROUNDS);
        let mut counted = 0;
        let mut run = |cells: &mut Cells, rounds: std::ops::Range<usize>| {
            for place in rounds {
                counted += 1;
                let constant = RoundConstant {
                    number: ROUND_NUMBERS[place],
                    extra: 2,
                };
                round(cells, width, constant, &keys[place]);
            }
        };
        let mut near = load(width, block);
        run(&mut near, 0..init);
        let mut far = near;
        far.iter_mut()
            .zip(constant)
            .for_each(|(cell, added)| *cell ^= added);
        run(&mut near, init..init + branch);
        run(&mut far, init + branch..init + 2 * branch);
        let (half0, half1) = (store(width, &near), store(width, &far));
        assert_eq!(
            fork(cipher, key, tweak, block, 2),
            Fork {
                number: DONE,
                half0,
                half1,
                rounds: counted,
            }
        );
    });
}

#[test]
fn back_from_each_half_gives_the_input_and_the_other_half() {
    for_random_inputs(3, |cipher, key, tweak, block| {
        let both = fork(cipher, key, tweak, block, 2);
        let halves = [both.half0, both.half1];
        for from in 0..2 {
            let answer = unfork(cipher, key, tweak, &halves[from], from as u32, 2);
            assert_eq!(answer.number, DONE);
            assert_eq!(answer.input, counted_part(cipher, block));
            assert_eq!(answer.other, halves[1 - from]);
        }
    });
}

#[test]
fn one_half_is_that_half_of_both() {
    for_random_inputs(4, |cipher, key, tweak, block| {
        let [rounds, both_rounds, _] = figures(cipher);
        let both = fork(cipher, key, tweak, block, 2);
        assert_eq!(both.rounds, both_rounds);
        assert_eq!(
            fork(cipher, key, tweak, block, 0),
            Fork {
                half1: ZERO,
                rounds,
                ..both
            }
        );
        assert_eq!(
            fork(cipher, key, tweak, block, 1),
            Fork {
                half0: ZERO,
                rounds,
                ..both
            }
        );
        assert_ne!(both.half0, both.half1);
    });
}

#[test]
fn one_result_back_is_that_of_both() {
    for_random_inputs(9, |cipher, key, tweak, block| {
        let [input_rounds, both_rounds, other_rounds] = figures(cipher);
        for from in 0..2 {
            let both = unfork(cipher, key, tweak, block, from, 2);
            assert_eq!(both.rounds, both_rounds);
            assert_eq!(
                unfork(cipher, key, tweak, block, from, 0),
                Unfork {
                    other: ZERO,
                    rounds: input_rounds,
                    ..both
                }
            );
            assert_eq!(
                unfork(cipher, key, tweak, block, from, 1),
                Unfork {
                    input: ZERO,
                    rounds: other_rounds,
                    ..both
                }
            );
        }
    });
}

#[test]
fn every_counted_bit_matters_and_no_other() {
    let mut random = Random::new(5);
    for cipher in CIPHERS {
        let inputs = [random.block(), random.block(), random.block()];
        let answer = |[key, tweak, block]: &[Block; 3]| fork(cipher, key, tweak, block, 2);
        for which in 0..3 {
            for bit in 0..128 {
                let mut changed = inputs;
                changed[which][bit / 8] ^= 1 << (bit % 8);
                let (old, new) = (answer(&inputs), answer(&changed));
                let counts = which == 0 || bit / 8 < counted(cipher);
                assert_eq!(
                    old.half0 != new.half0,
                    counts,
                    "{} {} {}",
                    cipher,
                    which,
                    bit
                );
                assert_eq!(
                    old.half1 != new.half1,
                    counts,
                    "{} {} {}",
                    cipher,
                    which,
                    bit
                );
            }
        }
    }
}

/// Key and tweak changed over give another answer. Under 64-192 the key is
/// twice as long as the tweak, so there its two words are changed over too.
#[test]
fn key_comes_before_tweak() {
    for_random_inputs(6, |cipher, key, tweak, block| {
        let both = fork(cipher, key, tweak, block, 2);
        let swapped = fork(cipher, tweak, key, block, 2);
        assert!(both.half0 != swapped.half0 && both.half1 != swapped.half1);
        let mut turned_key = *key;
        turned_key.rotate_left(8);
        let turned = fork(cipher, &turned_key, tweak, block, 2);
        assert!(both.half0 != turned.half0 && both.half1 != turned.half1);
    });
}

#[test]
fn bytes_8_to_15_are_ignored_and_zero_under_64_192() {
    for_random_inputs(7, |_, key, tweak, block| {
        let short_tweak = counted_part(1, tweak);
        let short_block = counted_part(1, block);
        let answer = fork(1, key, tweak, block, 2);
        assert_eq!(answer, fork(1, key, &short_tweak, &short_block, 2));
        assert_eq!(
            (&answer.half0[8..], &answer.half1[8..]),
            (&ZERO[8..], &ZERO[8..])
        );
        for from in 0..2 {
            let answer = unfork(1, key, tweak, block, from, 2);
            assert_eq!(answer, unfork(1, key, &short_tweak, &short_block, from, 2));
            assert_eq!(
                (&answer.input[8..], &answer.other[8..]),
                (&ZERO[8..], &ZERO[8..])
            );
        }
    });
}

#[test]
fn unknown_numbers_are_refused_with_zeros() {
    let (key, tweak, block) = ([1; 16], [2; 16], [3; 16]);
    let refused = Fork {
        number: REFUSED,
        half0: ZERO,
        half1: ZERO,
        rounds: 0,
    };
    for (cipher, want) in [(0, 0), (3, 0), (u32::MAX, 2), (1, 3), (2, u32::MAX), (9, 9)] {
        assert_eq!(fork(cipher, &key, &tweak, &block, want), refused);
    }
    let refused = Unfork {
        number: REFUSED,
        input: ZERO,
        other: ZERO,
        rounds: 0,
    };
    let unknown = [
        (0, 0, 0),
        (3, 1, 2),
        (u32::MAX, 0, 1),
        (1, 2, 0),
        (2, u32::MAX, 0),
        (1, 0, 3),
        (2, 1, 7),
    ];
    for (cipher, from, want) in unknown {
        assert_eq!(unfork(cipher, &key, &tweak, &block, from, want), refused);
    }
}
