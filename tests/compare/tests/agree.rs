//! The library, through its C entry points, by key and with a prepared key, and
//! the meter, which tells rounds too, against the second program: every number,
//! every byte of both result blocks, and the rounds.

use compare::calls::{fork, unfork, DONE};
use compare::random::Random;
use compare::{auraski, meter, prepared};
use std::collections::BTreeMap;

type Block = [u8; 16];

/// Known and unknown numbers of each argument.
const CIPHERS: [u32; 6] = [0, 1, 2, 3, 7, u32::MAX];
const FROMS: [u32; 5] = [0, 1, 2, 7, u32::MAX];
const WANTS: [u32; 6] = [0, 1, 2, 3, 7, u32::MAX];

const TIMES_EACH: usize = 500;
const LEAST_CALLS: usize = 20_000;

#[derive(Clone, Copy, PartialEq, Eq, PartialOrd, Ord, Debug)]
enum Kind {
    Forward { cipher: u32, want: u32 },
    Back { cipher: u32, from: u32, want: u32 },
}

impl Kind {
    fn is_known(self) -> bool {
        match self {
            Kind::Forward { cipher, want } => (1..=2).contains(&cipher) && want <= 2,
            Kind::Back { cipher, from, want } => {
                (1..=2).contains(&cipher) && from <= 1 && want <= 2
            }
        }
    }
}

fn every_kind() -> Vec<Kind> {
    let mut kinds = Vec::new();
    for cipher in CIPHERS {
        for want in WANTS {
            kinds.push(Kind::Forward { cipher, want });
            kinds.extend(FROMS.map(|from| Kind::Back { cipher, from, want }));
        }
    }
    kinds
}

/// The key, prepared by the library for a cipher that may be unknown.
fn prepare(cipher: u32, key: &Block) -> auraski::Prepared {
    let (number, prepared) = auraski::prepare(cipher, key);
    assert_eq!(number, prepared::prepare(cipher, key).0);
    prepared
}

/// Compares one call of all three, and gives its result blocks. Those of library
/// and meter are filled before it, the one with a byte and the other with that
/// byte's complement.
fn compare(kind: Kind, [key, tweak, block]: &[Block; 3], filling: u8) -> [Block; 2] {
    let before = [[filling; 16], [!filling; 16]];
    let (mut by_key, mut with_prepared) = (before, before);
    let [room, other_room] = [&mut by_key, &mut with_prepared].map(|[a, b]| [a, b]);
    let (numbers, expected) = match kind {
        Kind::Forward { cipher, want } => {
            let prepared = &prepare(cipher, key);
            let answer = fork(cipher, key, tweak, block, want);
            let metered = meter::fork(cipher, key, tweak, block, want, before);
            assert_eq!(metered, answer, "{:?}", kind);
            let numbers = [
                auraski::fork(cipher, key, tweak, block, want, room),
                auraski::fork_prepared(cipher, prepared, tweak, block, want, other_room),
            ];
            (numbers, (answer.number, [answer.half0, answer.half1]))
        }
        Kind::Back { cipher, from, want } => {
            let prepared = &prepare(cipher, key);
            let answer = unfork(cipher, key, tweak, block, from, want);
            let metered = meter::unfork(cipher, key, tweak, block, from, want, before);
            assert_eq!(metered, answer, "{:?}", kind);
            let numbers = [
                auraski::unfork(cipher, key, tweak, block, from, want, room),
                auraski::unfork_prepared(cipher, prepared, tweak, block, from, want, other_room),
            ];
            (numbers, (answer.number, [answer.input, answer.other]))
        }
    };
    assert_eq!((numbers[0], by_key), expected, "{:?}", kind);
    assert_eq!(
        (numbers[1], with_prepared),
        expected,
        "{:?}, prepared",
        kind
    );
    by_key
}

#[test]
fn random_calls_agree() {
    let mut random = Random::new(2024);
    let mut seen: BTreeMap<Kind, usize> = BTreeMap::new();
    for kind in every_kind() {
        for _ in 0..TIMES_EACH {
            let inputs = [random.block(), random.block(), random.block()];
            compare(kind, &inputs, random.number() as u8);
            *seen.entry(kind).or_insert(0) += 1;
        }
    }
    let calls: usize = seen.values().sum();
    let known: usize = seen
        .iter()
        .filter(|(kind, _)| kind.is_known())
        .map(|(_, n)| n)
        .sum();
    println!(
        "{} random calls agree, {} of them with known numbers",
        calls, known
    );
    assert!(calls >= LEAST_CALLS);
    assert_eq!(seen.keys().filter(|kind| kind.is_known()).count(), 18);
    assert!(every_kind()
        .iter()
        .all(|kind| seen.get(kind) >= Some(&TIMES_EACH)));
}

/// The known kinds only, on further random inputs: these run the ciphers.
#[test]
fn random_calls_with_known_numbers_agree() {
    let mut random = Random::new(2025);
    let mut calls = 0;
    for kind in every_kind().into_iter().filter(|kind| kind.is_known()) {
        for _ in 0..2 * TIMES_EACH {
            let inputs = [random.block(), random.block(), random.block()];
            compare(kind, &inputs, random.number() as u8);
            calls += 1;
        }
    }
    println!("{} random calls with known numbers agree", calls);
}

/// All zero, all ones, and every mixture of the two over key, tweak, block.
#[test]
fn plain_inputs_agree() {
    for kind in every_kind() {
        for mixture in 0..8u32 {
            let inputs =
                [0, 1, 2].map(|place| [0u8.wrapping_sub((mixture >> place & 1) as u8); 16]);
            compare(kind, &inputs, 0xa5);
        }
    }
}

/// A single one among zeros, and a single zero among ones, at every bit of
/// key, tweak and block.
#[test]
fn single_bits_agree() {
    for kind in every_kind().into_iter().filter(|kind| kind.is_known()) {
        for bit in 0..3 * 128 {
            for background in [0x00, 0xff] {
                let mut inputs = [[background; 16]; 3];
                inputs[bit / 128][bit % 128 / 8] ^= 0x80 >> (bit % 8);
                compare(kind, &inputs, 0x5a);
            }
        }
    }
}

/// What the library makes forward, the second program takes back.
#[test]
fn each_undoes_the_other() {
    let mut random = Random::new(2026);
    for cipher in 1..=2 {
        for from in 0..2 {
            let inputs = [random.block(), random.block(), random.block()];
            let halves = compare(Kind::Forward { cipher, want: 2 }, &inputs, 0xc3);
            let [key, tweak, block] = &inputs;
            let back = unfork(cipher, key, tweak, &halves[from], from as u32, 2);
            let counted = if cipher == 1 { 8 } else { 16 };
            assert_eq!(back.number, DONE);
            assert_eq!(back.input[..counted], block[..counted]);
            assert_eq!(back.other, halves[1 - from]);
        }
    }
}
