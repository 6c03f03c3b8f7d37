//! What C-23 does not say: a table of changes that are not those of its statements,
//! with the pieces of the run that each moves; and examples that show why the
//! statements are worded as they are.

use crate::changes::PAEF;
use crate::{row_of, size_of, Case, SCHEMES};
use compare::blocks::{load_block, split_sealed};
use compare::changes::Piece::{self, Last, Sealed, Tag};
use compare::changes::{balanced, check_two_blocks, moved};
use compare::random::Random;
use compare::schemes::Keyed;
use std::collections::BTreeMap;

const SAEF: [u32; 1] = [3];

/// A body with the key, nonce and header that it is sealed under.
#[derive(Clone)]
struct Record {
    case: Case,
    body: Vec<u8>,
}

/// A record, or one made of it, and what that is changed into.
type Change = fn(&Record) -> [Record; 2];

/// What is changed, under which schemes, how, and the pieces in which the two runs
/// differ.
type Row = (&'static str, &'static [u32], Change, &'static [Piece]);

const TABLE: [Row; 8] = [
    ("the last block", &PAEF, last_block, &[Last, Tag]),
    ("a last byte, its tag kept", &PAEF, last_byte, &[Last]),
    (
        "blocks 1 and 3",
        &PAEF,
        two_blocks,
        &[Sealed(1), Sealed(3), Last],
    ),
    (
        "blocks 1 and 3, S kept",
        &PAEF,
        two_blocks_in_balance,
        &[Sealed(1), Sealed(3)],
    ),
    ("80 behind the header", &PAEF, header_with_80, &[Last]),
    ("the last block", &SAEF, last_block, &[Last, Tag]),
    (
        "block 2",
        &SAEF,
        block_2,
        &[Sealed(2), Sealed(3), Last, Tag],
    ),
    (
        "80 behind the header",
        &SAEF,
        header_with_80,
        &[Sealed(1), Sealed(2), Sealed(3), Last, Tag],
    ),
];

impl Record {
    /// The header lacks a byte to a block. The body has three blocks and a last one
    /// of three bytes.
    fn random(random: &mut Random, scheme: u32) -> Record {
        let size = size_of(scheme);
        Record {
            case: Case::random(random, scheme, size - 1),
            body: random.bytes(3 * size + 3),
        }
    }

    fn size(&self) -> usize {
        size_of(self.case.scheme)
    }

    fn run(&self) -> Vec<u8> {
        self.case.sealed(&self.body)
    }

    /// The same with one part changed.
    fn with(&self, change: impl FnOnce(&mut Record)) -> Record {
        let mut record = self.clone();
        change(&mut record);
        record
    }

    /// It, and the same with one part changed.
    fn beside(&self, change: impl FnOnce(&mut Record)) -> [Record; 2] {
        [self.clone(), self.with(change)]
    }
}

fn last_block(record: &Record) -> [Record; 2] {
    record.beside(|other| other.body[3 * record.size()] ^= 1)
}

/// The last block is one byte, and so is the tag: the first two values of the one
/// that have the same other.
fn last_byte(record: &Record) -> [Record; 2] {
    let mut seen = BTreeMap::new();
    for byte in 0..=255 {
        let ending = record.with(|ending| {
            ending.body.truncate(3 * record.size());
            ending.body.push(byte);
        });
        let tag = ending.run().pop();
        if let Some(earlier) = seen.insert(tag, ending.clone()) {
            return [earlier, ending];
        }
    }
    panic!("256 values have 256 tags")
}

fn block_2(record: &Record) -> [Record; 2] {
    record.beside(|other| other.body[record.size()] ^= 1)
}

fn two_blocks(record: &Record) -> [Record; 2] {
    record.beside(|other| {
        other.body[0] ^= 1;
        other.body[2 * record.size()] ^= 1;
    })
}

/// Block 1 is changed at will, and block 3 by what follows.
fn two_blocks_in_balance(record: &Record) -> [Record; 2] {
    let key = load_block(&record.case.key);
    let keyed = Keyed::new(row_of(record.case.scheme), &key, &record.case.nonce);
    let block = vec![5; record.size()];
    record.beside(|other| other.body = balanced(&keyed, &record.body, [1, 3], &block))
}

/// The accident of document 01, P12: the two headers pad alike.
fn header_with_80(record: &Record) -> [Record; 2] {
    record.beside(|other| other.case.header.push(0x80))
}

#[test]
fn the_table_says_what_is_moved() {
    let mut random = Random::new(154);
    for (changed, schemes, change, expected) in TABLE {
        for scheme in schemes {
            let [one, other] = change(&Record::random(&mut random, *scheme));
            let differing = moved([&one.run(), &other.run()], one.size());
            assert_eq!(differing, expected, "scheme {}, {}", scheme, changed);
            println!("scheme {}, {}: moves {:?}", scheme, changed, differing);
        }
    }
}

/// So C-23 has to say "exactly one".
#[test]
fn any_two_blocks_of_paef_may_be_all_that_is_moved() {
    let mut random = Random::new(155);
    let mut pairs = 0;
    for scheme in PAEF {
        let case = Case::random(&mut random, scheme, 5);
        let key = load_block(&case.key);
        let keyed = Keyed::new(row_of(scheme), &key, &case.nonce);
        pairs += check_two_blocks(&mut random, &keyed, |body| case.sealed(body));
    }
    assert_eq!(pairs, 2 * 5 * 4);
    println!("{} bodies with two blocks changed and S kept", pairs);
}

/// In how many bytes C_* is the same.
fn same_in_last(runs: [&[u8]; 2], size: usize) -> usize {
    let [one, other] = runs.map(|run| split_sealed(run, size).1);
    let bytes = one.iter().zip(other);
    bytes.filter(|(one, other)| one == other).count()
}

/// C_* differs as a whole: a byte of it may stay.
#[test]
fn not_every_byte_of_the_last_block_is_moved() {
    let mut random = Random::new(156);
    for scheme in PAEF {
        let record = Record::random(&mut random, scheme);
        let (size, run) = (record.size(), record.run());
        let mut others = (1..=255).map(|flip| record.with(|other| other.body[0] ^= flip).run());
        let other = others.find(|other| same_in_last([&run, other], size) > 0);
        let other = other.expect("a change that keeps a byte of C_*");
        assert_eq!(same_in_last([&run, &other], size), 1);
        assert_eq!(moved([&run, &other], size), [Sealed(1), Last]);
    }
}

/// Of two bodies that agree in k blocks the one has no more: where the other has
/// C_k, it has C_*. So C-23 has to say "longer than k blocks".
#[test]
fn the_last_of_k_blocks_is_sealed_otherwise() {
    let mut random = Random::new(157);
    let mut pairs = 0;
    for scheme in SCHEMES {
        let (case, size) = (Case::random(&mut random, scheme, 5), size_of(scheme));
        for end in (1..=4).map(|k| k * size) {
            for more in [1, size, size + 1] {
                let body = random.bytes(end + more);
                let (long, short) = (case.sealed(&body), case.sealed(&body[..end]));
                let (before, place) = (..end - size, end - size..end);
                assert_eq!(long[before], short[before]);
                assert_ne!(long[place.clone()], short[place]);
                pairs += 1;
            }
        }
    }
    println!("{} bodies and what they begin with", pairs);
}
