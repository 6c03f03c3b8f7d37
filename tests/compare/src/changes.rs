//! What a changed body moves in its run (C-23): the pieces of a run, the request's
//! two statements checked on bodies that are drawn, and changes that S does not
//! show. The seal is the caller's, so that every side is checked alike.

use crate::blocks::{load_block, split_sealed, xor};
use crate::calls::{fork, unfork};
use crate::paef;
use crate::random::Random;
use crate::schemes::Keyed;

/// Blocks of a body that is checked, at most.
const MOST_BLOCKS: usize = 6;

/// Blocks in which two bodies are made to agree, at most.
const MOST_SHARED: usize = 4;

/// A piece of a run under PAEF and SAEF, whose figures return C_1, C_2 and so on,
/// C_* and the tag: 001, figure 5, line 38, and figure 8, line 34.
#[derive(Clone, Copy, PartialEq, Eq, Debug)]
pub enum Piece {
    Sealed(usize),
    Last,
    Tag,
}

/// All of a run.
fn pieces(run: &[u8], size: usize) -> Vec<(Piece, &[u8])> {
    let (whole, last, tag) = split_sealed(run, size);
    let sealed = (1..).map(Piece::Sealed).zip(whole.chunks_exact(size));
    let end = [(Piece::Last, last), (Piece::Tag, tag)];
    sealed.chain(end).collect()
}

/// The pieces in which two runs of one length differ.
pub fn moved([one, other]: [&[u8]; 2], size: usize) -> Vec<Piece> {
    assert_eq!(one.len(), other.len());
    let pairs = pieces(one, size).into_iter().zip(pieces(other, size));
    let differing = pairs.filter(|(one, other)| one != other);
    differing.map(|((piece, _), _)| piece).collect()
}

/// A block of a body before its last, counted from 1.
fn block_of(body: &[u8], number: usize, size: usize) -> &[u8] {
    &body[(number - 1) * size..number * size]
}

/// The body with this block in place of its own.
fn with_block(body: &[u8], number: usize, block: &[u8]) -> Vec<u8> {
    let end = number * block.len();
    let mut changed = body.to_vec();
    changed[end - block.len()..end].copy_from_slice(block);
    changed
}

/// Lengths of the headers under which the statements are checked.
pub fn header_lengths(size: usize) -> [usize; 5] {
    [0, 1, size - 1, size, 2 * size + 3]
}

/// One that is drawn, and the block with a bit changed.
fn other_blocks(random: &mut Random, block: &[u8]) -> [Vec<u8>; 2] {
    let drawn = random.bytes(block.len());
    let mut near = block.to_vec();
    near[random.below(block.len())] ^= 1 << random.below(8);
    [drawn, near]
}

/// C-23 of PAEF: two bodies of one length that differ in one block, not the last,
/// give runs that differ in that block and in C_*, and agree everywhere else.
/// Changes each of these blocks of a body, and counts the pairs.
pub fn check_blocks_of(
    random: &mut Random,
    body: &[u8],
    numbers: impl IntoIterator<Item = usize>,
    size: usize,
    mut seal: impl FnMut(&[u8]) -> Vec<u8>,
) -> usize {
    let run = seal(body);
    let mut pairs = 0;
    for number in numbers {
        for block in other_blocks(random, block_of(body, number, size)) {
            let changed = with_block(body, number, &block);
            assert_ne!(changed, body);
            let differing = moved([&run, &seal(&changed)], size);
            assert_eq!(differing, [Piece::Sealed(number), Piece::Last]);
            pairs += 1;
        }
    }
    pairs
}

/// The same of every block but the last, with a last block of every length.
pub fn check_one_block(
    random: &mut Random,
    size: usize,
    mut seal: impl FnMut(&[u8]) -> Vec<u8>,
) -> usize {
    let mut pairs = 0;
    for blocks in 2..=MOST_BLOCKS {
        for last in 1..=size {
            let body = random.bytes((blocks - 1) * size + last);
            pairs += check_blocks_of(random, &body, 1..blocks, size, &mut seal);
        }
    }
    pairs
}

/// Lengths of the ends of two bodies behind the blocks in which they agree.
fn end_lengths(size: usize) -> impl Iterator<Item = [usize; 2]> {
    let lengths = [1, size - 1, size, size + 1, 2 * size + 3];
    let pairs = lengths.map(|one| lengths.map(|other| [one, other]));
    pairs.into_iter().flatten()
}

/// Two ends of these lengths that agree in so many bytes and no more.
fn two_ends(random: &mut Random, lengths: [usize; 2], agreeing: usize) -> [Vec<u8>; 2] {
    let [one, mut other] = lengths.map(|length| random.bytes(length));
    other[..agreeing].copy_from_slice(&one[..agreeing]);
    if let (Some(byte), Some(differing)) = (one.get(agreeing), other.get_mut(agreeing)) {
        *differing = byte ^ (1 + random.below(255) as u8);
    }
    [one, other]
}

/// In how many bytes they agree: in none, in as many as can be, and in between.
/// They are never the same.
fn agreements([one, other]: [usize; 2]) -> [usize; 3] {
    let most = if one == other {
        one - 1
    } else {
        one.min(other)
    };
    [0, most / 2, most]
}

/// C-23 of SAEF, which is so under every scheme: two bodies that agree in their
/// first k blocks, and are both longer, give runs that agree in the first k blocks.
/// That the runs are two is all that can be seen where k is 0. Counts the pairs.
pub fn check_shared_blocks(
    random: &mut Random,
    size: usize,
    mut seal: impl FnMut(&[u8]) -> Vec<u8>,
) -> usize {
    let mut pairs = 0;
    for shared in (0..=MOST_SHARED).map(|k| k * size) {
        for lengths in end_lengths(size) {
            for agreeing in agreements(lengths) {
                let front = random.bytes(shared);
                let ends = two_ends(random, lengths, agreeing);
                let [one, other] = ends.map(|end| seal(&[&front[..], &end].concat()));
                assert_ne!(one, other);
                assert_eq!(one[..shared], other[..shared]);
                pairs += 1;
            }
        }
    }
    pairs
}

/// The body with one block replaced by this one, and the other by that which leaves
/// S as it was: PAEF adds half 1 of either (001, figure 5, line 22), and the way
/// back from half 1 finds it. It takes the key.
pub fn balanced(keyed: &Keyed, body: &[u8], [one, other]: [usize; 2], block: &[u8]) -> Vec<u8> {
    let (cipher, size) = (keyed.scheme.cipher, keyed.scheme.block_bytes);
    let tweak_of = |number: usize| paef::make_tweak(keyed.nonce, paef::BODY, number as u16);
    let half1 = |number, block: &[u8]| {
        fork(cipher, keyed.key, &tweak_of(number), &load_block(block), 1).half1
    };
    let change = xor(&half1(one, block_of(body, one, size)), &half1(one, block));
    let due = xor(&half1(other, block_of(body, other, size)), &change);
    let found = unfork(cipher, keyed.key, &tweak_of(other), &due, 1, 0).input;
    with_block(&with_block(body, one, block), other, &found[..size])
}

/// That C-23 of PAEF says "exactly one" with reason: any two blocks before the last
/// can be changed so that they alone are moved. Counts the pairs.
pub fn check_two_blocks(
    random: &mut Random,
    keyed: &Keyed,
    mut seal: impl FnMut(&[u8]) -> Vec<u8>,
) -> usize {
    let size = keyed.scheme.block_bytes;
    let body = random.bytes((MOST_BLOCKS - 1) * size + 1);
    let run = seal(&body);
    let mut pairs = 0;
    for one in 1..MOST_BLOCKS {
        for other in (1..MOST_BLOCKS).filter(|other| *other != one) {
            let changed = balanced(keyed, &body, [one, other], &random.bytes(size));
            let differing = moved([&run, &seal(&changed)], size);
            let expected = [one.min(other), one.max(other)].map(Piece::Sealed);
            assert_eq!(differing, expected);
            pairs += 1;
        }
    }
    pairs
}
