//! Runs put together block by block, with the ends of the tweaks written out
//! from document 01 and the blocks already padded: 001, figures 5 and 8. What is
//! needed of this for 000, figure 9, is public.

use crate::{row_of, size_of, Case};
use compare::blocks::{load_block, xor, Block};
use compare::calls::{fork, Fork};
use compare::random::Random;

/// One block call: the last bytes of its tweak, and its padded block.
pub(crate) type Step = (Vec<u8>, Vec<u8>);

fn padded(part: &[u8], size: usize) -> Vec<u8> {
    let mut block = part.to_vec();
    block.push(0x80);
    block.resize(size, 0);
    block
}

/// How a run is put together of a header's steps and a body's; its last block has
/// so many bytes.
pub(crate) type RunOf = fn(&Case, &[Step], &[Step], usize) -> Vec<u8>;

/// Both halves of a block, under a tweak with this front and this end.
pub(crate) fn call(case: &Case, front: &[u8], end: &[u8], block: &Block) -> Fork {
    let tweak = load_block(&[front, end].concat());
    let key = load_block(&case.key);
    fork(row_of(case.scheme).cipher, &key, &tweak, block, 2)
}

/// 001, figure 5, with `tag` bytes of the last half 1.
fn paef_run(case: &Case, header: &[Step], body: &[Step], tag: usize) -> Vec<u8> {
    let size = size_of(case.scheme);
    let fork_of = |(end, block): &Step| call(case, &case.nonce, end, &load_block(block));
    let mut sum = [0; 16];
    for step in header {
        sum = xor(&sum, &fork_of(step).half0);
    }
    let mut run = Vec::new();
    for step in body.iter().take(body.len().saturating_sub(1)) {
        run.extend(&fork_of(step).half0[..size]);
        sum = xor(&sum, &fork_of(step).half1);
    }
    match body.last() {
        None => run.extend(&sum[..size]),
        Some(step) => {
            run.extend(&xor(&fork_of(step).half0, &sum)[..size]);
            run.extend(&fork_of(step).half1[..tag]);
        }
    }
    run
}

/// 001, figure 8, with `tag` bytes of the last half 1. The front of the first
/// tweak is the nonce, that of every other is zero.
fn saef_run(case: &Case, header: &[Step], body: &[Step], tag: usize) -> Vec<u8> {
    let mut fronts = std::iter::once(&case.nonce[..]).chain(std::iter::repeat(&[0; 15][..]));
    let mut delta = [0; 16];
    for (end, block) in header {
        let block = xor(&load_block(block), &delta);
        delta = call(case, fronts.next().unwrap(), end, &block).half0;
    }
    let mut run = Vec::new();
    for (end, block) in body {
        let block = xor(&load_block(block), &delta);
        let halves = call(case, fronts.next().unwrap(), end, &block);
        run.extend(xor(&halves.half0, &delta));
        delta = halves.half1;
    }
    // Delta is by now the last half 1, of which the tag is the front; without
    // a body it is the whole run.
    run.extend(&delta[..if body.is_empty() { 16 } else { tag }]);
    run
}

/// The steps of a run whose tweaks end as told.
fn steps(run: &[u8], size: usize, ends: &[&[u8]]) -> Vec<Step> {
    let mut blocks: Vec<Vec<u8>> = run.chunks(size).map(<[u8]>::to_vec).collect();
    if blocks.len() < ends.len() {
        blocks.push(Vec::new());
    }
    if let Some(last) = blocks.last_mut().filter(|last| last.len() < size) {
        *last = padded(last, size);
    }
    assert_eq!(blocks.len(), ends.len());
    ends.iter().map(|end| end.to_vec()).zip(blocks).collect()
}

/// Lengths of header and body with the ends of all tweaks, and of the body's last
/// block.
type Example<'a> = (usize, &'a [&'a [u8]], usize, &'a [&'a [u8]], usize);

/// What is sealed is what is put together.
pub(crate) fn check(
    scheme: u32,
    run_of: RunOf,
    (header_length, header_ends, body_length, body_ends, last): Example,
) {
    let size = size_of(scheme);
    let case = Case::random(&mut Random::new(32), scheme, header_length);
    let body = Random::new(33).bytes(body_length);
    let header_steps = steps(&case.header, size, header_ends);
    let body_steps = steps(&body, size, body_ends);
    assert_eq!(
        case.sealed(&body),
        run_of(&case, &header_steps, &body_steps, last)
    );
}

#[test]
fn scheme_1_is_figure_5() {
    check(1, paef_run, (0, &[b"\x60\x01"], 0, &[], 0));
    check(1, paef_run, (7, &[b"\x60\x01"], 0, &[], 0));
    check(1, paef_run, (8, &[b"\x20\x01"], 0, &[], 0));
    check(1, paef_run, (0, &[], 7, &[b"\xe0\x01"], 7));
    check(1, paef_run, (0, &[], 8, &[b"\xa0\x01"], 8));
    check(
        1,
        paef_run,
        (
            19,
            &[b"\x00\x01", b"\x00\x02", b"\x60\x03"],
            17,
            &[b"\x80\x01", b"\x80\x02", b"\xe0\x03"],
            1,
        ),
    );
}

#[test]
fn scheme_2_is_figure_5() {
    check(2, paef_run, (0, &[b"\x60\x01"], 0, &[], 0));
    check(2, paef_run, (15, &[b"\x60\x01"], 0, &[], 0));
    check(2, paef_run, (32, &[b"\x00\x01", b"\x20\x02"], 0, &[], 0));
    check(2, paef_run, (0, &[], 1, &[b"\xe0\x01"], 1));
    check(2, paef_run, (0, &[], 32, &[b"\x80\x01", b"\xa0\x02"], 16));
    check(
        2,
        paef_run,
        (
            20,
            &[b"\x00\x01", b"\x60\x02"],
            40,
            &[b"\x80\x01", b"\x80\x02", b"\xe0\x03"],
            8,
        ),
    );
}

#[test]
fn scheme_3_is_figure_8() {
    check(3, saef_run, (0, &[b"\x0f"], 0, &[], 0));
    check(3, saef_run, (15, &[b"\x0f"], 0, &[], 0));
    check(3, saef_run, (16, &[b"\x0e"], 0, &[], 0));
    check(3, saef_run, (20, &[b"\x08", b"\x07"], 0, &[], 0));
    check(3, saef_run, (32, &[b"\x08", b"\x06"], 0, &[], 0));
    check(3, saef_run, (0, &[], 15, &[b"\x0d"], 15));
    check(3, saef_run, (0, &[], 16, &[b"\x0c"], 16));
    check(3, saef_run, (0, &[], 40, &[b"\x09", b"\x01", b"\x05"], 8));
    check(3, saef_run, (5, &[b"\x0b"], 16, &[b"\x04"], 16));
    check(3, saef_run, (16, &[b"\x0a"], 17, &[b"\x01", b"\x05"], 1));
    check(
        3,
        saef_run,
        (
            48,
            &[b"\x08", b"\x00", b"\x02"],
            48,
            &[b"\x01", b"\x01", b"\x04"],
            16,
        ),
    );
}
