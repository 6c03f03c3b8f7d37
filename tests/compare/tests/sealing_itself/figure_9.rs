//! 000, figure 9: runs put together block by block as in `figures`, with the
//! bits behind the nonce written out, and the last numbers that these bits hold.

use crate::figures::{call, check, RunOf, Step};
use crate::{size_of, Case, LIMITS, SIBLINGS};
use compare::blocks::{load_block, xor, Block};
use compare::calls::Fork;
use compare::random::Random;

/// Both halves of a block plus what is added to it.
fn fork_of(case: &Case, (end, block): &Step, added: &Block) -> Fork {
    call(case, &case.nonce, end, &xor(&load_block(block), added))
}

/// T_A.
fn sum_of(case: &Case, header: &[Step]) -> Block {
    let half0 = |step: &Step| fork_of(case, step, &[0; 16]).half0;
    header
        .iter()
        .map(half0)
        .fold([0; 16], |sum, half| xor(&sum, &half))
}

/// C_* of a last block with so many bytes, and the tag.
fn end_of(case: &Case, step: &Step, delta: &Block, bytes: usize) -> Vec<u8> {
    let last = fork_of(case, step, delta);
    let sealed = xor(&last.half1, &load_block(&step.1));
    [&sealed[..bytes], &last.half0[..size_of(case.scheme)]].concat()
}

/// Every T_A goes into Delta, the last one too.
fn umbreon_run(case: &Case, header: &[Step], body: &[Step], last: usize) -> Vec<u8> {
    let size = size_of(case.scheme);
    let mut sums = vec![sum_of(case, header)];
    let (end, front) = match body.split_last() {
        Some(parts) => parts,
        None => return sums[0][..size].to_vec(),
    };
    let mut run = Vec::new();
    for step in front {
        let halves = fork_of(case, step, sums.last().unwrap());
        run.extend(&halves.half0[..size]);
        sums.push(halves.half1);
    }
    let delta = sums.iter().fold([0; 16], |delta, sum| xor(&delta, sum));
    run.extend(end_of(case, end, &delta, last));
    run
}

/// Delta is T_A and every M_i and C_i: of C_0 = T_A up to C_m each is added once.
fn jolteon_run(case: &Case, header: &[Step], body: &[Step], last: usize) -> Vec<u8> {
    let size = size_of(case.scheme);
    let mut delta = sum_of(case, header);
    let (end, front) = match body.split_last() {
        Some(parts) => parts,
        None => return delta[..size].to_vec(),
    };
    let mut run = Vec::new();
    for step in front {
        let sealed = fork_of(case, step, &[0; 16]).half0;
        delta = xor(&delta, &xor(&load_block(&step.1), &sealed));
        run.extend(&sealed[..size]);
    }
    run.extend(end_of(case, end, &delta, last));
    run
}

/// Under either scheme of a cipher the tweaks are the same.
#[test]
fn schemes_4_and_5_are_figure_9() {
    let runs: [(u32, RunOf); 2] = [(4, umbreon_run), (5, jolteon_run)];
    for (scheme, run_of) in runs {
        check(scheme, run_of, (7, &[b"\x00\x04"], 0, &[], 0));
        check(scheme, run_of, (8, &[b"\x00\x0c"], 0, &[], 0));
        check(scheme, run_of, (0, &[], 7, &[b"\x00\x01"], 7));
        check(scheme, run_of, (0, &[], 8, &[b"\x00\x03"], 8));
        check(scheme, run_of, (7, &[b"\x00\x00"], 8, &[b"\x00\x03"], 8));
        check(scheme, run_of, (0, &[], 9, &[b"\x00\x05", b"\x00\x01"], 1));
        check(
            scheme,
            run_of,
            (
                19,
                &[b"\x00\x14", b"\x00\x18", b"\x00\x00"],
                32,
                &[b"\x00\x05", b"\x00\x07", b"\x00\x09", b"\x00\x03"],
                8,
            ),
        );
    }
}

#[test]
fn schemes_6_and_7_are_figure_9() {
    let runs: [(u32, RunOf); 2] = [(6, umbreon_run), (7, jolteon_run)];
    for (scheme, run_of) in runs {
        check(scheme, run_of, (1, &[b"\x00\x04"], 0, &[], 0));
        check(scheme, run_of, (32, &[b"\x00\x14", b"\x00\x0c"], 0, &[], 0));
        check(scheme, run_of, (0, &[], 15, &[b"\x00\x01"], 15));
        check(scheme, run_of, (16, &[b"\x00\x08"], 16, &[b"\x00\x03"], 16));
        check(
            scheme,
            run_of,
            (0, &[], 32, &[b"\x00\x05", b"\x00\x03"], 16),
        );
        check(
            scheme,
            run_of,
            (
                48,
                &[b"\x00\x14", b"\x00\x18", b"\x00\x08"],
                40,
                &[b"\x00\x05", b"\x00\x07", b"\x00\x01"],
                8,
            ),
        );
    }
}

/// The last block of the longest header that has a number, changed: T_A, which is
/// the run of an empty body, changes by that block alone.
#[test]
fn the_last_number_of_a_header_is_all_ones() {
    let mut random = Random::new(34);
    for (scheme, longest, _) in LIMITS.into_iter().filter(|limit| limit.0 >= 4) {
        let size = size_of(scheme);
        let case = Case::random(&mut random, scheme, longest);
        let place = longest - 2 * size..longest - size;
        let mut header = case.header.clone();
        header[place.start] ^= 1;
        let half0 = |header: &[u8]| {
            let step = (b"\xff\xfc".to_vec(), header[place.clone()].to_vec());
            fork_of(&case, &step, &[0; 16]).half0
        };
        let changes = xor(&half0(&case.header), &half0(&header));
        let runs = [case.sealed(&[]), case.under(&header).sealed(&[])].map(|run| load_block(&run));
        assert_eq!(xor(&runs[0], &runs[1]), changes);
    }
}

/// Jolteon's blocks before the last stand in the run as they are worked.
#[test]
fn the_last_number_of_a_body_is_all_ones() {
    let mut random = Random::new(35);
    for [_, scheme] in SIBLINGS {
        let size = size_of(scheme);
        let (_, _, longest) = LIMITS[scheme as usize - 1];
        let case = Case::random(&mut random, scheme, 3);
        let body = random.bytes(longest);
        let place = longest - 2 * size..longest - size;
        let step = (b"\xff\xff".to_vec(), body[place.clone()].to_vec());
        let worked = fork_of(&case, &step, &[0; 16]).half0;
        assert_eq!(case.sealed(&body)[place], worked[..size]);
    }
}
