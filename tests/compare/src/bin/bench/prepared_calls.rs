//! Calls of ours with a prepared key, what it takes to prepare one, and what to
//! judge it, which every such call does first.

use crate::sealing_calls::{Work, HEADER};
use crate::{block_calls, sealing_calls};
use compare::auraski::{self, opaque, PREPARED_BYTES};
use compare::schemes::Scheme;
use compare::sealing::{DONE, WRONG_NONCE_LENGTH};

const KEY: [u8; 16] = *b"a key of a batch";

#[derive(Clone, Copy)]
pub enum Kind {
    Block(block_calls::Kind),
    Sealing(sealing_calls::Kind),
    /// For this cipher.
    Prepare(u32),
    /// Under this scheme.
    Judge(u32),
}

/// N times; each number has to be the one that is due.
fn repeat(count: u32, due: u32, mut call: impl FnMut() -> u32) {
    for _ in 0..count {
        assert_eq!(call(), due, "another number than is due");
    }
}

fn prepare(count: u32, cipher: u32) {
    let mut prepared = [0; PREPARED_BYTES];
    repeat(count, DONE, || {
        auraski::prepare_into(opaque(cipher), &KEY, &mut prepared)
    });
}

/// Refused for its nonce, which is what comes after the prepared key.
fn judge(count: u32, scheme: u32) {
    let cipher = Scheme::find(scheme).map_or(0, |row| row.cipher);
    let (_, prepared) = auraski::prepare(cipher, &KEY);
    repeat(count, WRONG_NONCE_LENGTH, || {
        auraski::seal_prepared(opaque(scheme), &prepared, &[], &HEADER, &[], &mut []).number
    });
}

pub fn run(kind: Kind, count: u32) {
    match kind {
        Kind::Block(kind) => assert_eq!(block_calls::run_prepared(kind, count), DONE),
        Kind::Sealing(kind) => assert_eq!(Work::new(kind).run_prepared(count), DONE),
        Kind::Prepare(cipher) => prepare(count, cipher),
        Kind::Judge(scheme) => judge(count, scheme),
    }
}

fn parse_kind(words: &[&str]) -> Option<Kind> {
    match words {
        ["prepare", cipher] => Some(Kind::Prepare(cipher.parse().ok()?)),
        ["judge", scheme] => Some(Kind::Judge(scheme.parse().ok()?)),
        ["fork" | "unfork", ..] => block_calls::parse_kind(words).map(Kind::Block),
        _ => sealing_calls::parse_kind(words).map(Kind::Sealing),
    }
}

/// One of the kinds, and N.
pub fn parse_count(words: &[&str]) -> Option<(Kind, u32)> {
    let (count, kind) = words.split_last()?;
    Some((parse_kind(kind)?, count.parse().ok()?))
}
