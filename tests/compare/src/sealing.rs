//! Seal, open and view (document 01, "What a caller is told", with the
//! refusals of C-11 and C-14, the limits of C-12, the rounds of C-13 and the
//! prepared keys of C-16). The first check that applies answers.

use crate::prepared::Prepared;
use crate::schemes::{Keyed, Mode, Scheme, KEY_BYTES};
use crate::{eevee, jolteon, paef, saef, umbreon};
use std::iter::once;

pub const DONE: u32 = 0;
pub const UNKNOWN_SCHEME: u32 = 1;
/// With a prepared key: it is not admitted under the scheme's cipher.
pub const WRONG_KEY_LENGTH: u32 = 2;
pub const WRONG_NONCE_LENGTH: u32 = 7;
pub const HEADER_TOO_LONG: u32 = 3;
pub const BODY_TOO_LONG: u32 = 8;
pub const NO_BLOCK: u32 = 4;
pub const SHORT_ROOM: u32 = 5;
/// Header and body both empty, where the scheme does not seal that.
pub const NOTHING: u32 = 10;
pub const NOT_AUTHENTIC: u32 = 6;

/// The refusals in the order of their checks, which is not that of their
/// numbers.
const REFUSALS: [u32; 9] = [
    UNKNOWN_SCHEME,
    WRONG_KEY_LENGTH,
    WRONG_NONCE_LENGTH,
    HEADER_TOO_LONG,
    BODY_TOO_LONG,
    NO_BLOCK,
    SHORT_ROOM,
    NOTHING,
    NOT_AUTHENTIC,
];

/// The numbers that an answer can have.
pub fn numbers() -> impl Iterator<Item = u32> {
    once(DONE).chain(REFUSALS)
}

/// The answer where these refusals apply.
pub fn first_of(applying: &[u32]) -> u32 {
    let applies = |number: &u32| applying.contains(number);
    REFUSALS.into_iter().find(applies).unwrap_or(DONE)
}

/// The length is 0 after every refusal. The rounds are those that were run.
#[derive(Clone, Copy, PartialEq, Eq, Debug)]
pub struct Answer {
    pub number: u32,
    pub length: usize,
    pub rounds: u32,
}

/// The rounds of lengths, 0 if they are refused.
#[derive(Clone, Copy, PartialEq, Eq, Debug)]
pub struct Rounds {
    pub number: u32,
    pub rounds: u32,
}

/// Makes a call once scheme, key and nonce are found; it gives its output's
/// length or the number of a refusal. That only 6 of all refusals has run
/// rounds is no rule here: the others come before the first block.
fn answer_of(
    found: Result<Keyed, u32>,
    call: impl FnOnce(&mut Keyed) -> Result<usize, u32>,
) -> Answer {
    let (outcome, rounds) = match found {
        Ok(mut keyed) => (call(&mut keyed), keyed.rounds),
        Err(number) => (Err(number), 0),
    };
    Answer {
        number: outcome.err().unwrap_or(DONE),
        length: outcome.unwrap_or(0),
        rounds,
    }
}

fn refuse_if(applies: bool, number: u32) -> Result<(), u32> {
    if applies {
        Err(number)
    } else {
        Ok(())
    }
}

/// Refusals 1, 2 and 7. `key_under` gives the key, if it is one under a cipher.
fn find<'a>(
    scheme: u32,
    key_under: impl FnOnce(u32) -> Option<&'a [u8; KEY_BYTES]>,
    nonce: &'a [u8],
) -> Result<Keyed<'a>, u32> {
    let scheme = Scheme::find(scheme).ok_or(UNKNOWN_SCHEME)?;
    let key = key_under(scheme.cipher).ok_or(WRONG_KEY_LENGTH)?;
    refuse_if(nonce.len() != scheme.nonce_bytes, WRONG_NONCE_LENGTH)?;
    Ok(Keyed::new(scheme, key, nonce))
}

/// Refusals 3 and 8.
fn judge_lengths(scheme: &Scheme, header: usize, body: usize) -> Result<(), u32> {
    refuse_if(header > scheme.most_header_bytes(), HEADER_TOO_LONG)?;
    refuse_if(body > scheme.most_body_bytes(), BODY_TOO_LONG)
}

/// Refusal 10.
fn judge_emptiness(scheme: &Scheme, header: usize, body: usize) -> Result<(), u32> {
    refuse_if((header, body) == (0, 0) && !scheme.seals_nothing(), NOTHING)
}

fn try_seal(keyed: &mut Keyed, header: &[u8], body: &[u8], room: &mut [u8]) -> Result<usize, u32> {
    let scheme = keyed.scheme;
    judge_lengths(scheme, header.len(), body.len())?;
    let length = body.len() + scheme.block_bytes;
    let output = room.get_mut(..length).ok_or(SHORT_ROOM)?;
    judge_emptiness(scheme, header.len(), body.len())?;
    match scheme.mode {
        Mode::Paef => paef::seal(keyed, header, body, output),
        Mode::Saef => saef::seal(keyed, header, body, output),
        Mode::Umbreon => eevee::seal(keyed, umbreon::seal_front, header, body, output),
        Mode::Jolteon => eevee::seal(keyed, jolteon::seal_front, header, body, output),
    }
    Ok(length)
}

/// A run shorter than a block has no body that 8 could judge.
fn try_open(keyed: &mut Keyed, header: &[u8], run: &[u8], room: &mut [u8]) -> Result<usize, u32> {
    let scheme = keyed.scheme;
    let length = run.len().checked_sub(scheme.block_bytes);
    judge_lengths(scheme, header.len(), length.unwrap_or(0))?;
    let length = length.ok_or(NO_BLOCK)?;
    let output = room.get_mut(..length).ok_or(SHORT_ROOM)?;
    judge_emptiness(scheme, header.len(), length)?;
    let authentic = match scheme.mode {
        Mode::Paef => paef::open(keyed, header, run, output),
        Mode::Saef => saef::open(keyed, header, run, output),
        Mode::Umbreon => eevee::open(keyed, umbreon::open_front, header, run, output),
        Mode::Jolteon => eevee::open(keyed, jolteon::open_front, header, run, output),
    };
    if authentic {
        Ok(length)
    } else {
        output.fill(0);
        Err(NOT_AUTHENTIC)
    }
}

/// Seals a body into the front of the room.
pub fn seal(
    scheme: u32,
    key: &[u8],
    nonce: &[u8],
    header: &[u8],
    body: &[u8],
    room: &mut [u8],
) -> Answer {
    let found = find(scheme, |_| key.try_into().ok(), nonce);
    answer_of(found, |keyed| try_seal(keyed, header, body, room))
}

/// Opens a sealed run into the front of the room.
pub fn open(
    scheme: u32,
    key: &[u8],
    nonce: &[u8],
    header: &[u8],
    run: &[u8],
    room: &mut [u8],
) -> Answer {
    let found = find(scheme, |_| key.try_into().ok(), nonce);
    answer_of(found, |keyed| try_open(keyed, header, run, room))
}

/// Seals with a prepared key.
pub fn seal_prepared(
    scheme: u32,
    prepared: &Prepared,
    nonce: &[u8],
    header: &[u8],
    body: &[u8],
    room: &mut [u8],
) -> Answer {
    let found = find(scheme, |cipher| prepared.key_under(cipher), nonce);
    answer_of(found, |keyed| try_seal(keyed, header, body, room))
}

/// Opens with a prepared key.
pub fn open_prepared(
    scheme: u32,
    prepared: &Prepared,
    nonce: &[u8],
    header: &[u8],
    run: &[u8],
    room: &mut [u8],
) -> Answer {
    let found = find(scheme, |cipher| prepared.key_under(cipher), nonce);
    answer_of(found, |keyed| try_open(keyed, header, run, room))
}

/// Seals zeros of these lengths under a key and a nonce of zeros, and counts.
fn count(scheme: u32, header: usize, body: usize) -> Result<u32, u32> {
    let row = Scheme::find(scheme).ok_or(UNKNOWN_SCHEME)?;
    judge_lengths(row, header, body)?;
    judge_emptiness(row, header, body)?;
    let [nonce, header, body] = [row.nonce_bytes, header, body].map(|length| vec![0; length]);
    let mut room = vec![0; body.len() + row.block_bytes];
    let answer = seal(scheme, &[0; KEY_BYTES], &nonce, &header, &body, &mut room);
    Ok(answer.rounds)
}

/// How many rounds a seal of these lengths runs, and an open of its run.
/// Refused with 1, 3, 8 or 10, in this order, as the seal would be.
pub fn rounds(scheme: u32, header: usize, body: usize) -> Rounds {
    match count(scheme, header, body) {
        Ok(rounds) => Rounds {
            number: DONE,
            rounds,
        },
        Err(number) => Rounds { number, rounds: 0 },
    }
}

/// The part of the room that an answer speaks of; empty after a refusal, and
/// for a length above the room's.
pub fn view(number: u32, length: usize, room: &[u8]) -> &[u8] {
    match room.get(..length) {
        Some(part) if number == DONE => part,
        _ => &[],
    }
}
