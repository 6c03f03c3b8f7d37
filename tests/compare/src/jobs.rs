//! The desk's program once more (document 01, "The desk's program"): what
//! `sealjob` prints for the bytes of a job.

use crate::sealing::{open, seal, Answer};

/// The answer to a job that cannot be read or is too long, before all of the
/// calls' own checks.
pub const MALFORMED: u32 = 9;

/// Bytes of a job at most.
pub const MOST_BYTES: usize = 16_384;

/// The longest block of any scheme. With so much more room than the body takes,
/// no output is too long.
const LONGEST_BLOCK: usize = 16;

/// Seal or open.
type Call = fn(u32, &[u8], &[u8], &[u8], &[u8], &mut [u8]) -> Answer;

/// A job that is well formed; its scheme need not be one of the table.
struct Job<'a> {
    scheme: u8,
    call: Call,
    key: &'a [u8],
    nonce: &'a [u8],
    header: &'a [u8],
    body: &'a [u8],
}

fn find_call(direction: u8) -> Option<Call> {
    match direction {
        0 => Some(seal),
        1 => Some(open),
        _ => None,
    }
}

/// The run after a two-byte count, high byte first, and what follows the run.
fn split_counted(bytes: &[u8]) -> Option<(&[u8], &[u8])> {
    match bytes {
        [high, low, rest @ ..] => {
            let count = usize::from(u16::from_be_bytes([*high, *low]));
            Some((rest.get(..count)?, &rest[count..]))
        }
        _ => None,
    }
}

/// Nothing if a byte is missing or one is left over.
fn read(job: &[u8]) -> Option<Job<'_>> {
    let (scheme, rest) = job.split_first()?;
    let (direction, rest) = rest.split_first()?;
    let (key, rest) = split_counted(rest)?;
    let (nonce, rest) = split_counted(rest)?;
    let (header, rest) = split_counted(rest)?;
    let (body, rest) = split_counted(rest)?;
    let call = find_call(*direction)?;
    let whole = rest.is_empty() && job.len() <= MOST_BYTES;
    whole.then_some(Job {
        scheme: *scheme,
        call,
        key,
        nonce,
        header,
        body,
    })
}

/// The answer's number and the output, which is empty after every refusal.
fn answer(job: &Job) -> (u32, Vec<u8>) {
    let scheme = u32::from(job.scheme);
    let mut room = vec![0; job.body.len() + LONGEST_BLOCK];
    let answer = (job.call)(scheme, job.key, job.nonce, job.header, job.body, &mut room);
    room.truncate(answer.length);
    (answer.number, room)
}

fn hex_or_dash(output: &[u8]) -> String {
    if output.is_empty() {
        return "-".to_string();
    }
    output.iter().map(|byte| format!("{:02x}", byte)).collect()
}

/// What `sealjob` prints for a job, with the line's end.
pub fn line(job: &[u8]) -> String {
    let (number, output) = match read(job) {
        Some(job) => answer(&job),
        None => (MALFORMED, Vec::new()),
    };
    format!("{} {} {}\n", number, output.len(), hex_or_dash(&output))
}

/// The jobs of an input in which each stands after its two-byte count, and
/// what is left of it: nothing, unless the input ends inside a job.
pub fn jobs(input: &[u8]) -> (Vec<&[u8]>, &[u8]) {
    let mut found = Vec::new();
    let mut rest = input;
    while let Some((job, after)) = split_counted(rest) {
        found.push(job);
        rest = after;
    }
    (found, rest)
}
