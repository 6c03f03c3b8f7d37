//! Prints for many jobs at once what `sealjob` prints for each: standard input
//! holds the jobs, each after a two-byte count with its high byte first.

use compare::jobs::{jobs, line};
use std::io::{self, Read, Write};
use std::process::exit;

/// Prints the lines of all whole jobs, and tells how many bytes follow them.
fn print_lines() -> io::Result<usize> {
    let mut input = Vec::new();
    io::stdin().read_to_end(&mut input)?;
    let (whole, rest) = jobs(&input);
    let lines: String = whole.into_iter().map(line).collect();
    io::stdout().write_all(lines.as_bytes())?;
    io::stdout().flush()?;
    Ok(rest.len())
}

fn main() {
    match print_lines() {
        Ok(0) => return,
        Ok(left) => eprintln!(
            "lines: the input ends inside a job; bytes after the last whole one: {}",
            left
        ),
        Err(error) => eprintln!("lines: {}", error),
    }
    exit(2);
}
