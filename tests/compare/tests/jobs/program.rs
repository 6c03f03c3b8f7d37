//! The program `lines`, which reads many jobs.

use crate::{counted, Parts, OPEN, SEAL};
use std::io::Write;
use std::process::{Command, Output, Stdio};

/// Where these tests run under an emulator, the program has to as well.
fn start_lines() -> Command {
    let program = env!("CARGO_BIN_EXE_lines");
    match std::env::var_os("CARGO_TARGET_X86_64_UNKNOWN_LINUX_GNU_RUNNER") {
        Some(emulator) => {
            let mut command = Command::new(emulator);
            command.arg(program);
            command
        }
        None => Command::new(program),
    }
}

/// The program that reads such an input.
fn lines_program(input: &[u8]) -> Output {
    let mut running = start_lines()
        .stdin(Stdio::piped())
        .stdout(Stdio::piped())
        .stderr(Stdio::piped())
        .spawn()
        .expect("the program starts");
    let mut stdin = running.stdin.take().expect("it has an input");
    stdin.write_all(input).expect("it reads its input");
    drop(stdin);
    running.wait_with_output().expect("it ends")
}

#[test]
fn the_program_prints_the_line_of_each_job() {
    let first = Parts::good(1, SEAL);
    let second = Parts::good(2, OPEN);
    let mut input = [counted(&first.job()), counted(&second.job())].concat();
    let printed = [first.line(), second.line()].concat();

    let done = lines_program(&input);
    assert_eq!(done.stdout, printed.as_bytes());
    assert_eq!((done.status.code(), done.stderr), (Some(0), vec![]));

    input.push(0);
    let done = lines_program(&input);
    assert_eq!(done.stdout, printed.as_bytes());
    assert_eq!(done.status.code(), Some(2));
    assert!(!done.stderr.is_empty());
}
