//! What block calls, sealing and opening take, in the library, in the rival
//! and in the second program. Nothing is timed unless they answer alike.
//!
//!   bench                                  both tables
//!   bench agree                            only that all sides answer alike
//!   bench plot FILE MADE                   both tables, and the plot into FILE;
//!                                          MADE says in it how it was measured
//!   bench blocks                           the table of the block calls
//!   bench sealing                          the table of sealing and opening
//!   bench count SIDE DIRECTION CIPHER FROM WANT N
//!                                          N block calls of one kind
//!   bench count-seal SIDE DIRECTION SCHEME BODY N
//!                                          N seals or opens of one kind
//!   bench count-prepared DIRECTION CIPHER FROM WANT N
//!   bench count-prepared DIRECTION SCHEME BODY N
//!                                          the same of ours, with the key prepared
//!                                          before the first
//!   bench count-prepared prepare CIPHER N  N times a key prepared
//!   bench count-prepared judge SCHEME N    N seals that judge a prepared key and are
//!                                          refused then
//!   bench kinds                            DIRECTION SCHEME BODY of every kind of
//!                                          seal and open, and how many are a batch
//!   bench draw FILE MADE                   the plot of counts: from the input, lines
//!                                          DIRECTION SCHEME BODY OURS RIVAL SECOND
//!
//! SIDE is ours, rival or second. DIRECTION is fork or unfork of block calls, where
//! FROM does not count for fork, and else seal or open; BODY is the body's
//! length. The last forms, from the first count on, are for counting instructions;
//! those that make the calls print nothing.

mod agree;
mod block_calls;
mod curves;
mod panel;
mod plot;
mod prepared_calls;
mod rival;
mod scale;
mod sealing_calls;
mod side;
mod svg;
mod tables;

use sealing_calls::Figure;
use std::process::exit;

const USAGE: &str = "bench [agree|blocks|sealing|kinds]
bench plot FILE MADE
bench draw FILE MADE
bench count ours|rival|second fork|unfork CIPHER FROM WANT N
bench count-seal ours|rival|second seal|open SCHEME BODY N
bench count-prepared fork|unfork CIPHER FROM WANT N
bench count-prepared seal|open SCHEME BODY N
bench count-prepared prepare CIPHER N
bench count-prepared judge SCHEME N";

/// Both tables, once the sides agree; gives the figures of sealing and opening.
fn print_tables() -> Vec<Figure> {
    agree::check();
    tables::print_block_calls();
    println!();
    tables::print_sealing()
}

fn fail(what: &str, why: impl std::fmt::Display) -> ! {
    eprintln!("bench: {what}: {why}");
    exit(1);
}

fn draw(file: &str, measure: &plot::Measure, figures: &[Figure], made: &str) {
    let picture = plot::plot(measure, figures, made);
    std::fs::write(file, picture).unwrap_or_else(|error| fail(file, error));
}

/// What was counted of one kind, from its line.
fn figure_of(line: std::io::Result<String>) -> Figure {
    let line = line.unwrap_or_else(|error| fail("the input", error));
    let words: Vec<&str> = line.split(' ').collect();
    sealing_calls::parse_figure(&words).unwrap_or_else(|| fail(&line, "this line is no figure"))
}

/// The figures that the input has.
fn read_figures() -> Vec<Figure> {
    std::io::stdin().lines().map(figure_of).collect()
}

fn print_kinds() {
    for kind in sealing_calls::kinds() {
        let direction = kind.direction.name();
        println!("{direction} {} {} {}", kind.number, kind.body, kind.calls());
    }
}

/// N block calls, if the words are right.
fn count_blocks(words: &[&str]) -> Option<()> {
    let (side, kind, count) = block_calls::parse_count(words)?;
    block_calls::run(side, kind, count);
    Some(())
}

/// N seals or opens, if the words are right.
fn count_seals(words: &[&str]) -> Option<()> {
    let (side, kind, count) = sealing_calls::parse_count(words)?;
    let refused = sealing_calls::Work::new(kind).run(side, count);
    assert_eq!(refused, 0, "a call was refused");
    Some(())
}

/// N calls with a prepared key, if the words are right.
fn count_prepared(words: &[&str]) -> Option<()> {
    let (kind, count) = prepared_calls::parse_count(words)?;
    prepared_calls::run(kind, count);
    Some(())
}

/// Does what the words ask for, if they are right.
fn obey(words: &[&str]) -> Option<()> {
    match words {
        [] => drop(print_tables()),
        ["plot", file, made] => draw(file, &plot::TIME, &print_tables(), made),
        ["draw", file, made] => draw(file, &plot::INSTRUCTIONS, &read_figures(), made),
        ["kinds"] => print_kinds(),
        ["agree"] => println!("{}", agree::check()),
        ["blocks"] => tables::print_block_calls(),
        ["sealing"] => drop(tables::print_sealing()),
        ["count", rest @ ..] => count_blocks(rest)?,
        ["count-seal", rest @ ..] => count_seals(rest)?,
        ["count-prepared", rest @ ..] => count_prepared(rest)?,
        _ => return None,
    }
    Some(())
}

fn main() {
    let arguments: Vec<String> = std::env::args().skip(1).collect();
    let words: Vec<&str> = arguments.iter().map(String::as_str).collect();
    if obey(&words).is_none() {
        eprintln!("{}", USAGE);
        exit(2);
    }
}
