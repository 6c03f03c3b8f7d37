//! Makes the whole of examples/known-answers.txt by one side: `known library`
//! or `known second`. What is called does not depend on the side, but for the
//! runs that are opened, which are those that the side has sealed.

mod accident;
mod blocks;
mod book;
mod damage;
mod lengths;
mod limits;
mod nothing;
mod prepared;
mod refusals;
mod rooms;
mod rounds;
mod siblings;
mod side;
mod value;

use book::Book;
use side::{Side, LIBRARY, SECOND};
use std::io::{self, Write};
use std::process::exit;

fn side_of(word: &str) -> Option<&'static Side> {
    match word {
        "library" => Some(&LIBRARY),
        "second" => Some(&SECOND),
        _ => None,
    }
}

/// The sections stand by themselves: each has its own numbers to draw from. The
/// limits come last, so that tests/known/run can leave out those that take long.
fn whole_text(side: &'static Side) -> String {
    let mut book = Book::new(side);
    blocks::write(&mut book);
    lengths::write(&mut book);
    nothing::write(&mut book);
    siblings::write(&mut book);
    accident::write(&mut book);
    rooms::write(&mut book);
    refusals::write(&mut book);
    damage::write(&mut book);
    rounds::write(&mut book);
    prepared::write(&mut book);
    limits::write(&mut book);
    book.end()
}

fn main() {
    let words: Vec<String> = std::env::args().skip(1).collect();
    let side = match &words[..] {
        [word] => side_of(word),
        _ => None,
    };
    match side.map(|side| io::stdout().write_all(whole_text(side).as_bytes())) {
        Some(Ok(())) => return,
        Some(Err(error)) => eprintln!("known: {}", error),
        None => eprintln!("known: say which side makes the answers, library or second"),
    }
    exit(2);
}
