//! Every kind of last block: header and body empty, short, full, and of more
//! blocks than one. Each record is sealed and opened. Where both are empty, there
//! is more in `nothing`.

use crate::book::Book;
use compare::random::Random;
use compare::records::{row_of, Call};
use compare::schemes::{numbers, Scheme};
use compare::sealing::DONE;

/// Lengths of header and body over the block's size.
fn lengths(row: &Scheme) -> Vec<(usize, usize)> {
    let block = row.block_bytes;
    let mut pairs = Vec::new();
    for header in [0, block - 1, block, block + 1] {
        pairs.extend([0, 1, block].map(|body| (header, body)));
    }
    pairs.extend([block + 1, 2 * block - 1, 2 * block, 3 * block + 5].map(|body| (0, body)));
    pairs.extend([block - 1, 2 * block, 3 * block + 5].map(|body| (block + 3, body)));
    pairs.extend([(1, block - 1), (2 * block, block + 1)]);
    pairs.retain(|pair| *pair != (0, 0) || row.seals_nothing());
    pairs
}

pub fn write(book: &mut Book) {
    let mut random = Random::new(2);
    for scheme in numbers() {
        book.section(&format!("Scheme {}: empty, short and full blocks", scheme));
        for (header, body) in lengths(row_of(scheme)) {
            let about = format!("Header of {} bytes, body of {}.", header, body);
            let call = Call::drawn(&mut random, scheme, header, body);
            let run = book.sealing(&about, &call, DONE);
            let opened = book.sealing("And open.", &call.opening(&run), DONE);
            assert_eq!(opened, call.text);
        }
    }
}
