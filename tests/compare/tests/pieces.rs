//! Every piece of a round is undone by its backward piece.

use compare::cells::{Cells, Width};
use compare::random::Random;
use compare::rounds::{
    mix_columns, mix_columns_back, round, round_back, shift_rows, shift_rows_back, sub_cells,
    sub_cells_back, RoundConstant,
};

const TRIALS: usize = 400;

/// Both ways round: forward then back, and back then forward.
fn check_undone(start: Cells, forward: impl Fn(&mut Cells), back: impl Fn(&mut Cells)) {
    let mut cells = start;
    forward(&mut cells);
    back(&mut cells);
    assert_eq!(cells, start);
    back(&mut cells);
    forward(&mut cells);
    assert_eq!(cells, start);
}

#[test]
fn every_piece_is_undone() {
    let mut random = Random::new(1);
    for _ in 0..TRIALS {
        let start = random.block();
        let nibbles = start.map(|cell| cell & 0xf);
        check_undone(start, shift_rows, shift_rows_back);
        check_undone(start, mix_columns, mix_columns_back);
        check_undone(
            start,
            |c| sub_cells(c, Width::Byte),
            |c| sub_cells_back(c, Width::Byte),
        );
        check_undone(
            nibbles,
            |c| sub_cells(c, Width::Nibble),
            |c| sub_cells_back(c, Width::Nibble),
        );
    }
}

#[test]
fn a_round_is_undone_in_both_widths() {
    let mut random = Random::new(2);
    for (width, mask) in [(Width::Nibble, 0x0f), (Width::Byte, 0xff)] {
        for _ in 0..TRIALS {
            let start = random.block().map(|cell| cell & mask);
            let key = random.number().to_be_bytes().map(|cell| cell & mask);
            let constant = RoundConstant {
                number: random.number() as u8 & 0x7f,
                extra: 2,
            };
            let mut cells = start;
            round(&mut cells, width, constant, &key);
            assert!(cells != start && cells.iter().all(|cell| cell & !mask == 0));
            round_back(&mut cells, width, constant, &key);
            assert_eq!(cells, start);
        }
    }
}
