//! The pieces of one round on flat cells, and what undoes each of them. SKINNY
//! and ForkSkinny run on the same pieces; only the constants differ.

use crate::cells::{Cells, Width, BYTE_SBOX, BYTE_SBOX_BACK, NIBBLE_SBOX, NIBBLE_SBOX_BACK};

/// What a round takes from the tweakey: the top two rows of all words, summed.
pub type RoundKey = [u8; 8];

/// What a round takes from the sequence of constants.
#[derive(Clone, Copy)]
pub struct RoundConstant {
    /// 6 bits in SKINNY, 7 in ForkSkinny.
    pub number: u8,
    /// Row 0 column 2: 2 in ForkSkinny (001, appendix F, "Tweakey": "an extra
    /// 1 .. to the second bit"), 0 in SKINNY's published vectors.
    pub extra: u8,
}

/// Where row 1, 2, 3's cells come from when the rows turn right by 1, 2, 3.
const ROWS: [usize; 16] = [0, 1, 2, 3, 7, 4, 5, 6, 10, 11, 8, 9, 13, 14, 15, 12];
/// The same turned left.
const ROWS_BACK: [usize; 16] = [0, 1, 2, 3, 5, 6, 7, 4, 10, 11, 8, 9, 15, 12, 13, 14];

#[inline(always)]
pub fn sub_cells(cells: &mut Cells, width: Width) {
    match width {
        Width::Nibble => cells
            .iter_mut()
            .for_each(|c| *c = NIBBLE_SBOX[(*c & 0xf) as usize]),
        Width::Byte => cells.iter_mut().for_each(|c| *c = BYTE_SBOX[*c as usize]),
    }
}

#[inline(always)]
pub fn sub_cells_back(cells: &mut Cells, width: Width) {
    match width {
        Width::Nibble => cells
            .iter_mut()
            .for_each(|c| *c = NIBBLE_SBOX_BACK[(*c & 0xf) as usize]),
        Width::Byte => cells
            .iter_mut()
            .for_each(|c| *c = BYTE_SBOX_BACK[*c as usize]),
    }
}

/// 001, section 4.1, the array of c0, c1, c2. Undoes itself.
#[inline(always)]
pub fn add_constants(cells: &mut Cells, constant: RoundConstant) {
    cells[0] ^= constant.number & 0xf;
    cells[2] ^= constant.extra;
    cells[4] ^= constant.number >> 4;
    cells[8] ^= 2;
}

/// Into the top two rows. Undoes itself.
#[inline(always)]
pub fn add_tweakey(cells: &mut Cells, key: &RoundKey) {
    for (cell, key_cell) in cells.iter_mut().zip(key) {
        *cell ^= key_cell;
    }
}

#[inline(always)]
pub fn shift_rows(cells: &mut Cells) {
    let old = *cells;
    for (cell, from) in cells.iter_mut().zip(ROWS) {
        *cell = old[from];
    }
}

#[inline(always)]
pub fn shift_rows_back(cells: &mut Cells) {
    let old = *cells;
    for (cell, from) in cells.iter_mut().zip(ROWS_BACK) {
        *cell = old[from];
    }
}

/// 001, appendix F, the matrix M.
#[inline(always)]
pub fn mix_columns(cells: &mut Cells) {
    for column in 0..4 {
        let a = cells[column];
        let b = cells[column + 4];
        let c = cells[column + 8];
        let d = cells[column + 12];
        cells[column] = a ^ c ^ d;
        cells[column + 4] = a;
        cells[column + 8] = b ^ c;
        cells[column + 12] = a ^ c;
    }
}

#[inline(always)]
pub fn mix_columns_back(cells: &mut Cells) {
    for column in 0..4 {
        let p = cells[column];
        let q = cells[column + 4];
        let r = cells[column + 8];
        let s = cells[column + 12];
        cells[column] = q;
        cells[column + 4] = q ^ r ^ s;
        cells[column + 8] = q ^ s;
        cells[column + 12] = p ^ s;
    }
}

/// One round, in the order of 001, figure 18.
#[inline(always)]
pub fn round(cells: &mut Cells, width: Width, constant: RoundConstant, key: &RoundKey) {
    sub_cells(cells, width);
    add_constants(cells, constant);
    add_tweakey(cells, key);
    shift_rows(cells);
    mix_columns(cells);
}

/// The same round undone.
#[inline(always)]
pub fn round_back(cells: &mut Cells, width: Width, constant: RoundConstant, key: &RoundKey) {
    mix_columns_back(cells);
    shift_rows_back(cells);
    add_tweakey(cells, key);
    add_constants(cells, constant);
    sub_cells_back(cells, width);
}
