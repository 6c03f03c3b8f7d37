//! Cutting runs into blocks, and padding: 001, section 2. A block is kept in
//! sixteen bytes, as the block calls take it; under 64-192 the first 8 count.

pub type Block = [u8; 16];

/// Every block but the last, as one run, and the last one. The last has 1 to
/// `size` bytes, or none if there is no byte at all. (001's count of blocks
/// rounds down; only rounding up leaves the last block at most a block long.)
pub fn split_last(run: &[u8], size: usize) -> (&[u8], &[u8]) {
    run.split_at(run.len().saturating_sub(1) / size * size)
}

/// 001's csplit-b of a run of at least one block: every sealed block but the
/// last, the last one, and the tag, which is as long as the body's last block.
pub fn split_sealed(run: &[u8], size: usize) -> (&[u8], &[u8], &[u8]) {
    let body_length = run.len() - size;
    let (whole, rest) = run.split_at(body_length.saturating_sub(1) / size * size);
    let (last, tag) = rest.split_at(size);
    (whole, last, tag)
}

/// A whole block, as the block calls take it.
pub fn load_block(bytes: &[u8]) -> Block {
    let mut block = [0; 16];
    block[..bytes.len()].copy_from_slice(bytes);
    block
}

/// 001's pad10 of one block: a 1 bit and zeros, and a full block as it is.
/// Unlike 001's, it also pads the empty part, as figure 5, line 17, has it.
pub fn pad10(part: &[u8], size: usize) -> Block {
    let mut block = load_block(part);
    if part.len() < size {
        block[part.len()] = 0x80;
    }
    block
}

/// Whether these bytes, which stand behind a body's end, are what pad10 puts
/// there. Behind a full block stands nothing.
pub fn is_padding(bytes: &[u8]) -> bool {
    match bytes.split_first() {
        None => true,
        Some((first, rest)) => *first == 0x80 && rest.iter().all(|byte| *byte == 0),
    }
}

pub fn xor(left: &Block, right: &Block) -> Block {
    let mut sum = *left;
    for (byte, other) in sum.iter_mut().zip(right) {
        *byte ^= other;
    }
    sum
}
