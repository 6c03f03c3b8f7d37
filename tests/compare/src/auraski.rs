//! The library through its C entry points.

crate::c_entries!(
    auraski_fork,
    auraski_unfork,
    auraski_seal,
    auraski_open,
    auraski_rounds
);

/// Hides where a value comes from, so that no call of the benchmark is worked
/// out beforehand. (The standard library's own is newer than rustc 1.63.)
pub fn opaque<T: Copy>(value: T) -> T {
    // The reference is to a live value of that very type.
    unsafe { std::ptr::read_volatile(&value) }
}

// ---- prepared keys (C-16)

/// What stands in auraski.h as AURASKI_PREPARED.
pub const PREPARED_BYTES: usize = 801;

/// Filled by `prepare` alone, and looked into by tests alone.
pub type Prepared = [u8; PREPARED_BYTES];

/// What a prepared key holds before a call, so that a byte not written is seen.
const UNPREPARED: u8 = 0xc3;

/// Seal and open have one shape.
type PreparedEntry = unsafe extern "C" fn(
    u32,
    *const u8,
    *const u8,
    usize,
    *const u8,
    usize,
    *const u8,
    usize,
    *mut u8,
    usize,
    *mut usize,
) -> u32;

extern "C" {
    fn auraski_prepare(cipher: u32, key: *const u8, key_len: usize, prepared: *mut u8) -> u32;

    fn auraski_fork_prepared(
        cipher: u32,
        prepared: *const u8,
        tweak: *const u8,
        block: *const u8,
        want: u32,
        half0: *mut u8,
        half1: *mut u8,
    ) -> u32;

    fn auraski_unfork_prepared(
        cipher: u32,
        prepared: *const u8,
        tweak: *const u8,
        block: *const u8,
        from: u32,
        want: u32,
        input: *mut u8,
        other: *mut u8,
    ) -> u32;

    fn auraski_seal_prepared(
        scheme: u32,
        prepared: *const u8,
        nonce: *const u8,
        nonce_len: usize,
        header: *const u8,
        header_len: usize,
        body: *const u8,
        body_len: usize,
        room: *mut u8,
        room_len: usize,
        length: *mut usize,
    ) -> u32;

    fn auraski_open_prepared(
        scheme: u32,
        prepared: *const u8,
        nonce: *const u8,
        nonce_len: usize,
        header: *const u8,
        header_len: usize,
        run: *const u8,
        run_len: usize,
        room: *mut u8,
        room_len: usize,
        length: *mut usize,
    ) -> u32;
}

/// Prepares a key. What is written is the caller's, as the blocks above.
pub fn prepare_into(cipher: u32, key: &[u8], prepared: &mut Prepared) -> u32 {
    // The key is as long as the number behind it says, and the other pointer is to
    // a whole prepared key, which this call alone writes.
    unsafe { auraski_prepare(cipher, key.as_ptr(), key.len(), prepared.as_mut_ptr()) }
}

/// The number, and what was written.
pub fn prepare(cipher: u32, key: &[u8]) -> (u32, Prepared) {
    let mut prepared = [UNPREPARED; PREPARED_BYTES];
    let number = prepare_into(cipher, key, &mut prepared);
    (number, prepared)
}

/// Forward; the blocks of the answer as by key.
pub fn fork_prepared(
    cipher: u32,
    prepared: &Prepared,
    tweak: &Block,
    block: &Block,
    want: u32,
    [half0, half1]: [&mut Block; 2],
) -> u32 {
    // Every pointer is to a whole prepared key or block that outlives the call, and
    // the two that are written belong to this call alone.
    unsafe {
        auraski_fork_prepared(
            cipher,
            prepared.as_ptr(),
            tweak.as_ptr(),
            block.as_ptr(),
            want,
            half0.as_mut_ptr(),
            half1.as_mut_ptr(),
        )
    }
}

/// Back from a half; the blocks of the answer as by key.
pub fn unfork_prepared(
    cipher: u32,
    prepared: &Prepared,
    tweak: &Block,
    block: &Block,
    from: u32,
    want: u32,
    [input, other]: [&mut Block; 2],
) -> u32 {
    // As above.
    unsafe {
        auraski_unfork_prepared(
            cipher,
            prepared.as_ptr(),
            tweak.as_ptr(),
            block.as_ptr(),
            from,
            want,
            input.as_mut_ptr(),
            other.as_mut_ptr(),
        )
    }
}

/// One call of either.
fn answer_prepared(
    entry: PreparedEntry,
    scheme: u32,
    prepared: &Prepared,
    [nonce, header, text]: [&[u8]; 3],
    room: &mut [u8],
) -> Told {
    let mut length = UNWRITTEN;
    // The prepared key is a whole one. Every run outlives the call and is as long
    // as the number behind it says; room and length are written by this call alone.
    let number = unsafe {
        entry(
            scheme,
            prepared.as_ptr(),
            nonce.as_ptr(),
            nonce.len(),
            header.as_ptr(),
            header.len(),
            text.as_ptr(),
            text.len(),
            room.as_mut_ptr(),
            room.len(),
            &mut length,
        )
    };
    Told { number, length }
}

/// Seals a body into the room.
pub fn seal_prepared(
    scheme: u32,
    prepared: &Prepared,
    nonce: &[u8],
    header: &[u8],
    body: &[u8],
    room: &mut [u8],
) -> Told {
    let parts = [nonce, header, body];
    answer_prepared(auraski_seal_prepared, scheme, prepared, parts, room)
}

/// Opens a sealed run into the room.
pub fn open_prepared(
    scheme: u32,
    prepared: &Prepared,
    nonce: &[u8],
    header: &[u8],
    run: &[u8],
    room: &mut [u8],
) -> Told {
    let parts = [nonce, header, run];
    answer_prepared(auraski_open_prepared, scheme, prepared, parts, room)
}
