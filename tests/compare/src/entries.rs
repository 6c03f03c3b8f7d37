//! The calls of auraski.h by key, and its rounds, of whatever library exports them
//! under names of its own. One macro, so that ours and the rival are called in the
//! same way. What it makes, `auraski` and `meter` are the only `unsafe` of this
//! package.

/// What seal and open tell a C caller: number and length, and no rounds.
#[derive(Clone, Copy, PartialEq, Eq, Debug)]
pub struct Told {
    pub number: u32,
    pub length: usize,
}

/// What length and rounds hold before a call, so that one not written is seen.
pub const UNWRITTEN: usize = usize::MAX;
pub const UNCOUNTED: u32 = u32::MAX;

#[macro_export]
macro_rules! c_entries {
    ($fork:ident, $unfork:ident, $seal:ident, $open:ident, $rounds:ident) => {
        use $crate::entries::{Told, UNCOUNTED, UNWRITTEN};
        use $crate::sealing::Rounds;

        type Block = [u8; 16];

        extern "C" {
            fn $fork(
                cipher: u32,
                key: *const u8,
                tweak: *const u8,
                block: *const u8,
                want: u32,
                half0: *mut u8,
                half1: *mut u8,
            ) -> u32;

            fn $unfork(
                cipher: u32,
                key: *const u8,
                tweak: *const u8,
                block: *const u8,
                from: u32,
                want: u32,
                input: *mut u8,
                other: *mut u8,
            ) -> u32;

            fn $seal(
                scheme: u32,
                key: *const u8,
                key_len: usize,
                nonce: *const u8,
                nonce_len: usize,
                header: *const u8,
                header_len: usize,
                body: *const u8,
                body_len: usize,
                room: *mut u8,
                room_len: usize,
                length: *mut usize,
            ) -> u32;

            fn $open(
                scheme: u32,
                key: *const u8,
                key_len: usize,
                nonce: *const u8,
                nonce_len: usize,
                header: *const u8,
                header_len: usize,
                run: *const u8,
                run_len: usize,
                room: *mut u8,
                room_len: usize,
                length: *mut usize,
            ) -> u32;

            fn $rounds(scheme: u32, header_len: usize, body_len: usize, rounds: *mut u32) -> u32;
        }

        /// Forward. The blocks of the answer are the caller's, so that a test can
        /// fill them first and see a byte that was not written.
        pub fn fork(
            cipher: u32,
            key: &Block,
            tweak: &Block,
            block: &Block,
            want: u32,
            [half0, half1]: [&mut Block; 2],
        ) -> u32 {
            // Every pointer is to a whole block of sixteen bytes that outlives the
            // call, and the two that are written belong to this call alone.
            unsafe {
                $fork(
                    cipher,
                    key.as_ptr(),
                    tweak.as_ptr(),
                    block.as_ptr(),
                    want,
                    half0.as_mut_ptr(),
                    half1.as_mut_ptr(),
                )
            }
        }

        /// Back from a half; the blocks of the answer as above.
        pub fn unfork(
            cipher: u32,
            key: &Block,
            tweak: &Block,
            block: &Block,
            from: u32,
            want: u32,
            [input, other]: [&mut Block; 2],
        ) -> u32 {
            // As above.
            unsafe {
                $unfork(
                    cipher,
                    key.as_ptr(),
                    tweak.as_ptr(),
                    block.as_ptr(),
                    from,
                    want,
                    input.as_mut_ptr(),
                    other.as_mut_ptr(),
                )
            }
        }

        /// Seal and open have one shape.
        type Entry = unsafe extern "C" fn(
            u32,
            *const u8,
            usize,
            *const u8,
            usize,
            *const u8,
            usize,
            *const u8,
            usize,
            *mut u8,
            usize,
            *mut usize,
        ) -> u32;

        /// One call of either. A run without a byte has a pointer too, which is not
        /// null.
        fn answer(
            entry: Entry,
            scheme: u32,
            [key, nonce, header, text]: [&[u8]; 4],
            room: &mut [u8],
        ) -> Told {
            let mut length = UNWRITTEN;
            // Every run outlives the call and is as long as the number behind it
            // says; room and length are written by this call alone.
            let number = unsafe {
                entry(
                    scheme,
                    key.as_ptr(),
                    key.len(),
                    nonce.as_ptr(),
                    nonce.len(),
                    header.as_ptr(),
                    header.len(),
                    text.as_ptr(),
                    text.len(),
                    room.as_mut_ptr(),
                    room.len(),
                    &mut length,
                )
            };
            Told { number, length }
        }

        /// Seals a body into the room.
        pub fn seal(
            scheme: u32,
            key: &[u8],
            nonce: &[u8],
            header: &[u8],
            body: &[u8],
            room: &mut [u8],
        ) -> Told {
            answer($seal, scheme, [key, nonce, header, body], room)
        }

        /// Opens a sealed run into the room.
        pub fn open(
            scheme: u32,
            key: &[u8],
            nonce: &[u8],
            header: &[u8],
            run: &[u8],
            room: &mut [u8],
        ) -> Told {
            answer($open, scheme, [key, nonce, header, run], room)
        }

        /// The rounds of a seal, and an open, of these lengths.
        pub fn rounds(scheme: u32, header: usize, body: usize) -> Rounds {
            let mut rounds = UNCOUNTED;
            // The one pointer is to a number that this call alone writes.
            let number = unsafe { $rounds(scheme, header, body, &mut rounds) };
            Rounds { number, rounds }
        }
    };
}
