//! The second program: ForkSkinny-64-192 and ForkSkinny-128-256, the sealing
//! schemes over them and the desk's program, written once more, from the
//! documents alone, to be compared with the library. Plain portable code on flat
//! arrays of cells; it shares no line with the library.
//!
//! Documents are named as in the comments: "document 01" is the scope paper,
//! "000" is the paper on the Eevee family of modes, "001" is the paper Forkcipher
//! (extended version), and "C-11", "C-12" and so on are the requests of those
//! names in document 02.

pub mod blocks;
pub mod calls;
pub mod cells;
pub mod changes;
pub mod eevee;
pub mod entries;
pub mod forged;
pub mod forkskinny;
pub mod jobs;
pub mod jolteon;
pub mod paef;
pub mod prepared;
pub mod random;
pub mod records;
pub mod rounds;
pub mod saef;
pub mod schemes;
pub mod sealing;
pub mod second;
pub mod skinny;
pub mod tweakey;
pub mod umbreon;

#[cfg(feature = "library")]
pub mod auraski;
#[cfg(feature = "meter")]
pub mod meter;
