//! The library's prepared keys (C-16): what preparing answers, and that no call
//! admits a prepared key that no key gives. What a good one does is compared with
//! every block call (`agree`) and every seal and open (`sealing`).

use compare::auraski::{self, PREPARED_BYTES};
use compare::calls::{DONE, NOT_ADMITTED, REFUSED};
use compare::prepared::{self, Prepared};
use compare::random::Random;
use compare::records::{row_of, Call};
use compare::{calls, sealing};

type Block = [u8; 16];

const CIPHERS: [u32; 2] = [1, 2];
/// Each with its cipher.
const SCHEMES: [(u32, u32); 7] = [(1, 1), (2, 2), (3, 2), (4, 1), (5, 1), (6, 2), (7, 2)];

/// A bit at either end of a byte, and all of it.
const FLIPS: [u8; 3] = [0x01, 0x80, 0xff];

/// What a room or a result block holds before a call.
const BEFORE: u8 = 0xa5;

/// A prepared key of the library, and what it is to the second program.
#[derive(Clone, Copy)]
struct Both {
    library: auraski::Prepared,
    second: Prepared,
}

impl Both {
    fn prepare(cipher: u32, key: &[u8]) -> Both {
        let (number, library) = auraski::prepare(cipher, key);
        let (expected, second) = prepared::prepare(cipher, key);
        assert_eq!(number, expected, "cipher {}, key of {}", cipher, key.len());
        Both { library, second }
    }

    /// Bytes that no key gives.
    fn of_no_key(library: auraski::Prepared) -> Both {
        Both {
            library,
            second: Prepared::Refused,
        }
    }
}

/// What block calls, seals and opens are made on. The runs are authentic.
struct Work {
    tweak: Block,
    block: Block,
    seals: Vec<Call>,
    opens: Vec<Call>,
}

impl Work {
    /// Under every scheme of the cipher, with a key of sixteen bytes.
    fn new(random: &mut Random, cipher: u32, key: &Block) -> Work {
        let mut work = Work {
            tweak: random.block(),
            block: random.block(),
            seals: Vec::new(),
            opens: Vec::new(),
        };
        for (scheme, _) in SCHEMES.into_iter().filter(|(_, of)| *of == cipher) {
            let seal = Call::drawn(random, scheme, 5, 9).with(|call| call.key = key.to_vec());
            let mut room = vec![0; seal.room];
            let answer = seal.make([sealing::seal, sealing::open], &mut room);
            work.opens.push(seal.opening(&room[..answer.length]));
            work.seals.push(seal);
        }
        work
    }

    /// Every call agrees, and answers with this number.
    fn expect(&self, cipher: u32, key: &Both, number: u32) {
        for want in 0..3 {
            self.expect_fork(cipher, key, want, number);
            self.expect_unfork(cipher, key, want % 2, want, number);
        }
        for call in self.seals.iter().chain(&self.opens) {
            expect_sealing(call, key, number);
        }
    }

    fn expect_fork(&self, cipher: u32, key: &Both, want: u32, number: u32) {
        let (tweak, block) = (&self.tweak, &self.block);
        let [mut half0, mut half1] = [[BEFORE; 16]; 2];
        let halves = [&mut half0, &mut half1];
        let answer = calls::fork_prepared(cipher, &key.second, tweak, block, want);
        let told = auraski::fork_prepared(cipher, &key.library, tweak, block, want, halves);
        assert_eq!([told, answer.number], [number; 2]);
        assert_eq!([half0, half1], [answer.half0, answer.half1]);
    }

    fn expect_unfork(&self, cipher: u32, key: &Both, from: u32, want: u32, number: u32) {
        let (tweak, block) = (&self.tweak, &self.block);
        let [mut input, mut other] = [[BEFORE; 16]; 2];
        let ends = [&mut input, &mut other];
        let answer = calls::unfork_prepared(cipher, &key.second, tweak, block, from, want);
        let told = auraski::unfork_prepared(cipher, &key.library, tweak, block, from, want, ends);
        assert_eq!([told, answer.number], [number; 2]);
        assert_eq!([input, other], [answer.input, answer.other]);
    }
}

/// The room too, which is as it was where a prepared key is not admitted.
fn expect_sealing(call: &Call, key: &Both, number: u32) {
    let [mut ours, mut second] = [(); 2].map(|_| vec![BEFORE; call.room]);
    let calls = [sealing::seal_prepared, sealing::open_prepared];
    let answer = call.make_prepared(calls, &key.second, &mut second);
    let calls = [auraski::seal_prepared, auraski::open_prepared];
    let told = call.make_prepared(calls, &key.library, &mut ours);
    assert_eq!((answer.number, told), (number, answer.told()));
    assert_eq!(ours, second);
}

/// Runs a check under each cipher, with two prepared keys and something to do.
fn for_ciphers(seed: u64, check: impl Fn(u32, &Work, [Both; 2])) {
    let mut random = Random::new(seed);
    for cipher in CIPHERS {
        let (key, other) = (random.block(), random.block());
        let work = Work::new(&mut random, cipher, &key);
        check(
            cipher,
            &work,
            [key, other].map(|key| Both::prepare(cipher, &key)),
        );
    }
}

#[test]
fn the_size_is_the_header_s() {
    let header = include_str!("../../../include/auraski.h");
    let line = format!("\n#define AURASKI_PREPARED {}u\n", PREPARED_BYTES);
    assert!(header.contains(&line));
}

/// Known and unknown ciphers, with keys of every length up to 33 bytes. The same
/// key gives the same, and one that is refused zeros.
#[test]
fn preparing_agrees() {
    let mut random = Random::new(161);
    for cipher in [0, 1, 2, 3, 7, 257, u32::MAX] {
        for length in 0..=33 {
            let key = random.bytes(length);
            let (once, again) = (Both::prepare(cipher, &key), Both::prepare(cipher, &key));
            assert_eq!(once.library, again.library);
            let is_zero = once.library == [0; PREPARED_BYTES];
            assert_eq!(is_zero, once.second == Prepared::Refused);
        }
    }
}

/// Each byte in turn, to several others; then it is put back.
#[test]
fn a_change_of_any_byte_is_noticed() {
    for_ciphers(162, |cipher, work, [good, _]| {
        let mut bytes = good.library;
        for place in 0..PREPARED_BYTES {
            for flip in FLIPS {
                bytes[place] ^= flip;
                work.expect(cipher, &Both::of_no_key(bytes), NOT_ADMITTED);
                bytes[place] ^= flip;
            }
            let put_back = Both {
                library: bytes,
                ..good
            };
            work.expect(cipher, &put_back, DONE);
        }
    });
}

/// The front of one and the rest of another, cut at every place.
#[test]
fn a_mixture_of_two_is_not_admitted() {
    for_ciphers(163, |cipher, work, [one, other]| {
        for place in 0..=PREPARED_BYTES {
            let mut mixed = one.library;
            mixed[place..].copy_from_slice(&other.library[place..]);
            if mixed != one.library && mixed != other.library {
                work.expect(cipher, &Both::of_no_key(mixed), NOT_ADMITTED);
            }
        }
    });
}

/// Another cipher's; what a refusal gives; and bytes that nobody prepared.
#[test]
fn others_are_not_admitted() {
    let mut random = Random::new(164);
    for cipher in CIPHERS {
        let key = random.block();
        let work = Work::new(&mut random, cipher, &key);
        let drawn = random.bytes(PREPARED_BYTES).try_into().unwrap();
        for other in [
            Both::prepare(3 - cipher, &key),
            Both::prepare(0, &key),
            Both::prepare(cipher, &key[1..]),
            Both::of_no_key([0xff; PREPARED_BYTES]),
            Both::of_no_key([cipher as u8; PREPARED_BYTES]),
            Both::of_no_key(drawn),
        ] {
            work.expect(cipher, &other, NOT_ADMITTED);
        }
    }
}

/// Unknown numbers are told before a prepared key that is not admitted.
#[test]
fn numbers_are_judged_first() {
    for_ciphers(165, |cipher, work, [good, _]| {
        for key in [good, Both::of_no_key([0; PREPARED_BYTES])] {
            for unknown in [3, 7, 256, u32::MAX] {
                work.expect_fork(cipher, &key, unknown, REFUSED);
                work.expect_fork(unknown, &key, 2, REFUSED);
                work.expect_unfork(cipher, &key, 0, unknown, REFUSED);
                work.expect_unfork(cipher, &key, unknown - 1, 0, REFUSED);
                work.expect_unfork(unknown, &key, 1, 2, REFUSED);
            }
            for call in work.seals.iter().chain(&work.opens) {
                for scheme in [0, 8, 258, u32::MAX] {
                    expect_sealing(&call.with(|call| call.scheme = scheme), &key, REFUSED);
                }
            }
        }
    });
}

/// Every length that is wrong is told after it.
#[test]
fn lengths_are_judged_later() {
    let changes: [fn(&mut Call); 5] = [
        |call| call.nonce.push(0),
        |call| call.header = vec![1; row_of(call.scheme).most_header_bytes() + 1],
        |call| call.text = vec![1; row_of(call.scheme).most_body_bytes() + 17],
        |call| call.room = 0,
        |call| {
            let block = row_of(call.scheme).block_bytes;
            call.text.truncate(call.direction.of([0, block]));
            call.header.clear();
        },
    ];
    for_ciphers(166, |_, work, _| {
        let key = Both::of_no_key([0; PREPARED_BYTES]);
        for call in work.seals.iter().chain(&work.opens) {
            for change in changes {
                expect_sealing(&call.with(change), &key, NOT_ADMITTED);
            }
        }
        for call in &work.opens {
            let short = call.with(|call| call.text.truncate(3));
            expect_sealing(&short, &key, NOT_ADMITTED);
        }
    });
}
