//! The desk's program of the second program, against document 01, with the
//! refusals of C-11 and C-14, and against its own seal and open.

use compare::jobs::{jobs, line};
use compare::random::Random;
use compare::schemes::Scheme;
use compare::sealing::seal;

mod program;

const SCHEMES: [u8; 7] = [1, 2, 3, 4, 5, 6, 7];
const DIRECTIONS: [u8; 2] = [SEAL, OPEN];
const SEAL: u8 = 0;
const OPEN: u8 = 1;

const MALFORMED: &str = "9 0 -\n";

/// A job before it is laid out.
#[derive(Clone)]
struct Parts {
    scheme: u8,
    direction: u8,
    key: Vec<u8>,
    nonce: Vec<u8>,
    header: Vec<u8>,
    body: Vec<u8>,
}

fn row_of(scheme: u8) -> &'static Scheme {
    Scheme::find(scheme.into()).expect("a scheme of the table")
}

/// A run after its two-byte count.
fn counted(run: &[u8]) -> Vec<u8> {
    let count = u16::try_from(run.len()).expect("a count of two bytes");
    [&count.to_be_bytes()[..], run].concat()
}

fn hex(bytes: &[u8]) -> String {
    bytes.iter().map(|byte| format!("{:02x}", byte)).collect()
}

impl Parts {
    /// A seal of a body under a short header.
    fn sealing(scheme: u8, body: &[u8]) -> Parts {
        let mut random = Random::new(71);
        Parts {
            scheme,
            direction: SEAL,
            key: random.bytes(16),
            nonce: random.bytes(row_of(scheme).nonce_bytes),
            header: random.bytes(5),
            body: body.to_vec(),
        }
    }

    /// The open of what that seal gives.
    fn opening(scheme: u8, body: &[u8]) -> Parts {
        let sealing = Parts::sealing(scheme, body);
        Parts {
            direction: OPEN,
            body: sealing.run(),
            ..sealing
        }
    }

    /// A good job of the direction, with a body of three bytes.
    fn good(scheme: u8, direction: u8) -> Parts {
        match direction {
            SEAL => Parts::sealing(scheme, b"abc"),
            _ => Parts::opening(scheme, b"abc"),
        }
    }

    /// What the call itself gives, without a job.
    fn run(&self) -> Vec<u8> {
        let mut room = vec![0; self.body.len() + row_of(self.scheme).block_bytes];
        let answer = seal(
            self.scheme.into(),
            &self.key,
            &self.nonce,
            &self.header,
            &self.body,
            &mut room,
        );
        assert_eq!((answer.number, answer.length), (0, room.len()));
        room
    }

    fn job(&self) -> Vec<u8> {
        let mut job = vec![self.scheme, self.direction];
        for section in [&self.key, &self.nonce, &self.header, &self.body] {
            job.extend(counted(section));
        }
        job
    }

    fn line(&self) -> String {
        line(&self.job())
    }

    /// A body of zeros so long that the job has just so many bytes.
    fn fill(mut self, bytes: usize) -> Parts {
        self.body = vec![0; bytes - (self.job().len() - self.body.len())];
        assert_eq!(self.job().len(), bytes);
        self
    }
}

/// Does something for each scheme in each direction.
fn for_all(mut check: impl FnMut(u8, u8)) {
    for scheme in SCHEMES {
        for direction in DIRECTIONS {
            check(scheme, direction);
        }
    }
}

#[test]
fn the_document_s_own_job() {
    assert_eq!(line(&[1, 0, 0, 0, 0, 0, 0, 0, 0, 0]), "2 0 -\n");
}

#[test]
fn what_is_done_is_0_with_the_output() {
    for scheme in SCHEMES {
        for length in [1, 7, 8, 9, 16, 17, 300] {
            let body = Random::new(72).bytes(length);
            let sealing = Parts::sealing(scheme, &body);
            let run = sealing.run();
            let sealed = format!("0 {} {}\n", run.len(), hex(&run));
            assert_eq!(sealing.line(), sealed);
            let opened = format!("0 {} {}\n", length, hex(&body));
            assert_eq!(Parts::opening(scheme, &body).line(), opened);
        }
    }
}

#[test]
fn an_empty_body_is_sealed_to_a_block_and_opened_to_a_dash() {
    for scheme in SCHEMES {
        let run = Parts::sealing(scheme, &[]).run();
        let sealed = format!("0 {} {}\n", row_of(scheme).block_bytes, hex(&run));
        assert_eq!(Parts::sealing(scheme, &[]).line(), sealed);
        assert_eq!(Parts::opening(scheme, &[]).line(), "0 0 -\n");
    }
}

#[test]
fn unknown_schemes_are_1() {
    for_all(|scheme, direction| {
        let mut parts = Parts::good(scheme, direction);
        for unknown in [0, 8, 9, 128, 255] {
            parts.scheme = unknown;
            assert_eq!(parts.line(), "1 0 -\n");
        }
    });
}

/// Whatever the nonce's length is.
#[test]
fn wrong_key_lengths_are_2() {
    for_all(|scheme, direction| {
        let good = Parts::good(scheme, direction);
        for length in [0, 15, 17, 16 + 256] {
            let mut parts = good.clone();
            parts.key.resize(length, 1);
            assert_eq!(parts.line(), "2 0 -\n");
            parts.nonce.push(1);
            assert_eq!(parts.line(), "2 0 -\n");
        }
    });
}

#[test]
fn wrong_nonce_lengths_are_7() {
    for_all(|scheme, direction| {
        let good = Parts::good(scheme, direction);
        let right = good.nonce.len();
        for length in [0, right - 1, right + 1, 16, right + 256] {
            let mut parts = good.clone();
            parts.nonce.resize(length, 1);
            assert_eq!(parts.line(), "7 0 -\n");
        }
    });
}

#[test]
fn runs_shorter_than_a_block_are_4() {
    for scheme in SCHEMES {
        let mut parts = Parts::opening(scheme, &[]);
        while parts.body.pop().is_some() {
            assert_eq!(parts.line(), "4 0 -\n");
        }
    }
}

#[test]
fn a_changed_bit_of_any_section_is_6() {
    for scheme in SCHEMES {
        for body in [&b""[..], b"abc", b"twenty bytes of body"] {
            let good = Parts::opening(scheme, body);
            let changed = |change: fn(&mut Parts)| {
                let mut parts = good.clone();
                change(&mut parts);
                parts.line()
            };
            assert_eq!(changed(|parts| parts.key[15] ^= 1), "6 0 -\n");
            assert_eq!(changed(|parts| parts.nonce[0] ^= 0x80), "6 0 -\n");
            assert_eq!(changed(|parts| parts.header[4] ^= 4), "6 0 -\n");
            assert_eq!(changed(|parts| parts.body[7] ^= 2), "6 0 -\n");
            assert_eq!(changed(|parts| parts.body.push(0)), "6 0 -\n");
        }
    }
}

/// A run of one block is 10 whatever it holds, and a shorter one is 4.
#[test]
fn nothing_under_nothing_is_10_from_scheme_4_on() {
    for scheme in 4..=7 {
        let mut parts = Parts::sealing(scheme, b"abc");
        parts.header.clear();
        assert_eq!(parts.line()[..2], *"0 ");
        parts.body.clear();
        assert_eq!(parts.line(), "10 0 -\n");

        let mut parts = Parts::opening(scheme, &[]);
        assert_eq!(parts.line(), "0 0 -\n");
        parts.header.clear();
        assert_eq!(parts.line(), "10 0 -\n");
        parts.body[0] ^= 1;
        assert_eq!(parts.line(), "10 0 -\n");
        parts.body.pop();
        assert_eq!(parts.line(), "4 0 -\n");
    }
}

/// At every place, so that no byte at all and one byte are among them.
#[test]
fn jobs_cut_short_are_9() {
    for_all(|scheme, direction| {
        let job = Parts::good(scheme, direction).job();
        for length in 0..job.len() {
            assert_eq!(line(&job[..length]), MALFORMED);
        }
        assert_eq!(line(&job)[..2], *"0 ");
    });
}

#[test]
fn bytes_left_over_are_9() {
    for_all(|scheme, direction| {
        let mut job = Parts::good(scheme, direction).job();
        for left_over in [0, 0, 1, 255] {
            job.push(left_over);
            assert_eq!(line(&job), MALFORMED);
        }
    });
}

#[test]
fn other_directions_are_9_under_every_scheme() {
    let mut parts = Parts::good(1, SEAL);
    for scheme in SCHEMES.into_iter().chain([0, 8, 255]) {
        parts.scheme = scheme;
        for direction in 2..=255 {
            parts.direction = direction;
            assert_eq!(parts.line(), MALFORMED);
        }
    }
}

/// A scheme or a length that would be refused does not come first.
#[test]
fn what_is_malformed_is_9_before_all_else() {
    for direction in DIRECTIONS {
        let mut parts = Parts::good(1, direction);
        parts.scheme = 8;
        parts.key.clear();
        let mut job = parts.job();
        assert_eq!(line(&job), "1 0 -\n");
        assert_eq!(line(&job[..job.len() - 1]), MALFORMED);
        job.push(0);
        assert_eq!(line(&job), MALFORMED);
        assert_eq!(parts.clone().fill(16_384).line(), "1 0 -\n");
        assert_eq!(parts.fill(16_385).line(), MALFORMED);
    }
}

#[test]
fn counts_have_their_high_byte_first() {
    let mut parts = Parts::good(2, SEAL);
    parts.header = vec![7; 0x102];
    let mut job = parts.job();
    assert_eq!(line(&job)[..5], *"0 19 ");
    let place = 2 + 2 + 16 + 2 + 14;
    assert_eq!(job[place..place + 2], [1, 2]);
    job.swap(place, place + 1);
    assert_eq!(line(&job), MALFORMED);
}

#[test]
fn seals_of_16384_bytes_are_taken_and_of_16385_are_9() {
    for scheme in SCHEMES {
        let longest = Parts::sealing(scheme, &[]).fill(16_384);
        let run = longest.run();
        let sealed = format!("0 {} {}\n", run.len(), hex(&run));
        assert_eq!(longest.line(), sealed);
        let followed = [&longest.job()[..], &[0]].concat();
        assert_eq!(line(&followed), MALFORMED);
        assert_eq!(longest.fill(16_385).line(), MALFORMED);
    }
}

#[test]
fn opens_of_16384_bytes_are_taken_and_of_16385_are_9() {
    for scheme in SCHEMES {
        let run_bytes = Parts::sealing(scheme, &[]).fill(16_384).body.len();
        let mut body = vec![8; run_bytes - row_of(scheme).block_bytes];
        let longest = Parts::opening(scheme, &body);
        assert_eq!(longest.job().len(), 16_384);
        let opened = format!("0 {} {}\n", body.len(), hex(&body));
        assert_eq!(longest.line(), opened);
        body.push(8);
        assert_eq!(Parts::opening(scheme, &body).line(), MALFORMED);
    }
}

#[test]
fn an_input_is_cut_into_its_jobs() {
    let input = [&counted(b"one")[..], &counted(b""), &counted(&[4; 300])].concat();
    let expected = vec![&b"one"[..], b"", &[4; 300]];
    assert_eq!(jobs(&input), (expected.clone(), &b""[..]));
    assert_eq!(jobs(&[]), (vec![], &b""[..]));
    // A count cut short, and a job cut short.
    for left in [&[0][..], &[0, 1], &[1, 2, 3]] {
        let longer = [&input[..], left].concat();
        assert_eq!(jobs(&longer), (expected.clone(), left));
    }
}
