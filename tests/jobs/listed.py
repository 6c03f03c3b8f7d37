"""The stored jobs: a short list, each with its name and the number it must be
answered with."""

from typing import NamedTuple

import programs
from layout import (
    BLOCK,
    EXAMPLE,
    MOST,
    NONCE,
    OPEN,
    SCHEMES,
    SEAL,
    UNKNOWN,
    WITHOUT_NOTHING,
    Job,
    Sealed,
    fill_length,
    with_count,
)

KEY = bytes.fromhex("000102030405060708090a0b0c0d0e0f")
NONCES = bytes.fromhex("a0a1a2a3a4a5a6a7a8a9aaabacadae")
HEADER = b"fifteen letters"
# The desk's accident: with this byte its last block is full, and as padding
# would make it without.
HEADER_80 = HEADER + b"\x80"
BODY = b"open the north gate at six"


class Stored(NamedTuple):
    """The bytes of a job, and the number it must be answered with."""

    name: str
    number: int
    job: bytes


def seal_of(scheme, header, body):
    return Job(scheme, SEAL, KEY, NONCES[: NONCE[scheme]], header, body)


def sealed(second, scheme, header, body):
    seal = seal_of(scheme, header, body)
    done = programs.sealed(second, [seal])
    if not done:
        programs.stop("the second program refuses to seal under scheme %d" % scheme)
    return done[0]


def accident_jobs(second, scheme):
    """A header of fifteen bytes and the same with 80 at its end. Each run opens
    under its own header alone."""
    short = sealed(second, scheme, HEADER, BODY)
    full = sealed(second, scheme, HEADER_80, BODY)
    return [
        ("seal under fifteen bytes", 0, short.seal),
        ("seal under sixteen bytes, the last 80", 0, full.seal),
        ("open under fifteen bytes", 0, short.opening()),
        ("open under sixteen bytes, the last 80", 0, full.opening()),
        ("fifteen opened under sixteen", 6, short.opening()._replace(header=HEADER_80)),
        ("sixteen opened under fifteen", 6, full.opening()._replace(header=HEADER)),
    ]


def empty_jobs(second, scheme):
    if scheme in WITHOUT_NOTHING:
        number, empty = 10, Sealed(seal_of(scheme, b"", b""), bytes(BLOCK[scheme]))
    else:
        number, empty = 0, sealed(second, scheme, b"", b"")
    return [
        ("seal of nothing under nothing", number, empty.seal),
        ("open of nothing under nothing", number, empty.opening()),
    ]


def refused_jobs(second, scheme):
    good = sealed(second, scheme, HEADER, BODY)
    seal, opening = good.seal, good.opening()
    short_nonce, long_nonce = seal.nonce[:-1], seal.nonce + b"\0"
    cut = good.run[: BLOCK[scheme] - 1]
    flipped = bytes([good.run[0] ^ 1]) + good.run[1:]
    return [
        ("seal with a key of 15 bytes", 2, seal._replace(key=KEY[:15])),
        ("open with key and nonce too short", 2, opening._replace(key=KEY[:15], nonce=short_nonce)),
        ("seal with a nonce a byte too short", 7, seal._replace(nonce=short_nonce)),
        ("open with a nonce a byte too long", 7, opening._replace(nonce=long_nonce)),
        ("open of a byte less than a block", 4, opening._replace(body=cut)),
        ("open of a run with a bit flipped", 6, opening._replace(body=flipped)),
        ("seal cut by a byte", 9, seal.laid_out()[:-1]),
        ("open with a byte left over", 9, opening.laid_out() + b"\0"),
    ]


def sibling_jobs(second):
    """Runs of Umbreon opened by Jolteon over the same cipher. Of a body of at
    most a block both make the same run."""
    jobs = []
    for umbreon, jolteon in ((4, 5), (6, 7)):
        whole = sealed(second, umbreon, HEADER, BODY[: BLOCK[umbreon]])
        longer = sealed(second, umbreon, HEADER, BODY)
        about = "scheme %d opened under %d, " % (umbreon, jolteon)
        jobs += [
            (about + "a body of a block", 0, whole.opening()._replace(scheme=jolteon)),
            (about + "a longer body", 6, longer.opening()._replace(scheme=jolteon)),
        ]
    return jobs


def scheme_jobs():
    seal = seal_of(1, HEADER, BODY)
    return [
        ("seal under scheme 0", 1, seal._replace(scheme=0)),
        ("open under the next scheme", 1, seal._replace(scheme=UNKNOWN, direction=OPEN)),
        ("seal under scheme 255", 1, seal._replace(scheme=255)),
    ]


def malformed_jobs():
    seal = seal_of(2, HEADER, BODY)
    run = seal.laid_out()
    return [
        ("no byte at all", 9, b""),
        ("a scheme alone", 9, run[:1]),
        ("scheme and direction alone", 9, run[:2]),
        ("half of the key's count", 9, run[:3]),
        ("cut inside the key", 9, run[:12]),
        ("cut before the body's count", 9, run[: seal.count_places()[3]]),
        ("a body's count one more", 9, with_count(seal, 3, len(BODY) + 1)),
        ("a body's count one less", 9, with_count(seal, 3, len(BODY) - 1)),
        ("direction 2", 9, seal._replace(direction=2)),
        ("direction 255", 9, seal._replace(direction=255)),
        ("direction 2 under no scheme", 9, seal._replace(scheme=UNKNOWN, direction=2)),
    ]


def filled(job, section, size):
    """The job with so long a section that it has `size` bytes."""
    length = fill_length(job, section, size)
    return job._replace(**{section: bytes(place % 251 for place in range(length))})


def long_jobs(second):
    seal = seal_of(1, HEADER, b"")
    # An open has a block more than its seal.
    header = filled(seal_of(3, b"", BODY), "header", MOST - BLOCK[3]).header
    longest = sealed(second, 3, header, BODY).opening()
    return [
        ("seal of 16,384 bytes", 0, filled(seal, "body", MOST)),
        ("seal of 16,385 bytes", 9, filled(seal, "body", MOST + 1)),
        ("open of 16,384 bytes with a byte left over", 9, longest.laid_out() + b"\0"),
    ]


def make(second):
    """All of them, the opens made from what the second program seals."""
    jobs = [("the document's own job", 2, EXAMPLE)]
    for scheme in SCHEMES:
        for kind in (accident_jobs, empty_jobs, refused_jobs):
            jobs += [
                ("scheme %d, %s" % (scheme, name), number, job)
                for name, number, job in kind(second, scheme)
            ]
    jobs += sibling_jobs(second) + scheme_jobs() + malformed_jobs() + long_jobs(second)
    return [
        Stored(name, number, job.laid_out() if isinstance(job, Job) else job)
        for name, number, job in jobs
    ]
