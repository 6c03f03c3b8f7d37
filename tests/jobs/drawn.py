"""Jobs drawn at random: seals, the opens of what they gave, and both with
something changed in them. The kinds take turns."""

from fixed import filled, make_seal, random_bytes
from layout import (
    BLOCK,
    MOST,
    NONCE,
    SCHEMES,
    WITHOUT_NOTHING,
    Named,
    Sealed,
    named,
    twin,
    with_count,
)

# How many seals the opens and the changed jobs are drawn from.
POOL = 300


def random_seal(random):
    """Mostly of a few blocks, now and then of many."""
    longest = random.choice((20, 20, 100, 100, 100, 2000))
    header, body = random.randrange(longest), random.randrange(longest)
    return make_seal(random, random.choice(SCHEMES), header, body)


def flipped(random, run):
    """One bit flipped; a byte in place of nothing."""
    if not run:
        return b"\x00"
    place = random.randrange(len(run))
    other = run[place] ^ (1 << random.randrange(8))
    return run[:place] + bytes([other]) + run[place + 1 :]


def resized(random, run):
    """Cut or lengthened, by one byte or by any number."""
    length = random.choice((max(len(run) - 1, 0), len(run) + 1, random.randrange(40)))
    return run[:length] + random_bytes(random, max(length - len(run), 0))


# Each kind makes a job from the open of what was sealed. Those that lay out all
# sections:


def seal(random, _):
    return random_seal(random)


def opened(random, job):
    return job


def run_flipped(random, job):
    return job._replace(body=flipped(random, job.body))


def header_flipped(random, job):
    return job._replace(header=flipped(random, job.header))


def nonce_flipped(random, job):
    return job._replace(nonce=flipped(random, job.nonce))


def key_flipped(random, job):
    return job._replace(key=flipped(random, job.key))


def run_cut(random, job):
    return job._replace(body=job.body[: random.randrange(len(job.body))])


def run_lengthened(random, job):
    return job._replace(body=job.body + random_bytes(random, random.randrange(1, 20)))


def header_with_or_without_80(random, job):
    return job._replace(header=twin(job.header))


def header_resized(random, job):
    return job._replace(header=resized(random, job.header))


def border_moved(random, job):
    """The same bytes of header and run, cut at another place."""
    both = job.header + job.body
    place = random.randrange(len(both) + 1)
    return job._replace(header=both[:place], body=both[place:])


def key_resized(random, job):
    return job._replace(key=resized(random, job.key), direction=random.randrange(2))


def nonce_resized(random, job):
    return job._replace(nonce=resized(random, job.nonce), direction=random.randrange(2))


def key_and_nonce_resized(random, job):
    return nonce_resized(random, key_resized(random, job))


def any_scheme(random, job):
    return job._replace(scheme=random.randrange(256), direction=random.randrange(2))


def other_scheme(random, job):
    """Another one, with a nonce that fits it."""
    scheme = random.choice([scheme for scheme in SCHEMES if scheme != job.scheme])
    nonce = (job.nonce + bytes(15))[: NONCE[scheme]]
    return job._replace(scheme=scheme, nonce=nonce)


def nothing(random, _):
    """No header, and no body or a run of a block, where that is not sealed."""
    seal = make_seal(random, random.choice(WITHOUT_NOTHING), 0, 0)
    run = random_bytes(random, BLOCK[seal.scheme])
    return random.choice((seal, Sealed(seal, run).opening()))


def any_direction(random, job):
    return job._replace(direction=random.randrange(256))


def about_the_longest(random, job):
    section = random.choice(("header", "body"))
    job = job._replace(direction=random.randrange(2))
    return filled(random, job, section, MOST + random.randrange(-20, 21))


WHOLE = (
    seal,
    opened,
    run_flipped,
    header_flipped,
    nonce_flipped,
    key_flipped,
    run_cut,
    run_lengthened,
    header_with_or_without_80,
    header_resized,
    border_moved,
    key_resized,
    nonce_resized,
    key_and_nonce_resized,
    any_scheme,
    other_scheme,
    nothing,
    any_direction,
    about_the_longest,
)

# Those that give bytes, of which few are well formed:


def count_changed(random, job):
    place = random.randrange(4)
    right = len(job.sections()[place])
    count = random.choice((right + 1, max(right - 1, 0), random.randrange(65536)))
    return with_count(job, place, count)


def job_cut(random, job):
    run = job.laid_out()
    return run[: random.randrange(len(run))]


def job_lengthened(random, job):
    return job.laid_out() + random_bytes(random, random.randrange(1, 300))


def bytes_changed(random, job):
    run = bytearray(job.laid_out())
    for _ in range(random.randrange(1, 5)):
        # As often in the front, where the counts stand, as in the whole.
        place = random.randrange(min(len(run), random.choice((8, len(run)))))
        run[place] = random.randrange(256)
    return bytes(run)


def bytes_at_random(random, _):
    return random_bytes(random, random.randrange(200))


def many_bytes_at_random(random, _):
    return random_bytes(random, random.randrange(MOST - 100, 40001))


BYTES = (
    count_changed,
    job_cut,
    job_lengthened,
    bytes_changed,
    bytes_at_random,
    many_bytes_at_random,
)


def make(random, seal_all, count):
    """So many jobs, the kinds taking turns."""
    pool = seal_all([random_seal(random) for _ in range(POOL)])
    made = []
    while len(made) < count:
        for kind in WHOLE:
            made += named(title(kind), kind(random, random.choice(pool).opening()))
        for kind in BYTES:
            made.append(Named(title(kind), kind(random, random.choice(pool).opening())))
    return made[: max(count, 0)]


def title(kind):
    return "drawn: " + kind.__name__.replace("_", " ")
