"""The jobs of every comparison: lengths at the edges of blocks and of a job,
and each way in which a job can be wrong. Only the bytes in them are random."""

from layout import (
    BLOCK,
    EXAMPLE,
    KEY,
    MOST,
    NONCE,
    SCHEMES,
    SEAL,
    UNKNOWN,
    WITHOUT_NOTHING,
    Job,
    Named,
    Sealed,
    fill_length,
    named,
    number,
    twin,
    with_count,
)


def edges(scheme):
    """Lengths of headers and bodies on both sides of where blocks end."""
    block = BLOCK[scheme]
    return (0, 1, block - 1, block, block + 1, 2 * block - 1, 2 * block, 2 * block + 1, 3 * block)


def random_bytes(random, length):
    return bytes(random.getrandbits(8) for _ in range(length))


def make_seal(random, scheme, header_length, body_length):
    lengths = (KEY, NONCE[scheme], header_length, body_length)
    return Job(scheme, SEAL, *(random_bytes(random, length) for length in lengths))


def filled(random, job, section, size):
    """The job with so long a section that it has `size` bytes."""
    run = random_bytes(random, fill_length(job, section, size))
    return job._replace(**{section: run})


def edge_seals(random):
    return [
        make_seal(random, scheme, header, body)
        for scheme in SCHEMES
        for header in edges(scheme)
        for body in edges(scheme)
    ]


def twin_seals(random):
    """Pairs of headers that pad alike if a block ends with the longer one."""
    seals = []
    for scheme in SCHEMES:
        for size in (8, 16, 32):
            for body in (0, 5, 16, 33):
                seal = make_seal(random, scheme, 0, body)
                header = random_bytes(random, size - 2) + b"\x01"
                seals += [seal._replace(header=header), seal._replace(header=twin(header))]
    return seals


def long_seals(random):
    """Around the longest job, and such whose opens are around it: an open has
    a block more than its seal. Then the header or the body is the longest that
    fits, under each scheme in each direction."""
    return [
        filled(random, make_seal(random, scheme, 0, 0), section, MOST + near - block)
        for scheme in SCHEMES
        for section in ("header", "body")
        for block in (0, BLOCK[scheme])
        for near in (-1, 0, 1)
    ]


def short_runs(short):
    """Runs cut to less than a block, and to one block."""
    return [
        job._replace(body=job.body[:length])
        for job in (sealed.opening() for sealed in short)
        for length in range(BLOCK[job.scheme] + 1)
    ]


def runs_of_nothing(random):
    """Runs of about a block under no header, where nothing is not sealed."""
    runs = []
    for scheme in WITHOUT_NOTHING:
        seal = make_seal(random, scheme, 0, 0)
        for length in (BLOCK[scheme] - 1, BLOCK[scheme], BLOCK[scheme] + 1):
            for run in (bytes(length), random_bytes(random, length)):
                runs.append(Sealed(seal, run).opening())
    return runs


def wrong_lengths(jobs):
    """Among them some of which only the count's high byte is wrong."""
    wrong = []
    for job in jobs:
        right = len(job.nonce)
        nonces = [length for length in range(18) if length != right] + [right + 256]
        wrong += [job._replace(nonce=bytes(length)) for length in nonces]
        wrong += [job._replace(key=bytes(length)) for length in (0, 1, 15, 17, 32, 255, 272)]
        # Both at once, also changed over.
        wrong += [job._replace(key=bytes(15), nonce=bytes(length)) for length in nonces]
        wrong.append(job._replace(key=job.nonce, nonce=job.key))
        # Also where a fault of the run would come later.
        wrong += [job._replace(key=b"", body=b""), job._replace(nonce=b"", body=b"")]
    return wrong


def unknown_schemes(jobs):
    schemes = (0, UNKNOWN, UNKNOWN + 1, 127, 128, 255)
    return [job._replace(scheme=scheme) for job in jobs for scheme in schemes]


def other_directions(jobs):
    return [
        job._replace(scheme=scheme, direction=direction)
        for job in jobs[:1]
        for scheme in (0, *SCHEMES, UNKNOWN, 255)
        for direction in (2, 3, 127, 128, 254, 255)
    ]


def cut_jobs(jobs):
    """Cut at every place."""
    runs = [job.laid_out() for job in jobs]
    return [run[:length] for run in runs for length in range(len(run))]


def longer_jobs(jobs):
    runs = [job.laid_out() for job in jobs]
    return [run + more for run in runs for more in (b"\x00", b"\xff", bytes(2), bytes(255), run)]


def wrong_counts(jobs):
    wrong = []
    for job in jobs:
        for place, section in enumerate(job.sections()):
            right = len(section)
            for count in (right + 1, right - 1, 0, 255, right + 256, 32767, 32768, 65535):
                if count not in (right, -1):
                    wrong.append(with_count(job, place, count))
    return wrong


def low_byte_first(jobs):
    """Jobs as a program would lay them out that has the counts' bytes turned."""
    return [
        bytes([job.scheme, job.direction])
        + b"".join(number(len(section))[::-1] + section for section in job.sections())
        for job in jobs
    ]


def tiny_jobs():
    """Fewer bytes than the counts of four empty sections take, and just those."""
    tiny = [bytes(length) for length in range(11)]
    tiny += [bytes([scheme]) for scheme in (*SCHEMES, UNKNOWN, 255)]
    return tiny + [bytes([scheme, direction]) for scheme in (1, UNKNOWN) for direction in (0, 1, 2)]


def long_jobs(random, jobs):
    """Well formed, and nearly all refused: for their length, for a key or nonce
    that fills the job, for the scheme."""
    long = []
    for job in jobs:
        for size in (MOST, MOST + 1, 20000, 40000):
            long.append(filled(random, job, "key", size))
            long.append(filled(random, job, "body", size)._replace(scheme=UNKNOWN))
        long.append(filled(random, job, "nonce", MOST))
        # A header that fills the job, so that no byte of a body or run is left.
        long.append(filled(random, job._replace(body=b""), "header", MOST))
    return long


def longest_and_more(random, jobs):
    """The front of each, as long as a job can be, is a job for itself."""
    runs = [filled(random, job, "body", MOST).laid_out() for job in jobs]
    return [run + more for run in runs for more in (b"\x00", bytes(5000))]


def long_noise(random):
    sizes = (MOST - 1, MOST, MOST + 1, 20000, 32767, 32768, 40000)
    return [random_bytes(random, size) for size in sizes] + [bytes(size) for size in sizes]


def make(random, seal_all):
    """All of them. `seal_all` gives those of a list of seals that are done,
    with their runs."""
    seals = edge_seals(random) + long_seals(random)
    twins = twin_seals(random)
    short = seal_all([make_seal(random, scheme, 5, 3) for scheme in SCHEMES])
    # A short job of each scheme in each direction.
    good = [sealed.seal for sealed in short] + [sealed.opening() for sealed in short]
    # What is malformed is so under every scheme: schemes 1 to 3 have all lengths of nonces.
    few = [job for job in good if job.scheme <= 3]
    made = named("a seal", *seals, *twins)
    made += named("the open of a seal", *(sealed.opening() for sealed in seal_all(seals + twins)))
    for sealed in seal_all(twins):
        job = sealed.opening()
        made += named("a header with or without 80", job._replace(header=twin(job.header)))
    made += named("a run of a block or less", *short_runs(short))
    made += named("a run of about a block and no header", *runs_of_nothing(random))
    made += named("a wrong length of key or nonce", *wrong_lengths(good))
    made += named("an unknown scheme", *unknown_schemes(good))
    made += named("another direction", *other_directions(good))
    made += named("a long job", *long_jobs(random, good))
    others = {
        "the document's own job": [EXAMPLE],
        "a job cut short": cut_jobs(few),
        "a job with bytes left over": longer_jobs(few),
        "a wrong count": wrong_counts(few),
        "counts with the low byte first": low_byte_first(few),
        "a few bytes": tiny_jobs(),
        "the longest job with bytes left over": longest_and_more(random, few),
        "many bytes": long_noise(random),
    }
    return made + [Named(name, job) for name, jobs in others.items() for job in jobs]
