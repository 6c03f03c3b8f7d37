"""How a job is laid out (document 01, "The desk's program"), and a stream of
jobs as the second program reads it."""

from typing import NamedTuple

SEAL, OPEN = 0, 1
SCHEMES = (1, 2, 3, 4, 5, 6, 7)
# The first number behind them.
UNKNOWN = 8
# Those that refuse an empty header over an empty body with 10 (C-14).
WITHOUT_NOTHING = (4, 5, 6, 7)

# Sizes in bytes (document 01, the table of the desk's part, and C-14).
KEY = 16
NONCE = {1: 6, 2: 14, 3: 15, 4: 6, 5: 6, 6: 14, 7: 14}
BLOCK = {1: 8, 2: 16, 3: 16, 4: 8, 5: 8, 6: 16, 7: 16}

# Bytes of a job at most; a longer one is 9.
MOST = 16384

# The document's own job, which is answered with 2.
EXAMPLE = bytes.fromhex("01 00 00 00 00 00 00 00 00 00")


def number(value):
    """Two bytes, the high one first."""
    return value.to_bytes(2, "big")


def counted(run):
    """A run after its two-byte count."""
    return number(len(run)) + run


def stream(jobs):
    """Jobs as the second program reads them, each after its count."""
    return b"".join(counted(job) for job in jobs)


class Job(NamedTuple):
    """A job before it is laid out. _replace gives it another part."""

    scheme: int
    direction: int
    key: bytes
    nonce: bytes
    header: bytes
    body: bytes

    def sections(self):
        return (self.key, self.nonce, self.header, self.body)

    def laid_out(self):
        sections = b"".join(counted(section) for section in self.sections())
        return bytes([self.scheme, self.direction]) + sections

    def size(self):
        return 2 + sum(2 + len(section) for section in self.sections())

    def count_places(self):
        """Where in the job the counts of the four sections stand."""
        places = [2]
        for section in self.sections()[:-1]:
            places.append(places[-1] + 2 + len(section))
        return places


class Sealed(NamedTuple):
    """A seal that is done, and the run it gave."""

    seal: Job
    run: bytes

    def opening(self):
        """The open of that run."""
        return self.seal._replace(direction=OPEN, body=self.run)


class Named(NamedTuple):
    """The bytes of a job, well formed or not, and what is special in it."""

    name: str
    job: bytes


def named(name, *jobs):
    return [Named(name, job.laid_out()) for job in jobs]


def twin(header):
    """The header that differs only in a last byte 80, as padding has it (P12)."""
    return header[:-1] if header.endswith(b"\x80") else header + b"\x80"


def fill_length(job, section, size):
    """How long a section must be for the job to have `size` bytes."""
    return size - job.size() + len(getattr(job, section))


def with_count(job, section, count):
    """The bytes of a job in which another count stands before a section."""
    run = job.laid_out()
    place = job.count_places()[section]
    return run[:place] + number(count) + run[place + 2 :]
