"""A job and its bytes: scheme, direction, then four sections, each after its two-byte count, high byte first."""
from collections import namedtuple

SEAL, OPEN = 0, 1
MOST = 16384  # what sealjob takes
LARGEST = 2 + 4 * (2 + 65535)  # what four sections could come to
SECTIONS = ("key", "nonce", "header", "body")


def count(data):
    return "1 byte" if len(data) == 1 else f"{len(data):,} bytes"


class Job(namedtuple("Job", ("scheme", "direction") + SECTIONS)):
    def laid_out(self):
        front = bytes((self.scheme, self.direction))
        return front + b"".join(len(part).to_bytes(2, "big") + part for part in self[2:])

    def sizes(self):
        return ", ".join(f"{name} {len(part):,}" for name, part in zip(SECTIONS, self[2:]))

    def most_output(self):
        """A bound: a sealed run is one block longer than its body, and no block has more than 16 bytes."""
        return len(self.body) + 16

    @property
    def verb(self):
        return "open" if self.direction == OPEN else "seal"

    @property
    def last(self):
        """What the last section is in this direction."""
        return "sealed run" if self.direction == OPEN else "body"


class NoJob(ValueError):
    """Bytes that are no job, and why."""


def cut_section(rest, name):
    length, behind = int.from_bytes(rest[:2], "big"), rest[2:]
    if len(rest) < 2:
        raise NoJob(f"it is cut short before the {name}'s two-byte count ends")
    if len(behind) < length:
        raise NoJob(f"it is cut short: the {name}'s count says {length:,}, with {count(behind)} behind it")
    return behind[:length], behind[length:]


def job_of(data):
    """The job that bytes lay out, of any length."""
    if len(data) < 2:
        raise NoJob("it is cut short before scheme and direction")
    if data[1] not in (SEAL, OPEN):
        raise NoJob(f"its direction byte is {data[1]}, neither 0 (seal) nor 1 (open)")
    rest, parts = data[2:], []
    for name in SECTIONS:
        part, rest = cut_section(rest, name)
        parts.append(part)
    if rest:
        raise NoJob(f"{count(rest)} left over behind the body")
    return Job(data[0], data[1], *parts)


def why_none(data):
    """Why sealjob answers 9 to these bytes; None if it should not."""
    if len(data) > MOST:
        return f"it has {len(data):,} bytes, and {MOST:,} is the most"
    try:
        job_of(data)
    except NoJob as reason:
        return str(reason)
    return None
