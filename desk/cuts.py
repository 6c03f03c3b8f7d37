"""Sealed runs cut into their pieces: a sealed block for each block of the body before the last one, what the last one is sealed to, and the
tag; and in which of them two runs differ. Blocks and bytes are counted from 1."""
from jobs import count
from slips import listed

# What the last block is sealed to is a whole block, and the tag as long as that block of the body was; under the others it is the other way round.
WHOLE_LAST = ("PAEF", "SAEF")


class Cut:
    def __init__(self, scheme, run):
        self.run, self.block = run, scheme.block
        self.body = len(run) - scheme.block
        self.before = max(self.body - 1, 0) // scheme.block
        self.rest = self.body - self.before * scheme.block  # the bytes of the body's last block: none if it is empty
        self.last_at = self.before * scheme.block
        self.tag_at = self.last_at + (scheme.block if scheme.mode in WHOLE_LAST and self.rest else self.rest)

    def sealed(self, number):
        return self.run[(number - 1) * self.block:number * self.block]

    @property
    def last(self):
        return self.run[self.last_at:self.tag_at]

    @property
    def tag(self):
        return self.run[self.tag_at:]


def changed(one, other):
    """The numbers of the sealed blocks that differ, of those that both runs have."""
    both = range(1, min(one.before, other.before) + 1)
    return [number for number in both if one.sealed(number) != other.sealed(number)]


def spans(numbers):
    """Numbers in rising order, as pairs of a first and a last one without a gap."""
    found = []
    for number in numbers:
        if found and number == found[-1][1] + 1:
            found[-1][1] = number
        else:
            found.append([number, number])
    return found


def named(span):
    first, last = span
    return f"{first:,}" if first == last else f"{first:,} to {last:,}"


def blocks(numbers):
    """As "block 2" or "blocks 2, 5 and 7 to 9"."""
    return f"block{'s' if len(numbers) > 1 else ''} {listed([named(span) for span in spans(numbers)])}"


def place(start, end):
    """The bytes behind the first `start`, to the one with the number `end`."""
    return f"(byte {end:,})" if end - start == 1 else f"(bytes {start + 1:,} to {end:,})"


def verdict(same):
    return "same" if same else "DIFFERS"


def block_rows(one, other):
    """Neighbours that agree share a row, and so do neighbours that differ."""
    differing = changed(one, other)
    alike = sorted(set(range(1, min(one.before, other.before) + 1)).difference(differing))
    found = [(span, True) for span in spans(alike)] + [(span, False) for span in spans(differing)]
    for (first, last), same in sorted(found):
        yield verdict(same), f"{blocks(range(first, last + 1))} {place((first - 1) * one.block, last * one.block)}"


def rows(one, other):
    """A verdict and a piece, or a row of blocks. The ends of runs of unequal lengths are not compared."""
    yield from block_rows(one, other)
    if len(one.run) != len(other.run):
        return
    if one.rest:
        yield verdict(one.last == other.last), f"what the last block, {one.before + 1:,}, is sealed to {place(one.last_at, one.tag_at)}"
    yield verdict(one.tag == other.tag), f"the tag {place(one.tag_at, len(one.run))}"


def sizes(one, other):
    if len(one.run) != len(other.run):
        return (f"unequal lengths, {len(one.run):,} and {len(other.run):,} bytes, of bodies of {one.body:,} and {other.body:,}; "
                "compared is what stands before the last block of both")
    if not one.body:
        return f"{count(one.run)} each, of empty bodies"
    parts = f"{one.before + 1:,} blocks, the last of {one.rest}" if one.before else f"one block of {one.rest}"
    return f"{count(one.run)} each, of bodies of {one.body:,}: {parts}"
