"""What two sealed runs can mean, from the pieces in which they differ. docs/DIFFER.md says why, and names the theorems."""
from cuts import WHOLE_LAST, blocks, changed
from jobs import count

BEWARE = ("Where key, nonce or header differ, none of this follows, and equal runs are not to be expected: fifteen bytes of a header, and the "
          "same with 80 added, are two headers. Whether a run is authentic, only open tells.")
NONE = "no two bodies give such runs. So the scheme is another, or key, nonce or header differ, or a run was changed on its way."
LAST_ALONE = "of the bodies the last block alone differs"
BEHIND_SAEF = "Behind it every sealed block may differ, whatever the bodies hold."
BEHIND = "Of what stands behind it nothing is promised under this scheme."


def apart(numbers):
    return f"of the bodies {blocks(numbers)} {'differs' if len(numbers) == 1 else 'differ'}"


def paef_one(number, one, other):
    """One sealed block before the last differs, the tag agrees, and it is too short to tell the last block of the bodies."""
    if one.last == other.last:
        return f"{apart([number])}, and the last block too, though its tag agrees: one block alone would have moved what the last is sealed to."
    return (f"{apart([number])}, and no other before the last. This is what one changed block moves: its own sealed block, and what the last "
            f"block is sealed to. Was the last block changed too, its tag of {count(one.tag)} agrees by chance.")


def paef_untold(numbers, one, other):
    """The tag agrees, and is too short to tell the last block of the bodies."""
    if not numbers:
        return (f"{LAST_ALONE}, though its tag agrees. Or the headers differ and the bodies don't: under PAEF a header moves what the last block "
                "is sealed to, and nothing else.")
    if len(numbers) == 1:
        return paef_one(numbers[0], one, other)
    return (f"{apart(numbers)}, and no other before the last. Whether the last differs too is not told: two changed blocks or more may move "
            "what it is sealed to, and may leave it as it was.")


def paef(numbers, one, other):
    """A sealed block differs exactly if the body's does; the tag is the last block's alone, and a whole one tells it."""
    if one.tag == other.tag and one.rest < one.block:
        return paef_untold(numbers, one, other)
    if one.tag != other.tag:
        return f"{apart(numbers)}, and the last block too, and no other." if numbers else f"{LAST_ALONE}."
    if not numbers or len(numbers) == 1 and one.last == other.last:
        return NONE
    return f"{apart(numbers)}, and no other."


def chained(mode, numbers):
    """What a block is sealed to may hang on the blocks before it."""
    if not numbers:
        return f"{LAST_ALONE}."
    first = numbers[0]
    agree = f"the bodies agree in {blocks(range(1, first))}, and differ" if first > 1 else "the bodies differ"
    return f"{agree} in block {first:,}. {BEHIND_SAEF if mode == 'SAEF' else BEHIND}"


def unequal(mode, numbers, common):
    if not common:
        return "they have no block that could be compared."
    if not numbers:
        return f"the bodies agree in {blocks(range(1, common + 1))}."
    return f"{apart(numbers)}, and no other of those compared." if mode == "PAEF" else chained(mode, numbers)


def whole_piece(mode, run):
    """Of the two at the end that which is a whole block: with all that stands before, it tells the last block of the body."""
    return run.last if mode in WHOLE_LAST else run.tag


def follows(mode, one, other):
    numbers = changed(one, other)
    if one.run == other.run:
        return "the bodies are equal."
    if len(one.run) != len(other.run):
        return unequal(mode, numbers, min(one.before, other.before))
    if not one.body or not numbers and whole_piece(mode, one) == whole_piece(mode, other):
        return NONE
    return paef(numbers, one, other) if mode == "PAEF" else chained(mode, numbers)


def meaning(mode, one, other):
    return f"If both were sealed under one key, nonce and header: {follows(mode, one, other)}"
