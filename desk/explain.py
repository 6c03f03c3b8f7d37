"""What each answer number says, what to check next, and what the output and the room then hold."""
import textwrap
from collections import namedtuple

from trouble import Trouble
from values import number_of

Number = namedtuple("Number", "title says next holds")

ORDER = """\nThe checks run in the order 9, 1, 2, 7, 3, 8, 4, 5, 10, 6; the first that applies
answers, and 0 is the last. So when one is put right, a later one may answer.
`tools/desk explain 6` says more of number 6."""
COUNT = "Count the bytes, two hex digits each; they are not to be cut or padded to fit."
EQUAL_LIMITS = "65,528 bytes at most under scheme 1, 131,056 under 2, 1,048,576 under 3"
HEADER_LIMIT = f"{EQUAL_LIMITS}, 131,040 under 4 and 5, 262,080 under 6 and 7."
BODY_LIMIT = f"{EQUAL_LIMITS}, 262,136 under 4 and 5, 524,272 under 6 and 7."
FROM_C = "Only a call from C gets this number: a job ends at 16,384 bytes, and a longer one is 9."
UNCHANGED = "No output, length 0. The room of a call from C is unchanged, every byte of it."

NUMBERS = {
    0: Number(
        "done",
        "Every check passed. Sealed: the output is the sealed run, one block longer than the body. Opened: the output is "
        "the body, the only one that seals to this run under this scheme, key, nonce and header.",
        "Sealed: keep scheme, nonce and header with the run, for an open needs them to the bit; never use the nonce "
        "again under this key. Opened: read the body in the step that the header names. A body of at most one block seals "
        "to the same run under schemes 4 and 5, and under 6 and 7: that it opens does not tell which of the two it was.",
        "The output in hex; '-' where it is empty, as for an empty body opened. In the room of a call from C it stands "
        "at the front, and the rest is unchanged.",
    ),
    1: Number(
        "no such scheme",
        "The scheme is none of 1 to 7. Nothing else was looked at.",
        "Over ForkSkinny-64-192, 1 is PAEF, 4 Umbreon and 5 Jolteon; over ForkSkinny-128-256, 2 is PAEF, 3 SAEF, 6 Umbreon "
        "and 7 Jolteon. Look up under which one the record was sealed; there is none by default.",
        UNCHANGED,
    ),
    2: Number(
        "key of a wrong length",
        "A key has 16 bytes under every scheme. Nothing is said of the nonce: with the key put right, 7 may follow.",
        f"{COUNT} See whether the file or the card's slot that the key comes from is the right one, and was read whole.",
        UNCHANGED,
    ),
    3: Number(
        "header too long",
        f"A header has {HEADER_LIMIT} Nothing is said of the body: with the header put right, 8 may follow.",
        f"Shorten the header, or part the record into several, each with a header and a nonce of its own. {FROM_C}",
        UNCHANGED,
    ),
    4: Number(
        "sealed run shorter than a block",
        "Only open: a sealed run has one block at least, 8 bytes under schemes 1, 4 and 5, 16 under 2, 3, 6 and 7, also "
        "if its body is empty.",
        "See whether the run was cut on its way, or a body given in its place, or the run is one of scheme 1, 4 or 5 and "
        "was given under another.",
        UNCHANGED,
    ),
    5: Number(
        "room shorter than the output",
        "Only a call from C gets this number; the room that sealjob lends is always large enough.",
        "To seal, lend the body's length and one block more; to open, the run's length less one block.",
        UNCHANGED,
    ),
    6: Number(
        "not authentic",
        "Only open: no body seals to this run under this scheme, key, nonce and header. Whether the tag or the padding "
        "failed is not told. As many rounds were run as by an open that is done.",
        "First the header, each byte and its length: fifteen bytes, and the same with 80 added, pad to the same block "
        "and are still two headers. Then nonce, key and scheme; then whether the run came unchanged. No limit is to be "
        "read from a run that answered 6.",
        "No output, length 0. The room of a call from C has as many zero bytes at its front as the body would have "
        "taken, and the rest is unchanged.",
    ),
    7: Number(
        "nonce of a wrong length",
        "A nonce has 6 bytes under schemes 1, 4 and 5, 14 under 2, 6 and 7, 15 under 3. The key's length is right.",
        f"{COUNT} A nonce that would fit another scheme may mean that the scheme is the wrong one.",
        UNCHANGED,
    ),
    8: Number(
        "body too long",
        f"A body has {BODY_LIMIT} The body of a sealed run is the run less one block. The header's length is right.",
        f"Part the record into several, each with a nonce of its own, or see whether scheme 3 takes it. {FROM_C}",
        UNCHANGED,
    ),
    9: Number(
        "not a job",
        "Only sealjob: its input has more than 16,384 bytes, is cut short, has bytes left over, or a direction other "
        "than 0 (seal) and 1 (open). Nothing of it was looked at further.",
        "A sheet, and the desk's seal and open, can only be too long: ten bytes and the four sections. In a raw job, "
        "hold each two-byte count, high byte first, to the bytes that follow it.",
        "No output, length 0. Nothing was sealed or opened.",
    ),
    10: Number(
        "header and body both empty",
        "Only schemes 4 to 7, which have no run for such a record. An open gets it for every run of just one block, "
        "whatever its bytes, if the header is empty.",
        "See whether the header or the body was forgotten. To seal nothing under no header, take scheme 1, 2 or 3.",
        UNCHANGED,
    ),
}
MOST = max(NUMBERS)


def paragraph(label, text):
    return textwrap.fill(text, 88, initial_indent=f"  {label:<13}", subsequent_indent=" " * 15)


def title_line(number):
    return f"{number:<2} {NUMBERS[number].title}"


def explained(number):
    entry = NUMBERS[number]
    return "\n".join((
        title_line(number),
        paragraph("It says", entry.says),
        paragraph("Check next", entry.next),
        paragraph("Left behind", entry.holds),
    ))


def listed():
    return "\n".join([title_line(number) for number in NUMBERS] + [ORDER])


def explain(text):
    if text is None:
        return listed()
    try:
        return explained(number_of(text, MOST))
    except Trouble:
        raise Trouble(f"{text[:40]!r} is no answer number; they are 0 to {MOST}") from None
