"""The schemes' sizes and limits: the definition, the header, the promises and the desk say the same."""
import re
import unittest
from collections import namedtuple

from support import between

import explain
import schemes

Scheme = namedtuple("Scheme", "mode cipher block nonce header body")
RECORD = r"cipher = N(\d+)T(\d+); kind = (\w+); key = 16; nonce = (\d+); header = (\d+); body = (\d+)"
ROW = r"^ \*   (\d)  (\w+) over (\d+-\d+) +(\d+) +(\d+) +([\d,]+) +([\d,]+) +(\d+) to ([\d,]+)"
# A number of bytes, and the schemes that have it: "65,528 bytes at most under scheme 1", "14 under 2, 6 and 7".
UNDER = r"([\d,]+) (?:bytes (?:at most )?)?under (?:schemes? )?(\d(?:(?:, | and )\d\b(?!,\d))*)"


def number(text):
    return int(text.replace(",", ""))


def defined():
    """By their numbers, from the definition that the proofs are about."""
    table = between("crates/schemes/specs/Schemes.antt", "\nscheme1 = ", "scheme_of")
    rows = [
        Scheme(mode.upper(), f"{bits}-{tweakey}", int(bits) // 8, int(nonce), int(header), int(body))
        for bits, tweakey, mode, nonce, header, body in re.findall(RECORD, table)
    ]
    return dict(enumerate(rows, 1))


def by_scheme(words):
    """The numbers of bytes that words tell of the schemes."""
    return {int(scheme): number(size) for size, named in re.findall(UNDER, words) for scheme in re.findall(r"\d", named)}


def limits_named(names, prefix):
    """Of header and body: one name where they have one limit."""
    if f"{prefix}_LIMIT" in names:
        return 2 * [names[f"{prefix}_LIMIT"]]
    return [names[f"{prefix}_{part}_LIMIT"] for part in ("HEADER", "BODY")]


class Schemes(unittest.TestCase):
    def setUp(self):
        self.schemes = defined()
        self.headers, self.bodies = (
            {name: getattr(scheme, part) for name, scheme in self.schemes.items()} for part in ("header", "body")
        )

    def test_definition(self):
        """PAEF numbers 8,191 blocks, SAEF none; Umbreon and Jolteon all but the last, in 14 bits from 5 and in 15 bits from 2."""
        equal, blocks = {1: 8191 * 8, 2: 8191 * 16, 3: 2**20}, {4: 8, 5: 8, 6: 16, 7: 16}
        self.assertEqual(self.headers, {**equal, **{scheme: (2**14 - 5 + 1) * block for scheme, block in blocks.items()}})
        self.assertEqual(self.bodies, {**equal, **{scheme: (2**15 - 2 + 1) * block for scheme, block in blocks.items()}})

    def test_header_table(self):
        rows = re.findall(ROW, between("include/auraski.h", "/* A seal makes", "*/"), re.M)
        self.assertEqual(len(rows), len(self.schemes))
        for name, mode, cipher, block, nonce, header, body, least, most in rows:
            told = Scheme(mode.upper(), cipher, int(block), int(nonce), number(header), number(body))
            self.assertEqual(told, self.schemes[int(name)])
            self.assertEqual((int(least), number(most)), (told.block, told.body + told.block))

    def test_header_names(self):
        header = between("include/auraski.h", "/* ---- sealing", "/* Answers")
        names = dict(re.findall(r"^#define AURASKI_(\w+) (\d+)u$", header, re.M))
        for name, scheme in self.schemes.items():
            prefix = f"{scheme.mode}_{scheme.cipher.replace('-', '_')}"
            told = [names[prefix + of] for of in ("", "_BLOCK", "_NONCE")] + limits_named(names, prefix)
            self.assertEqual(told, [str(value) for value in (name, *scheme[2:])])

    def test_promises(self):
        table = between("docs/PROMISES.md", "## The numbers", "## `")
        for answer, limits in ((3, self.headers), (8, self.bodies)):
            row = re.search(rf"^\| {answer} \|([^|]*)", table, re.M).group(1)
            self.assertEqual(by_scheme(row), limits)

    def test_desk(self):
        self.assertEqual(by_scheme(explain.HEADER_LIMIT), self.headers)
        self.assertEqual(by_scheme(explain.BODY_LIMIT), self.bodies)
        told = {name: scheme._replace(mode=scheme.mode.upper()) for name, scheme in schemes.SCHEMES.items()}
        self.assertEqual(told, {name: (scheme.mode, scheme.block, scheme.nonce, scheme.body) for name, scheme in self.schemes.items()})
