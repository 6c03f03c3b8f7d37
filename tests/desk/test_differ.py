"""differ: two runs cut into their blocks, which of them differ, and what that can mean."""
import random
import re
import shlex
import textwrap

import support
from schemes import KEY, SCHEMES

WHOLE_LAST = (1, 2, 3)  # what the last block is sealed to has a block's bytes, and the tag the last block's; from 4 on the other way round


def changed(body, *places):
    """Another byte at each of the places, which are counted from 0."""
    return bytes(byte ^ 1 if place in places else byte for place, byte in enumerate(body))


class DifferTest(support.DeskTest):
    def sealed(self, scheme, body, header="00"):
        words = ["--key", "5d" * KEY, "--nonce", "01" * SCHEMES[scheme].nonce, "--header", header, "--body", body.hex() or "-"]
        return bytes.fromhex(self.done("seal", "--scheme", str(scheme), *words, "--quiet"))

    def differ(self, scheme, one, other):
        """The verdicts in their order, and the meaning on one line behind what it is said under."""
        shown = self.done("differ", "--scheme", str(scheme), one.hex(), other.hex(), status=int(one != other), program="false")
        self.assertTrue(shown.startswith(f"scheme   {scheme}, {SCHEMES[scheme].mode}: blocks of {SCHEMES[scheme].block} bytes\nruns     "), shown)
        self.rows = re.findall("^(same|DIFFERS)  +(.*)$", shown, re.M)
        said, beware = " ".join(shown.split("\nmeaning", 1)[1].split()).split(" beware ")
        self.assertIn("fifteen bytes of a header, and the same with 80 added, are two headers", beware)
        under, _, meaning = said.partition(": ")
        self.assertEqual(under, "If both were sealed under one key, nonce and header")
        return [verdict for verdict, _ in self.rows], meaning


class Sealed(DifferTest):
    """Runs that sealjob made, under one key, nonce and header where nothing else is said."""

    def check(self, scheme, one, other, verdicts, meaning, headers=("00", "00")):
        runs = [self.sealed(scheme, body, header) for body, header in zip((one, other), headers)]
        found, said = self.differ(scheme, *runs)
        self.assertEqual(found, verdicts)
        self.assertIn(meaning, said)

    def test_one_block(self):
        """Its own sealed block, and what the last one is sealed to, whatever the last one's length."""
        for scheme, rests in ((1, range(1, 9)), (2, (1, 15, 16))):
            block = SCHEMES[scheme].block
            for rest in rests:
                body = bytes(range(3 * block + rest))
                with self.subTest((scheme, rest)):
                    said = "block 2 differs, and no other." if rest == block else "block 2 differs, and no other before the last. This is what one"
                    self.check(scheme, body, changed(body, block + 1), ["same", "DIFFERS", "same", "DIFFERS", "same"], said)
                    self.assertEqual([piece for _, piece in self.rows], [
                        f"block 1 (bytes 1 to {block})", f"block 2 (bytes {block + 1} to {2 * block})",
                        f"block 3 (bytes {2 * block + 1} to {3 * block})",
                        f"what the last block, 4, is sealed to (bytes {3 * block + 1} to {4 * block})",
                        f"the tag (byte{f' {4 * block + 1}' if rest == 1 else f's {4 * block + 1} to {4 * block + rest}'})",
                    ])

    def test_more_blocks(self):
        body = bytes(44)
        self.check(1, body, changed(body, 0, 17, 25), ["DIFFERS", "same", "DIFFERS", "same", "DIFFERS", "same"],
                   "of the bodies blocks 1 and 3 to 4 differ, and no other before the last. Whether the last differs too is not told")
        self.assertEqual(self.rows[2][1], "blocks 3 to 4 (bytes 17 to 32)")
        self.check(1, body, changed(body, 0, 43), ["DIFFERS", "same", "DIFFERS", "DIFFERS"],
                   "of the bodies block 1 differs, and the last block too, and no other.")

    def test_last_block(self):
        for scheme in SCHEMES:
            body = bytes(2 * SCHEMES[scheme].block + 5)
            with self.subTest(scheme):
                self.check(scheme, body, changed(body, len(body) - 1), ["same", "DIFFERS", "DIFFERS"],
                           "of the bodies the last block alone differs.")
                self.assertEqual(self.rows[0][1], f"blocks 1 to 2 (bytes 1 to {2 * SCHEMES[scheme].block})")
                sizes = [SCHEMES[scheme].block, 5] if scheme in WHOLE_LAST else [5, SCHEMES[scheme].block]
                places = [map(int, re.findall(r"(\d+) to (\d+)", piece)[0]) for _, piece in self.rows[1:]]
                self.assertEqual([last - first + 1 for first, last in places], sizes)

    def test_chain(self):
        """SAEF: all behind the first block that differs. Of the others no more is said than where that is."""
        body = bytes(57)
        self.check(3, body, changed(body, 16), ["same", "DIFFERS", "DIFFERS", "DIFFERS"],
                   "the bodies agree in block 1, and differ in block 2. Behind it every sealed block may differ, whatever the bodies hold.")
        self.assertEqual(self.rows[1][1], "blocks 2 to 3 (bytes 17 to 48)")
        self.check(3, body, changed(body, 0), ["DIFFERS", "DIFFERS", "DIFFERS"], "the bodies differ in block 1. Behind it")
        for scheme in (4, 5, 6, 7):
            block = SCHEMES[scheme].block
            runs = [self.sealed(scheme, body) for body in (bytes(5 * block), changed(bytes(5 * block), 2 * block))]
            verdicts, said = self.differ(scheme, *runs)
            self.assertEqual(verdicts[:2], ["same", "DIFFERS"])
            self.assertEqual(said, "the bodies agree in blocks 1 to 2, and differ in block 3. "
                                   "Of what stands behind it nothing is promised under this scheme.")

    def test_equal(self):
        for scheme in SCHEMES:
            for body in (b"", bytes(40)):
                run = self.sealed(scheme, body)
                verdicts, said = self.differ(scheme, run, run)
                self.assertEqual((set(verdicts), said), ({"same"}, "the bodies are equal."))

    def test_the_accident(self):
        """One body under fifteen bytes, and under the same with 80 added."""
        short, full, body = "74" * 15, "74" * 15 + "80", bytes(43)
        for scheme, verdicts, meaning in (
            (2, ["same", "DIFFERS", "same"], "though its tag agrees. Or the headers differ and the bodies don't: under PAEF a header moves"),
            (3, ["DIFFERS", "DIFFERS", "DIFFERS"], "the bodies differ in block 1."),
        ):
            self.check(scheme, body, body, verdicts, meaning, headers=(short, full))
        self.check(2, bytes(48), bytes(48), ["same", "DIFFERS", "same"],
                   "no two bodies give such runs. So the scheme is another, or key, nonce or header differ", headers=(short, full))

    def test_unequal_lengths(self):
        body = bytes(57)
        for scheme, blocks in ((1, "blocks 1 to 6"), (2, "blocks 1 to 3"), (3, "blocks 1 to 3"), (5, "blocks 1 to 6")):
            one, other = self.sealed(scheme, body[:50]), self.sealed(scheme, body)
            verdicts, said = self.differ(scheme, one, other)
            self.assertEqual((verdicts, said), (["same"], f"the bodies agree in {blocks}."))
        self.check(1, body, changed(body[:20], 3), ["DIFFERS", "same"], "of the bodies block 1 differs, and no other of those compared.")
        self.check(3, body, changed(body[:40], 17), ["same", "DIFFERS"], "the bodies agree in block 1, and differ in block 2. Behind it")
        self.check(2, body, body[:16], [], "they have no block that could be compared.")


class Given(DifferTest):
    """Runs as they stand: differ asks nobody whether they are authentic."""

    def said(self, scheme, length, *places):
        run = bytes(length)
        return self.differ(scheme, run, changed(run, *places))

    def test_no_two_bodies(self):
        """The last block's sealed block agrees and its tag does not; or one block moved, and a whole tag and it did not."""
        for scheme, length, places in ((1, 29, [28]), (3, 41, [36]), (4, 29, [17]), (2, 64, [3]), (2, 64, [40]), (2, 16, [0]), (7, 16, [0])):
            with self.subTest((scheme, length)):
                self.assertTrue(self.said(scheme, length, *places)[1].startswith("no two bodies give such runs."))

    def test_one_block_that_did_not_move_the_last(self):
        verdicts, said = self.said(2, 51, 3)
        self.assertEqual(verdicts, ["DIFFERS", "same", "same", "same"])
        self.assertTrue(said.startswith("of the bodies block 1 differs, and the last block too, though its tag agrees"), said)

    def test_two_blocks_and_a_whole_tag(self):
        self.assertEqual(self.said(2, 80, 3, 20)[1], "of the bodies blocks 1 to 2 differ, and no other.")

    def test_long_runs(self):
        """The longest of each scheme, which no job takes; and one byte more."""
        for scheme, sizes in SCHEMES.items():
            most = sizes.body + sizes.block
            self.write("one", bytes(most))
            self.write("other", changed(bytes(most), most // 2))
            shown = self.done("differ", "--scheme", str(scheme), "@one", "@other", status=1, program="false")
            self.assertIn(f"{most:,} bytes each, of bodies of {sizes.body:,}: ", shown)
            self.assertEqual(len(re.findall("^DIFFERS ", shown, re.M)), 1)
            self.write("more", bytes(most + 1))
            self.complains(f"the second run: more has more than {most:,} bytes", "differ", "--scheme", str(scheme), "@one", "@more")

    def test_wrong_sizes(self):
        self.complains("the first run: 15 bytes; a run of scheme 2 has one block at least, 16",
                       "differ", "--scheme", "2", "aa" * 15, "bb" * 16)
        self.complains("the second run: 0 bytes; a run of scheme 4 has one block at least, 8", "differ", "--scheme", "4", "aa" * 8, "-")
        self.complains("the first run: 65,537 bytes; a run of scheme 1 has 65,536 at most", "differ", "--scheme", "1", "aa" * 65537, "aa" * 8)

    def test_no_such_scheme(self):
        for number in ("0", "8", "255"):
            self.complains(f"--scheme: {number} is no scheme; there are 1 to 7", "differ", "--scheme", number, "aa", "bb")
        self.complains("--scheme: 'two' is not a number from 0 to 255", "differ", "--scheme", "two", "aa", "bb")

    def test_slips(self):
        run = "aa" * 16
        self.complains("--scheme is missing", "differ", run, run)
        self.complains("words are missing; differ takes two runs", "differ", "--scheme", "2")
        self.complains("a word is missing; differ takes two runs", "differ", "--scheme", "2", run)
        self.complains("is one word too many; differ takes two runs", "differ", "--scheme", "2", run, run, run)
        self.complains("both runs would read standard input", "differ", "--scheme", "2", "@-", "@-")
        self.complains("the second run: 'x', character 2", "differ", "--scheme", "2", run, "0x" + run)
        self.complains("the first run: nosuch can't be read", "differ", "--scheme", "2", "@nosuch", run)

    def test_standard_input(self):
        shown = self.done("differ", "--scheme", "2", "@-", "aa" * 16, input=b"\xaa" * 16, program="false")
        self.assertIn("16 bytes each, of empty bodies\nsame     the tag (bytes 1 to 16)\n", shown)


def numbers_in(words):
    """Of "blocks 1 and 3 to 4": 1, 3 and 4."""
    spans = re.findall(r"(\d+)(?: to (\d+))?", words)
    return [number for first, last in spans for number in range(int(first), int(last or first) + 1)]


class Truth(DifferTest):
    """What is said of drawn bodies is so."""

    def is_so(self, said, one, other, block):
        """Reads the sentence, and looks at the bodies."""
        before = [max(len(body) - 1, 0) // block for body in (one, other)]
        apart = [at + 1 for at in range(min(before)) if one[at * block:][:block] != other[at * block:][:block]]
        ends = one[before[0] * block:] != other[before[1] * block:]
        found = re.match(r"of the bodies (blocks? [\d, a-z]*?) differs?, and (the last block too|no other before the last|no other)", said)
        if found:
            last = {"the last block too": ends, "no other": len(one) != len(other) or not ends}
            return numbers_in(found[1]) == apart and last.get(found[2], True)
        agree, differ = re.search(r"agree in (blocks? [\d a-z]*)", said), re.search(r"differ in block (\d+)", said)
        if agree or differ:
            alike = numbers_in(agree[1]) if agree else []
            first = apart[0] if apart else min(before) + 1
            return alike == list(range(1, first)) and (not differ or int(differ[1]) == first and apart != [])
        if said.startswith("of the bodies the last block alone differs"):
            return not apart and ends
        return one == other if said == "the bodies are equal." else said == "they have no block that could be compared." and min(before) == 0

    def test_drawn_bodies(self):
        draw = random.Random(23)
        for scheme in SCHEMES:
            block = SCHEMES[scheme].block
            for _ in range(16):
                one = draw.randbytes(draw.randrange(1, 5 * block))
                other = changed(one, *draw.sample(range(len(one)), min(len(one), draw.randrange(4))))
                other = other[:draw.choice((len(one), len(one), draw.randrange(1, len(one) + 1)))]
                said = self.differ(scheme, self.sealed(scheme, one), self.sealed(scheme, other))[1]
                self.assertTrue(self.is_so(said, one, other, block), (scheme, one.hex(), other.hex(), said))


class Page(support.DeskTest):
    """docs/DIFFER.md prints what the desk does."""

    def test_example(self):
        page = support.between("docs/DIFFER.md", "## By hand", "\0")
        typed, printed = page.split("It prints\n")
        table = shlex.split(re.search('table="(.*)"', typed).group(1).replace("@", f"@{support.ROOT}/"))
        runs = [self.done("seal", *table, "--body", body).strip() for body in re.findall(r"--body (\w+)", typed)]
        shown = self.done("differ", "--scheme", "1", *runs, status=1, program="false")
        self.assertEqual(textwrap.dedent(printed).strip(), shown.strip())
