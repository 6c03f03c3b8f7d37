"""The rounds that calls run: what the definitions give, the header, docs/ROUNDS.md and the battery sheet say the same."""
import os
import re
import unittest
from collections import namedtuple

from support import ROOT, between
from test_numbers import DONE, FORGED, JOB, between_words, numbers
from test_numbers import defined as defined_numbers
from test_schemes import defined as defined_schemes
from test_schemes import number

PAGE, HEADER = "docs/ROUNDS.md", "include/auraski.h"
CIPHERS = ("64-192", "128-256")
Cost = namedtuple("Cost", "one both other")
# Of the page: what a kind of block call is named, and which of the costs it has.
KINDS = {
    "forward, one half": "one", "forward, both halves": "both", "back from a half, the input": "one",
    "back from a half, the other half": "other", "back from a half, both results": "both",
    "half 0": "one", "both halves": "both", "from half 0 the input": "one", "from half 0 both results": "both",
}
NOTHING = ("refused", "nothing", "nothing more")
# Of the page's two lists, mode by mode: the definitions that cite the figures' lines.
LISTS = ((("Paef",), ("Saef",)), (("Eevee", "Umbreon"), ("Eevee", "Jolteon")))


def text_of(name):
    with open(os.path.join(ROOT, name), encoding="utf-8") as file:
        return file.read()


def costs():
    """Of a block call, by its cipher: the rounds before the fork, and those of each branch that it goes through."""
    text = text_of("crates/ciphers/specs/Ciphers.antt")
    init, branch = (
        {f"{bits}-{tweakey}": int(count) for bits, tweakey, count in re.findall(rf"^{name} N(\d+)T(\d+) = (\d+)$", text, re.M)}
        for name in ("init_of", "branch_of")
    )
    return {cipher: Cost(init[cipher] + branch[cipher], init[cipher] + 2 * branch[cipher], 2 * branch[cipher]) for cipher in CIPHERS}


def blocks(length, block):
    return len(range(0, length, block))


def told_number(text):
    """None for the dash of a record that is refused."""
    return None if text == "-" else number(text)


def cells(row):
    return [cell.strip() for cell in row.strip().strip("|").split("|")]


def section(title):
    return between(PAGE, f"\n## {title}\n", "\n## ")


def tables(title):
    """Those of a section of the page, without their headings."""
    found = re.findall(r"(?:^\|.*\n)+", section(title), re.M)
    return [[cells(row) for row in table.splitlines()[2:]] for table in found]


class RoundsTest(unittest.TestCase):
    def setUp(self):
        self.costs = costs()
        self.schemes = defined_schemes()

    def cost(self, scheme):
        return self.costs[self.schemes[scheme].cipher]

    def before(self, scheme):
        """What a body block costs that is not the last."""
        return self.cost(scheme).one if self.schemes[scheme].mode == "JOLTEON" else self.cost(scheme).both

    def rounds(self, scheme, header, body):
        """None where the record is refused with 10."""
        cost, of_header, of_body = self.cost(scheme), *(blocks(length, self.schemes[scheme].block) for length in (header, body))
        if of_header + of_body == 0:
            return cost.one if self.schemes[scheme].mode in ("PAEF", "SAEF") else None
        return of_header * cost.one + (of_body and (of_body - 1) * self.before(scheme) + cost.both)

    def most(self, scheme):
        return self.rounds(scheme, self.schemes[scheme].header, self.schemes[scheme].body)


class Rounds(RoundsTest):
    def test_definition(self):
        self.assertEqual(self.costs, {"64-192": (40, 63, 46), "128-256": (48, 75, 54)})
        self.assertEqual([self.most(scheme) for scheme in self.schemes], [843673, 1007493, 8060928, 2719521, 1965903, 3243765, 2359083])

    def test_header_table(self):
        row = r"^ \*   (\d)  (\w+) over (\d+-\d+) +(\d+) +(\d+) +(\d+) +([\d,]+)"
        rows = re.findall(row, between(HEADER, "/* Tells how", "*/"), re.M)
        self.assertEqual([int(row[0]) for row in rows], list(self.schemes))
        for scheme, mode, cipher, *told in ((int(row[0]), *row[1:]) for row in rows):
            self.assertEqual((mode.upper(), cipher), self.schemes[scheme][:2])
            due = [self.cost(scheme).one, self.before(scheme), self.cost(scheme).both, self.most(scheme)]
            self.assertEqual([number(cost) for cost in told], due)

    def test_header_block_calls(self):
        words = re.sub(r"ForkSkinny-\d+-\d+", "", between(HEADER, "/* Rounds. ", "*/"))
        small, large = (self.costs[cipher] for cipher in CIPHERS)
        self.assertEqual(numbers(r"\d+", words), [cost for pair in zip(small, large) for cost in pair])

    def test_refusals(self):
        """Before 6 no block is worked; those of scheme and lengths are told here too."""
        told = between_words(between(HEADER, "/* Tells how", "*/"), "Refused as they are with", ": *rounds")
        self.assertEqual(numbers(r"\d+", told), [1, 3, 8, 10])
        words = " ".join(section("An open that may be refused").split())
        before = [of for of in defined_numbers() if of not in (JOB, FORGED, DONE)]
        self.assertEqual(numbers(r"\d+", re.search(r"no round\.\*\* (.*?) are answered, in this order", words)[1]), before)
        self.assertIn("`auraski_rounds` gives 1, 3, 8 and 10 itself", words)


class Page(RoundsTest):
    def held(self, what, told):
        """To the costs under both ciphers."""
        due = [0 if what in NOTHING else getattr(self.costs[cipher], KINDS[what]) for cipher in CIPHERS]
        self.assertEqual([int(cost) for cost in told], due, what)

    def test_block_calls(self):
        parts, calls = tables("What a block call costs")
        for at, cipher in enumerate(CIPHERS, 1):
            init, branch = (int(row[at]) for row in parts)
            self.assertEqual((init + branch, init + 2 * branch, 2 * branch), self.costs[cipher])
        self.assertEqual(len(calls), 6)
        for what, _, _, *told in calls:
            self.held(what, told)

    def test_list(self):
        both = tables("The list")
        self.assertEqual([len(rows) for rows in both], [10, 10])
        for _, _, _, what, small, large, _ in sum(both, []):
            self.held(what, (small, large))

    def test_fields(self):
        """What the list names is in the definitions, and no field of what a block asks for is left out."""
        asked = set(re.findall(r"^  pub (\w+_asks) :", text_of("crates/modes/specs/Mode.antt"), re.M))
        for rows in tables("The list"):
            named = {name for row in rows for name in re.findall(r"`(\w+)`", row[-1])}
            self.assertEqual({name for name in named if name.endswith("_asks")}, asked)
            for name in named - asked:
                self.assertRegex(text_of("crates/modes/specs/Rounds.antt"), rf"(?m)^  {name} ")

    def test_lines(self):
        """The figures' lines are those that the modes cite where they say what a block asks for."""
        for rows, modes in zip(tables("The list"), LISTS):
            for at, files in enumerate(modes, 1):
                cited = re.findall(r"F\^\{\S+\} \((.*?)\)", "".join(text_of(f"crates/modes/specs/{name}.antt") for name in files))
                named = [row[at] for row in rows if row[3] not in NOTHING]
                self.assertEqual(*(set(numbers(r"\d+", " ".join(lines))) for lines in (named, cited)), files)

    def test_quotes(self):
        """Word for word."""
        defined = {line.strip() for line in text_of("crates/modes/specs/Rounds.antt").splitlines()}
        quoted = re.findall(r"^    (?!rounds = )(.*)$", section("The list") + section("The formula"), re.M)
        self.assertEqual(len(quoted), 6)
        for line in quoted:
            self.assertIn(line.strip(), defined)

    def test_formula(self):
        (rows,) = tables("The formula")
        self.assertEqual([int(row[0]) for row in rows], list(self.schemes))
        for scheme, rule, empty, most in ((int(row[0]), *row[1:]) for row in rows):
            one, both = self.cost(scheme)[:2]
            body = f"bb * {both}" if self.before(scheme) == both else f"(bb - 1) * {one} + {both}"
            self.assertEqual(rule, f"hb * {one} + {body}")
            self.assertEqual(None if empty == "refused" else int(empty), self.rounds(scheme, 0, 0))
            self.assertEqual(number(most), self.most(scheme))

    def test_by_hand(self):
        words = " ".join(section("The formula").split())
        self.assertIn(f"2 * 40 + 3 * 63 = 80 + 189 = {self.rounds(1, 15, 20)} rounds", words)
        self.assertIn(f"1 * 48 + 0 * 75 = {self.rounds(2, 0, 0)} rounds", words)
        words = " ".join(section("Umbreon and Jolteon").split())
        self.assertIn(f"2 * 40 + 3 * 63 = 80 + 189 = {self.rounds(4, 15, 20)} rounds", words)
        self.assertIn(f"2 * 40 + 2 * 40 + 63 = {self.rounds(5, 15, 20)} rounds", words)

    def test_sheet(self):
        (rows,) = tables("The battery sheet")
        for scheme, header, *told in ([told_number(cell) for cell in row] for row in rows):
            bodies = (0, 1, 16, 64, 1024, self.schemes[scheme].body)
            self.assertEqual(told, [self.rounds(scheme, header, body) for body in bodies])
        self.assertEqual([row[0] for row in rows], [str(scheme) for scheme in self.schemes for _ in range(3)])

    def test_budget(self):
        words = section("An open that may be refused")
        for body in (self.schemes[2].body, 1024):
            self.assertIn(f"{self.rounds(2, 16, body):,}", words)


class Example(RoundsTest):
    """What examples/rounds.c prints; that it does print it, tools/example sees to."""

    def test_sheets(self):
        sheets = re.findall(r"^Scheme (\d), .*\n\n.*\n +\|(.*)\n-.*\n((?:.*\|.*\n)+)", text_of("examples/rounds.out"), re.M)
        self.assertEqual([int(sheet[0]) for sheet in sheets], list(self.schemes))
        for scheme, across, rows in ((int(sheet[0]), *sheet[1:]) for sheet in sheets):
            bodies = [number(word) for word in across.split()]
            for header, told in (row.split("|") for row in rows.splitlines()):
                due = [self.rounds(scheme, number(header), body) for body in bodies]
                self.assertEqual([told_number(word) for word in told.split()], due)
            self.assertEqual((number(header), bodies[-1]), (self.schemes[scheme].header, self.schemes[scheme].body))

    def test_batch(self):
        scheme, rows, together = re.search(r"under scheme (\d)\n\n.*\n-+\n((?:.*\d\n)+)-+\n +together +(.*)\n",
                                           text_of("examples/rounds.out")).groups()
        sizes, total = self.schemes[int(scheme)], 0
        for count, header, run, each, in_all in ([number(word) for word in row.split()] for row in rows.splitlines()):
            body = run - sizes.block
            taken = header <= sizes.header and 0 <= body <= sizes.body
            self.assertEqual(each, self.rounds(int(scheme), header, body) if taken else 0)
            self.assertEqual(in_all, count * each)
            total += in_all
        self.assertEqual(number(together), total)
