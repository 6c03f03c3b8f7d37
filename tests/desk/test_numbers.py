"""The answer numbers and their order: the definition, the header, the promises and the desk say the same."""
import re
import unittest

from support import between

import explain

JOB, SCHEME, FORGED, DONE = 9, 1, 6, 0  # around the checks of lengths; 9 is sealjob's alone


def between_words(text, start, end):
    """The words may be broken into lines of a comment."""
    text = " ".join(text.replace("\n *", " ").split())
    return text.split(start, 1)[1].split(end, 1)[0]


def numbers(pattern, text):
    return [int(number) for number in re.findall(pattern, text, re.M)]


def defined():
    """From the list of checks that the proofs are about."""
    lengths = numbers(r"^ .*\bwhen .* (\d+)$", between("crates/schemes/specs/Checks.antt", "\nchecks s ", "[]"))
    return [JOB, SCHEME, *lengths, FORGED, DONE]


class Numbers(unittest.TestCase):
    def test_definition(self):
        self.assertEqual(defined(), [9, 1, 2, 7, 3, 8, 4, 5, 10, 6, 0])

    def test_header(self):
        answers = between("include/auraski.h", "/* Answers", "/* Seals")
        self.assertEqual([JOB] + numbers(r"^#define AURASKI_[A-Z_]+ (\d+)u\b", answers), defined())

    def test_header_names_each_refusal_of_a_call(self):
        refusals = [number for number in defined() if number not in (JOB, DONE)]
        for call, apart in (("seal", (4, FORGED)), ("open", (FORGED,))):
            comment = between("include/auraski.h", f"/* {call.title()}s a ", "*/")
            told = numbers(r"\d+", between_words(comment, "Refused with", ": *length"))
            self.assertEqual(told, [number for number in refusals if number not in apart], call)

    def test_promises(self):
        table = between("docs/PROMISES.md", "## The numbers", "## `")
        self.assertEqual(numbers(r"^\| (\d+) \|", table), defined())

    def test_desk(self):
        order = between_words(explain.ORDER, "in the order", ";")
        self.assertEqual(numbers(r"\d+", order), defined()[:-1])
        self.assertEqual(set(explain.NUMBERS), set(defined()))
