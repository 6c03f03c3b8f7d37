"""explain and --help."""
import os
import re
import shlex
import subprocess

import support
from explain import BODY_LIMIT, HEADER_LIMIT, ORDER
from schemes import KEY, SCHEMES
from test_schemes import by_scheme

TITLES = {
    0: "done", 1: "no such scheme", 2: "key of a wrong length", 3: "header too long", 4: "sealed run shorter than a block",
    5: "room shorter than the output", 6: "not authentic", 7: "nonce of a wrong length", 8: "body too long", 9: "not a job",
    10: "header and body both empty",
}


class Explain(support.DeskTest):
    def explained(self, number):
        """On one line, for words are wrapped."""
        return " ".join(self.done("explain", str(number), program="false").split())

    def test_each(self):
        for number, title in TITLES.items():
            with self.subTest(number):
                shown = self.done("explain", str(number), program="false")
                self.assertTrue(shown.startswith(f"{number:<2} {title}\n"), shown)
                for label in ("It says", "Check next", "Left behind"):
                    self.assertRegex(shown, f"\n  {label}  +[A-Z0-9]")

    def test_what_the_room_holds(self):
        for number in (1, 2, 3, 4, 5, 7, 8, 10):
            self.assertIn("is unchanged, every", self.explained(number))
        self.assertIn("as many zero bytes at its front", self.explained(6))

    def test_key_and_nonce(self):
        self.assertIn(f"A key has {KEY} bytes under every scheme.", self.explained(2))
        self.assertEqual(by_scheme(self.explained(7)), {number: scheme.nonce for number, scheme in SCHEMES.items()})

    def test_short_run(self):
        self.assertEqual(by_scheme(self.explained(4)), {number: scheme.block for number, scheme in SCHEMES.items()})

    def test_header_and_body(self):
        """No job is long enough for either number."""
        for number, name, limit in ((3, "header", HEADER_LIMIT), (8, "body", BODY_LIMIT)):
            shown = self.explained(number)
            self.assertIn(f"A {name} has {limit}", shown)
            self.assertIn("Only a call from C gets this number: a job ends at 16,384 bytes", shown)

    def test_what_may_follow(self):
        """The earlier of two checks of lengths names the later."""
        self.assertIn("Nothing is said of the nonce: with the key put right, 7 may follow.", self.explained(2))
        self.assertIn("Nothing is said of the body: with the header put right, 8 may follow.", self.explained(3))

    def test_all(self):
        titles = "".join(f"{number:<2} {title}\n" for number, title in TITLES.items())
        self.assertEqual(self.done("explain", program="false"), f"{titles}{ORDER}\n")

    def test_no_number(self):
        for text in ("11", "77", "100", "six", "", "-", "-1", "6.0"):
            with self.subTest(text):
                self.complains("is no answer number; they are 0 to 10", "explain", text)

    def test_zeros_before_a_number(self):
        self.assertEqual(self.done("explain", "006", program="false"), self.done("explain", "6", program="false"))


class Help(support.DeskTest):
    def setUp(self):
        """Its examples name files of the project's folder."""
        super().setUp()
        os.symlink(os.path.join(support.ROOT, "examples"), self.path("examples"))

    def examples(self, *words):
        text = self.done(*words, "--help", program="false")
        self.assertIn("example", text)
        return [shlex.split(line)[1:] for line in re.findall("^  tools/desk .*", text.replace("\\\n", ""), re.M)]

    def test_examples_run(self):
        """What --help shows can be typed as it stands."""
        (seal,), (opening,) = self.examples("seal"), self.examples("open")
        sealed = self.done(*seal).split()[3]
        self.assertEqual(opening[-1], sealed)
        self.assertIn("body     24282c\n", self.done(*opening))
        (differ,) = self.examples("differ")
        self.assertIn("block 2 differs, and no other before the last.", " ".join(self.done(*differ, status=1, program="false").split()))
        (explain,) = self.examples("explain")
        self.done(*explain, program="false")
        self.assertEqual(self.examples("run"), [["run", "examples/jobs/*.sheet"]])
        self.assertEqual(self.examples()[:1], self.examples("run"))

    def test_key_files(self):
        """The commands that make a key's file do, and only its owner can read it."""
        random, typed = re.findall(r"^    (\(umask .*card\.key\))$", self.done("seal", "--help", program="false"), re.M)
        for command, given in ((random, ""), (typed, support.KEY + "\n")):
            subprocess.run(["bash", "-ec", command], cwd=self.folder, input=given, text=True, check=True)
            self.assertEqual((len(self.read("card.key")), self.mode("card.key")), (16, 0o600))
            os.rename(self.path("card.key"), self.path("last.key"))
        self.assertEqual(self.read("last.key").hex(), support.KEY)

    def test_alone(self):
        ended = self.desk(program="false")
        self.assertEqual((ended.returncode, ended.stdout), (2, ""))
        self.assertEqual(ended.stderr, self.done("--help", program="false"))
