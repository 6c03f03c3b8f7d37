"""run: sheets and raw jobs, what is shown of them, and whether they are as expected."""
import support
from support import JOB, SEALED, SHEET

EXPECTED = SHEET + f"expect 0\noutput {SEALED}\n"


class Run(support.DeskTest):
    def test_sheet(self):
        self.write("a.sheet", EXPECTED)
        self.assertEqual(self.done("run", "a.sheet"), f"""\
a.sheet: seal, scheme 2, header 16 bytes, body 6 bytes
  A story.
  answer   0 22 {SEALED}
  meaning  done: sealed, 22 bytes, one block more than the body's 6 (as expected)

1 job: 1 as expected.
""")

    def test_raw_job(self):
        self.write("a.job", JOB)
        self.assertEqual(self.done("run", "a.job"), f"""\
a.job: seal, scheme 2, header 16 bytes, body 6 bytes
  A raw job of 62 bytes.
  answer   0 22 {SEALED}
  meaning  done: sealed, 22 bytes, one block more than the body's 6

1 job: 1 done.
""")

    def test_the_documented_job(self):
        self.write("a.job", bytes.fromhex("01000000000000000000"))
        self.assertIn("\n  answer   2 0 -\n", self.done("run", "a.job", status=1))

    def test_no_job(self):
        for data, words in ((b"", "cut short"), (JOB[:-1], "cut short"), (JOB + b"a", "left over"), (b"\2\2" + JOB[2:], "direction")):
            with self.subTest(words):
                self.write("a.job", data)
                shown = " ".join(self.done("run", "a.job", status=1).split())
                self.assertIn("answer 9 0 - meaning refused, not a job: ", shown)
                self.assertIn(words, shown)
                self.assertIn("1 job: 1 refused.", shown)

    def test_without_expectation(self):
        self.write("done.sheet", SHEET)
        self.write("refused.sheet", SHEET.replace("scheme 2", "scheme 8"))
        self.assertIn("1 job: 1 done.", self.done("run", "done.sheet"))
        self.assertIn("2 jobs: 1 done, 1 refused.", self.done("run", "done.sheet", "refused.sheet", status=1))

    def test_refusal_expected(self):
        self.write("a.sheet", SHEET.replace("scheme 2", "scheme 8") + "expect 1\n")
        self.assertIn("there are 1 to 7 (as expected)", self.done("run", "a.sheet"))

    def test_not_as_expected(self):
        for text, verdict in (
            (SHEET + "expect 6\n", "answer 6"),
            (SHEET + "expect 0\noutput -\n", "0 0 -"),
            (EXPECTED.replace("output 8f", "output 8e"), f"0 22 8e{SEALED[2:]}"),
            (EXPECTED.replace("scheme 2", "scheme 8"), f"0 22 {SEALED}"),
        ):
            with self.subTest(verdict):
                self.write("a.sheet", text)
                shown = self.done("run", "a.sheet", status=1)
                self.assertIn(f"\n  verdict  NOT as expected, which is: {verdict}\n", shown)
                self.assertNotIn("(as expected)", shown)
                self.assertIn("1 job: 1 NOT as expected.", shown)

    def test_one_of_many(self):
        self.write("a.sheet", EXPECTED)
        self.write("b.sheet", SHEET + "expect 6\n")
        self.assertIn("3 jobs: 2 as expected, 1 NOT as expected.", self.done("run", "a.sheet", "b.sheet", "a.sheet", status=1))

    def test_a_bad_sheet_stops_all(self):
        """All troubles are told, and nothing is run."""
        self.write("good.sheet", EXPECTED)
        self.write("bad.sheet", "scheme 2\nseel\n")
        ended = self.desk("run", "good.sheet", "bad.sheet", "none.sheet")
        self.assertEqual((ended.returncode, ended.stdout), (2, ""))
        self.assertEqual([line.split(":")[1] for line in ended.stderr.splitlines()],
                         [" bad.sheet, line 2", " none.sheet can't be read"])

    def test_too_long(self):
        self.write("a.job", bytes(16385))
        self.write("b.sheet", SHEET.replace("header " + support.HEADER, "header " + "00" * 16384) + "expect 9\n")
        ended = self.desk("run", "a.job", "b.sheet")
        self.assertEqual(ended.returncode, 1)
        self.assertIn("desk: a.job: 16,385 bytes (no job); sealjob takes 16,384 at most\n", ended.stderr)
        self.assertIn("desk: b.sheet: 16,430 bytes (key 16, nonce 14, header 16,384, body 6); sealjob", ended.stderr)
        self.assertIn("2 jobs: 1 as expected, 1 refused.", ended.stdout)
        self.write("c.job", bytes(262151))
        self.complains("c.job has more than 262,150 bytes", "run", "c.job")

    def test_names_are_shown_plainly(self):
        name = self.write("a\x1b[1m.sheet", EXPECTED)
        self.assertTrue(self.done("run", name).startswith("a\\x1b[1m.sheet: seal"))
        self.write("b.sheet", "# \u00b5\n" + EXPECTED)
        ended = self.desk("run", "b.sheet")
        self.assertEqual((ended.returncode, ended.stderr), (0, ""))
