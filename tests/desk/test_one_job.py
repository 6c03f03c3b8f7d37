"""seal and open, with sealjob itself."""
import support
from support import BODY, JOB, OPEN, SEAL, SEALED, replaced


class OneJob(support.DeskTest):
    def test_seal(self):
        shown = self.done(*SEAL).split("\n")
        self.assertEqual(shown[0], f"answer   0 22 {SEALED}")
        self.assertEqual(shown[1], "meaning  done: sealed, 22 bytes, one block more than the body's 6")
        self.assertEqual(shown[2:], [f"sealed   {SEALED}", "length   22 bytes", ""])

    def test_open(self):
        shown = self.done(*OPEN).split("\n")
        self.assertEqual(shown[0], f"answer   0 6 {BODY}")
        self.assertEqual(shown[1], "meaning  done: authentic, a body of 6 bytes")
        self.assertEqual(shown[2:], [f"body     {BODY}", "length   6 bytes", ""])
        as_body = ["--body" if word == "--sealed" else word for word in OPEN]
        self.assertEqual(self.done(*as_body).split("\n"), shown)

    def test_empty(self):
        shown = self.done(*replaced(replaced(SEAL, "--header", "-"), "--body", "-"))
        self.assertRegex(shown, "^answer   0 16 [0-9a-f]{32}\n")
        self.write("empty", b"")
        self.assertEqual(shown, self.done(*replaced(replaced(SEAL, "--header", "@empty"), "--body", "@-")))

    def test_empty_body_opened(self):
        sealed = self.done(*replaced(SEAL, "--body", "-")).split()[3]
        shown = self.done(*replaced(OPEN, "--sealed", sealed))
        self.assertIn("answer   0 0 -\nmeaning  done: authentic, a body of 0 bytes\nbody     -\n", shown)

    def test_refusals(self):
        for number, words in (
            (1, replaced(SEAL, "--scheme", "0")),
            (1, replaced(SEAL, "--scheme", "255")),
            (2, replaced(SEAL, "--key", "aa" * 15)),
            (2, replaced(replaced(SEAL, "--key", "-"), "--nonce", "-")),
            (7, replaced(SEAL, "--nonce", "-")),
            (7, replaced(OPEN, "--nonce", support.NONCE[:26])),
            (4, replaced(OPEN, "--sealed", SEALED[:30])),
            (4, replaced(OPEN, "--sealed", "-")),
            (6, replaced(OPEN, "--header", support.HEADER[:30])),
            (6, replaced(OPEN, "--sealed", "00" + SEALED[2:])),
        ):
            with self.subTest(words):
                shown = self.done(*words, status=1).split("\n")
                self.assertEqual(shown[0], f"answer   {number} 0 -")
                self.assertTrue(shown[1].startswith("meaning  refused, "), shown)
                self.assertEqual(shown[-2:], [f"next     `tools/desk explain {number}` says what to check", ""])

    def test_value_from_file(self):
        self.write("body.bin", bytes.fromhex(BODY))
        self.write("key.bin", bytes.fromhex(support.KEY))
        words = replaced(replaced(SEAL, "--body", "@body.bin"), "--key", "@" + self.path("key.bin"))
        self.assertEqual(self.done(*words), self.done(*SEAL))

    def test_job_is_laid_out(self):
        self.done(*SEAL, "--job", "seal.job")
        self.assertEqual(self.read("seal.job"), JOB)
        self.done(*OPEN, "--job", "open.job")
        self.assertEqual(self.read("open.job"), b"\x02\x01" + JOB[2:-8] + b"\x00\x16" + bytes.fromhex(SEALED))
        self.done("seal", "--scheme", "1", "--key", "-", "--nonce", "-", "--header", "-", "--body=-", "--job", "none.job", status=1)
        self.assertEqual(self.read("none.job").hex(), "01000000000000000000")

    def test_out(self):
        self.done(*SEAL, "--out", "run.bin")
        self.assertEqual(self.read("run.bin").hex(), SEALED)
        self.done(*replaced(OPEN, "--sealed", "@run.bin"), "--out", "body.bin")
        self.assertEqual(self.read("body.bin").hex(), BODY)

    def test_out_only_when_done(self):
        self.done(*replaced(OPEN, "--header", "-"), "--out", "body.bin", status=1)
        self.assertRaises(FileNotFoundError, self.read, "body.bin")

    def test_longest_job(self):
        """16,384 bytes are taken; of one more the desk warns, and sealjob answers 9."""
        self.write("body.bin", bytes(16384 - 10 - 16 - 14 - 16))
        self.assertIn("answer   0 16344 ", self.done(*replaced(SEAL, "--body", "@body.bin")))
        self.write("body.bin", bytes(16384 - 10 - 16 - 14 - 16 + 1))
        ended = self.desk(*replaced(SEAL, "--body", "@body.bin"))
        self.assertEqual(ended.returncode, 1)
        self.assertEqual(ended.stderr, "desk: this job has 16,385 bytes (key 16, nonce 14, header 16, body 16,329); "
                         "sealjob takes 16,384 at most\n")
        self.assertIn("answer   9 0 -\nmeaning  refused, not a job: it has 16,385 bytes", ended.stdout)
