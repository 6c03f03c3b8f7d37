"""Answers in words, and the line of sealjob's, which is taken only if it is just as documented."""
import support
import sealjob
from jobs import Job
from trouble import Trouble
from wording import meaning

KEY, NONCE = bytes(16), bytes(14)


def said(number, job, output=b""):
    return meaning(job.laid_out(), job, sealjob.Answer(number, output, ""))


class Meanings(support.DeskTest):
    def test_done(self):
        self.assertEqual(said(0, Job(2, 0, KEY, NONCE, b"", b"abc"), bytes(19)),
                         "done: sealed, 19 bytes, one block more than the body's 3")
        self.assertEqual(said(0, Job(2, 1, KEY, NONCE, b"", bytes(17)), b"a"), "done: authentic, a body of 1 byte")

    def test_refused(self):
        for number, job, words in (
            (1, Job(8, 0, KEY, NONCE, b"", b""), "no such scheme: given 8; there are 1 to 7"),
            (3, Job(1, 0, KEY, NONCE, b"", b""), "refused, header too long"),
            (4, Job(1, 1, KEY, NONCE, b"", bytes(7)), "given 7 bytes, a block of scheme 1 has 8"),
            (5, Job(2, 0, KEY, NONCE, b"", b""), "refused, room shorter than the output"),
            (6, Job(2, 1, KEY, NONCE, b"", bytes(16)), "refused, not authentic: no byte of a body is given"),
            (8, Job(1, 0, KEY, NONCE, b"", b""), "refused, body too long"),
            (9, Job(2, 0, KEY, NONCE, b"", bytes(20000)), "not a job: it has 20,040 bytes, and 16,384 is the most"),
            (10, Job(6, 0, KEY, NONCE, b"", b""), "refused, header and body both empty: scheme 6 has no run for them"),
            (10, Job(7, 1, KEY, NONCE, b"", bytes(16)), "a run of one block has an empty body, and scheme 7 has no run for them"),
        ):
            with self.subTest(number=number):
                self.assertIn(words, said(number, job))

    def test_key_and_nonce(self):
        """A wrong key is told alone where the nonce is right, whatever its bytes; else the nonce is told with it."""
        short_key = "key of a wrong length: given 15 bytes, a key has 16"
        digits = "; the bytes given are hex digits, and a file's bytes are taken as they are"
        for number, job, words in (
            (2, Job(2, 0, KEY[1:], NONCE, b"", b""), short_key),
            (2, Job(2, 0, KEY[1:], b"0" * 14, b"", b""), short_key),
            (2, Job(2, 0, b"0a" * 16, NONCE, b"", b""), f"key of a wrong length: given 32 bytes, a key has 16{digits}"),
            (2, Job(3, 0, KEY[1:], NONCE, b"", b""),
             f"{short_key}; the nonce's length is wrong too (7): given 14 bytes, a nonce of scheme 3 has 15"),
            (7, Job(1, 0, KEY, NONCE, b"", b""), "nonce of a wrong length: given 14 bytes, a nonce of scheme 1 has 6"),
            (7, Job(2, 0, b"0" * 16, NONCE[1:], b"", b""), "nonce of a wrong length: given 13 bytes, a nonce of scheme 2 has 14"),
            (7, Job(2, 0, KEY, b"0A:" * 14 + b"\n", b"", b""),
             f"nonce of a wrong length: given 43 bytes, a nonce of scheme 2 has 14{digits}"),
        ):
            with self.subTest(words):
                self.assertEqual(said(number, job), f"refused, {words}")

    def test_unfitting(self):
        """What sealjob says is told, also where the desk can't see why."""
        self.assertEqual(said(2, Job(9, 0, b"", b"", b"", b"")), "refused, key of a wrong length")
        self.assertEqual(said(7, Job(9, 0, b"", b"", b"", b"")), "refused, nonce of a wrong length")
        self.assertEqual(said(9, Job(2, 0, b"", b"", b"", b"")), "refused, not a job")


class Lines(support.DeskTest):
    def test_taken(self):
        self.assertEqual(sealjob.answer_of(b"0 2 0aff\n"), (0, b"\x0a\xff", "0 2 0aff"))
        self.assertEqual(sealjob.answer_of(b"0 0 -\n"), (0, b"", "0 0 -"))
        for number in range(1, 11):
            self.assertEqual(sealjob.answer_of(b"%d 0 -\n" % number).number, number)

    def test_not_taken(self):
        for printed in (b"", b"\n", b"0 2 0aff", b"0 2 0AFF\n", b"0 2 0aff\n\n", b"0 2 0aff\n0 2 0aff\n", b"0  2 0aff\n", b"11 0 -\n", b"010 0 -\n",
                        b"07 0 -\n", b"a 0 -\n", b"0 02 0aff\n", b"0 1 0aff\n", b"0 2 -\n", b"0 0 \n", b"6 2 0aff\n", b"6 2 -\n",
                        b"7 2 0aff\n", b"8 2 -\n", b"10 2 0aff\n", b"0 2 0af\n", b"0 2 0aff \n", b"0 2 0aff\r\n", b"\xff"):
            with self.subTest(printed), self.assertRaises(Trouble):
                sealjob.answer_of(printed)

    def test_too_slow(self):
        sealjob.SECONDS, before = 0.2, sealjob.SECONDS
        self.addCleanup(setattr, sealjob, "SECONDS", before)
        with self.assertRaisesRegex(Trouble, "no answer within"):
            sealjob.answer_to(b"", ["sleep", "20"])
