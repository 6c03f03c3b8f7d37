"""The sample sheets: all as expected by sealjob, and among them the accident in all its ways. Their outputs are the second program's."""
import glob
import os

import support
from jobs import OPEN, SEAL
from schemes import KEY, SCHEMES
from sheets import read_sheet

NAMES = sorted(glob.glob(os.path.join(support.ROOT, "examples", "jobs", "*.sheet")))


class Samples(support.DeskTest):
    @classmethod
    def setUpClass(cls):
        cls.sheets = [read_sheet(name) for name in NAMES]

    def test_as_expected(self):
        shown = self.done("run", *NAMES)
        self.assertTrue(shown.endswith(f"\n{len(NAMES)} jobs: {len(NAMES)} as expected.\n"))

    def test_complete(self):
        for name, sheet in zip(NAMES, self.sheets):
            with self.subTest(name):
                self.assertTrue(sheet.story)
                self.assertIsNotNone(sheet.expect)
                self.assertEqual(sheet.output is not None, sheet.expect == 0)

    def test_numbers(self):
        self.assertEqual({sheet.expect for sheet in self.sheets}, {0, 1, 2, 4, 6, 7, 10})

    def test_wrong_lengths(self):
        """The key's alone, the nonce's alone, and both."""
        refused = [s for s in self.sheets if s.expect in (2, 7)]
        right = {(len(s.job.key) == KEY, len(s.job.nonce) == SCHEMES[s.job.scheme].nonce): s.expect for s in refused}
        self.assertEqual(right, {(False, True): 2, (True, False): 7, (False, False): 2})

    def sealings(self, scheme):
        """Of bodies that are not empty."""
        return [s for s in self.sheets if s.job.direction == SEAL and s.job.scheme == scheme and s.output and s.job.body]

    def opened(self, sealing, **changed):
        """The answers that sheets expect to a sealing's run, with other values where they are given."""
        job = sealing.job._replace(direction=OPEN, body=sealing.output, **changed)
        return [sheet.expect for sheet in self.sheets if sheet.job == job]

    def test_the_accident(self):
        """Fifteen bytes and the same with 80 added: each run opens under its own and is refused under the other."""
        for scheme in (1, 2, 3):
            sealings = self.sealings(scheme)
            self.assertEqual({len(s.job.header) for s in sealings}, {15, 16})
            for sealing in sealings:
                own = sealing.job.header
                other = own[:15] if len(own) == 16 else own + b"\x80"
                self.assertEqual(other[:15] + b"\x80", own[:15] + b"\x80")
                self.assertEqual(self.opened(sealing, header=other), [6])
                self.assertEqual(self.opened(sealing), [0] if scheme == 2 else [])

    def test_umbreon_and_jolteon(self):
        """A run opens under its own scheme; one whose body has at most a block is opened under the other mode's."""
        for scheme in (4, 5, 6, 7):
            long = [s for s in self.sealings(scheme) if len(s.job.body) > SCHEMES[scheme].block]
            self.assertEqual([self.opened(s) for s in long], [[0]])
        (short,) = (s for s in self.sealings(4) if len(s.job.body) <= SCHEMES[4].block)
        self.assertEqual(self.opened(short, scheme=5), [0])

    def test_nothing(self):
        refused = [s.job for s in self.sheets if s.expect == 10]
        self.assertEqual([job.header for job in refused], [b"", b""])
        self.assertEqual([(job.direction, len(job.body)) for job in refused], [(SEAL, 0), (OPEN, SCHEMES[refused[1].scheme].block)])

    def test_no_nonce_twice(self):
        used = [(s.job.key, s.job.nonce) for s in self.sheets if s.job.direction == SEAL]
        self.assertEqual(len(used), len(set(used)))
