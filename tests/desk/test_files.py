"""What the desk writes: files for their owner alone, made before a job is run; raw bytes and bare hex on standard output; and what it reads
from standard input."""
import os
import pty
import resource
import signal
import subprocess
import sys

import support
from support import BODY, JOB, OPEN, SEAL, SEALED, replaced

RAW = bytes.fromhex(SEALED)


class Files(support.DeskTest):
    def test_for_the_owner_alone(self):
        """Whatever the caller's mask lets through."""
        before = os.umask(0)
        self.addCleanup(os.umask, before)
        self.done(*SEAL, "--job", "seal.job", "--out", "run.bin")
        self.done(*replaced(OPEN, "--sealed", "@run.bin"), "--job", "open.job", "--out", "body.bin")
        self.assertEqual([self.mode(name) for name in ("seal.job", "run.bin", "open.job", "body.bin")], [0o600] * 4)
        self.assertEqual((self.read("seal.job"), self.read("run.bin"), self.read("body.bin").hex()), (JOB, RAW, BODY))

    def refused_before(self, sentence, *words, **streams):
        """Refused without sealjob being asked, and nothing is left."""
        program = self.stand_in(f"echo > {self.path('asked')}; echo '6 0 -'")
        before = sorted(os.listdir(self.folder))
        self.assertEqual(self.complains(sentence, *words, program=program, **streams), "")
        self.assertEqual(sorted(os.listdir(self.folder)), before)

    def test_refused_before_a_seal(self):
        self.write("plain", b"")
        for option in ("--job", "--out"):
            self.refused_before("none/a can't be written: No such file or directory", *SEAL, option, "none/a")
            self.refused_before("plain/a can't be written: Not a directory", *SEAL, option, "plain/a")
            self.refused_before(". is a folder; a file is to be named", *SEAL, option, ".")
            self.refused_before("/proc/a can't be written: No such file", *SEAL, option, "/proc/a")
            self.refused_before("'' can't be written: No such file", *SEAL, option, "")
        self.refused_before("none/a can't be written", *SEAL, "--job", "a.job", "--out", "none/a")

    def test_no_room(self):
        """A limit on the size of files stands for a full disk: room is set aside before a job is run."""
        def limit():
            resource.setrlimit(resource.RLIMIT_FSIZE, (4096, 4096))
        self.write("body.bin", bytes(5000))
        words = replaced(SEAL, "--body", "@body.bin")
        for option in ("--job", "--out"):
            self.refused_before("new can't be written: File too large", *words, option, "new", prepare=limit)

    def test_no_answer_leaves_no_file(self):
        self.complains("status 1", *SEAL, "--job", "a.job", "--out", "a.run")
        self.assertEqual(os.listdir(self.folder), [])

    def test_a_refusal_keeps_the_job_alone(self):
        self.done(*replaced(OPEN, "--header", "-"), "--job", "a.job", "--out", "body.bin", status=1)
        self.assertEqual(os.listdir(self.folder), ["a.job"])

    def test_a_file_made_meanwhile(self):
        """The name is the desk's from before the job is run."""
        program = self.stand_in(f"echo new > {self.path('run.bin')}; echo '0 22 {SEALED}'")
        self.done(*SEAL, "--out", "run.bin", program=program)
        self.assertEqual(self.read("run.bin"), RAW)

    def test_another_file_meanwhile(self):
        """It is not the desk's to remove."""
        program = self.stand_in(f"cd {self.folder}; rm a.run; echo other > a.run; echo '6 0 -'")
        self.done(*SEAL, "--out", "a.run", status=1, program=program)
        self.assertEqual(self.read("a.run"), b"other\n")

    def test_a_link_to_nowhere(self):
        os.symlink("elsewhere", self.path("link"))
        self.complains("link is there already", *SEAL, "--out", "link")


class Output(support.DeskTest):
    def test_raw(self):
        ended = self.desk(*SEAL, "--out", "-", text=False)
        self.assertEqual((ended.returncode, ended.stdout), (0, RAW))
        self.assertEqual(ended.stderr.decode(), self.done(*SEAL))

    def test_raw_refused(self):
        ended = self.desk(*replaced(OPEN, "--header", "-"), "--out", "-")
        self.assertEqual((ended.returncode, ended.stdout), (1, ""))
        self.assertTrue(ended.stderr.startswith("answer   6 0 -\n"), ended.stderr)

    def test_quiet(self):
        self.assertEqual(self.done(*SEAL, "--quiet"), SEALED + "\n")
        self.assertEqual(self.done(*OPEN, "--quiet", "--out", "body.bin"), BODY + "\n")
        self.assertEqual(self.read("body.bin").hex(), BODY)
        sealed = self.done(*replaced(SEAL, "--body", "-"), "--quiet").strip()
        self.assertEqual(self.done(*replaced(OPEN, "--sealed", sealed), "--quiet"), "-\n")

    def test_quiet_and_raw(self):
        ended = self.desk(*SEAL, "--quiet", "--out", "-", text=False)
        self.assertEqual((ended.returncode, ended.stdout, ended.stderr), (0, RAW, b""))

    def test_quiet_refused(self):
        for more in ([], ["--out", "-"]):
            ended = self.desk(*replaced(OPEN, "--header", "-"), "--quiet", *more)
            self.assertEqual((ended.returncode, ended.stdout), (1, ""))
            self.assertEqual(ended.stderr, "desk: answer 6 0 -: refused, not authentic: no byte of a body is given\n")

    def test_not_to_a_terminal(self):
        ours, theirs = pty.openpty()
        self.addCleanup(os.close, ours)
        ended = self.desk(*SEAL, "--out", "-", program="false", stdout=theirs)
        os.close(theirs)
        self.assertEqual(ended.stderr, "desk: --out -: standard output is a terminal, and raw bytes are for a file or a pipe\n")

    def test_job_is_a_file(self):
        self.complains("--job needs the name of a file; only --out writes to standard output", *SEAL, "--job", "-")

    def test_from_one_to_the_next(self):
        """Raw bytes by a pipe: sealed, opened, and nothing on the way."""
        sealed = self.desk(*SEAL, "--quiet", "--out", "-", text=False).stdout
        opened = self.desk(*replaced(OPEN, "--sealed", "@-"), "--quiet", "--out", "-", text=False, input=sealed)
        self.assertEqual(opened.stdout.hex(), BODY)


class Input(support.DeskTest):
    def test_each_value(self):
        for option, value in (("--key", support.KEY), ("--nonce", support.NONCE), ("--header", support.HEADER), ("--body", BODY)):
            ended = self.desk(*replaced(SEAL, option, "@-"), "--quiet", text=False, input=bytes.fromhex(value))
            self.assertEqual(ended.stdout.decode(), SEALED + "\n")

    def test_only_one(self):
        words = replaced(replaced(SEAL, "--key", "@-"), "--body", "@-")
        self.complains("--key and --body would read standard input, which only one value can", *words, input="00")

    def test_too_long(self):
        self.complains("--body: standard input has more than 65,535 bytes", *replaced(SEAL, "--body", "@-"), input="a" * 65536)

    def test_unreadable(self):
        with open("/proc/self/mem", "rb") as broken:
            self.complains("--body: standard input can't be read: Input/output error", *replaced(SEAL, "--body", "@-"), stdin=broken)
        closed = 'exec "$@" <&-'
        ended = subprocess.run(["sh", "-c", closed, "sh", sys.executable, "-B", os.path.join(support.ROOT, "desk"),
                                *replaced(SEAL, "--body", "@-")], stderr=subprocess.PIPE, text=True)
        self.assertEqual((ended.returncode, ended.stderr), (2, "desk: --body: standard input is closed\n"))

    def test_from_the_keyboard(self):
        ours, theirs = pty.openpty()
        self.addCleanup(os.close, ours)
        os.write(ours, b"four\n\x04")
        ended = self.desk(*replaced(SEAL, "--body", "@-"), stdin=theirs)
        os.close(theirs)
        self.assertEqual(ended.stderr, "desk: reading from the keyboard, each character as it is, up to Ctrl-D\n")
        self.assertIn("one block more than the body's 5\n", ended.stdout)


class Stopped(support.DeskTest):
    def test_leaves_no_file(self):
        program = self.stand_in(f"kill -{signal.SIGTERM.value} $PPID; exec sleep 30")
        ended = self.desk(*SEAL, "--job", "a.job", "--out", "a.run", program=program)
        self.assertEqual((ended.returncode, ended.stderr), (-signal.SIGTERM, "desk: stopped by another program\n"))
        self.assertEqual(os.listdir(self.folder), ["stand-in"])
