"""Bad input: status 2, one sentence on standard error, no traceback; and sealjob is not asked."""
import os
import signal
import subprocess
import sys
import time

import support
from support import OPEN, SEAL, replaced


class Input(support.DeskTest):
    def test_values(self):
        for option in ("--key", "--nonce", "--header", "--body"):
            self.complains(f"{option}: 3 hex digits from character 1 on", *replaced(SEAL, option, "abc"))
            self.complains(f"{option}: 'g', character 2 of the value", *replaced(SEAL, option, "0g"))
        self.complains("--sealed: 'g', character 1", *replaced(OPEN, "--sealed", "g0"))
        self.complains("--body: none.bin can't be read: No such file", *replaced(SEAL, "--body", "@none.bin"))
        self.complains("--body: . can't be read: Is a directory", *replaced(SEAL, "--body", "@."))

    def test_unreadable(self):
        """A file that opens and then fails, for root too, which no lack of permission stops."""
        self.complains("/proc/self/mem can't be read: Input/output error", *replaced(SEAL, "--body", "@/proc/self/mem"))

    def test_section_too_long(self):
        self.write("long.bin", bytes(65536))
        self.complains("--header: long.bin has more than 65,535 bytes", *replaced(SEAL, "--header", "@long.bin"))

    def test_scheme(self):
        for text in ("256", "two", "", "1.5"):
            self.complains("--scheme: ", *replaced(SEAL, "--scheme", text))
        self.complains("--scheme", *replaced(SEAL, "--scheme", "-1"))

    def test_options(self):
        for option in ("--scheme", "--key", "--nonce"):
            self.complains(f"desk: {option} is missing; `tools/desk seal --help` shows how", *replaced(SEAL, option, None))
        for words, option in ((SEAL, "--header"), (SEAL, "--body"), (OPEN, "--header"), (OPEN, "--sealed")):
            self.complains(f"desk: {option} is missing; '-' stands for an empty value;", *replaced(words, option, None))
        self.complains("desk: --scheme, --key, --nonce, --header and --body are missing;", "seal")
        self.complains("desk: --header: the value is empty; '-' stands for no bytes", *replaced(SEAL, "--header", ""))
        self.complains("--key is given a second time", *SEAL, "--key", "00")
        self.complains("--body is given a second time", *OPEN, "--body", "00")
        self.complains("desk: --out needs a value;", *SEAL, "--out")
        self.complains("desk: --key needs a value, and --nonce follows", "seal", "--key", "--nonce", "00")
        self.complains("desk: run needs the name of a sheet or of a raw job; `tools/desk run --help`", "run")
        self.complains("desk: '2' is one word too many; explain takes one number", "explain", "1", "2")
        self.complains("desk: '28' is one word too many; a value stands behind its option, in quotes", *SEAL[:-1], "24", "28")

    def test_unknown_options(self):
        """Each is named, also where something else is missing, and so is the option that may be meant."""
        for word, sentence in (
            ("--hea", "--hea is no option here; --header may be meant;"),
            ("--hea=00", "--hea is no option here; --header may be meant;"),
            ("--heeder", "--heeder is no option here; --header may be meant;"),
            ("--sealed", "--sealed is no option here;"),
            ("--bod", "--bod is no option here; --body may be meant;"),
            ("-k", "-k is no option here"),
            ("--xyz", "--xyz is no option here; `tools/desk seal --help` shows how"),
            ("--x\x1b[1m", "--x\\x1b[1m is no option here"),
        ):
            with self.subTest(word):
                self.complains(f"desk: {sentence}", *SEAL, word, "00")
                self.complains(f"desk: {sentence}", "seal", word, "00")
        self.complains("desk: --quiet is no option here;", "run", "--quiet", "a.sheet")
        self.complains("desk: --quiet takes no value", *SEAL, "--quiet=yes")

    def test_commands(self):
        self.complains("desk: '--open' is no option of the desk's; open may be meant;", "--open")
        self.complains("desk: 'unseal' is no command; seal may be meant; the first word is seal, open, run, differ or explain;", "unseal")
        self.complains("desk: '--quiet' is no option of the desk's; the first word is", "--quiet", *SEAL)
        self.complains("desk: '' is no command", "")

    def test_files_are_not_overwritten(self):
        self.write("old", b"old")
        for option in ("--job", "--out"):
            self.complains("old is there already", *SEAL, option, "old")
        self.complains("name the same file", *SEAL, "--job", "new", "--out", "./new")
        self.assertEqual(self.read("old"), b"old")
        self.assertEqual(os.listdir(self.folder), ["old"])



class Sealjob(support.DeskTest):
    def test_not_there(self):
        self.complains("sealjob can't be run (/none/sealjob): No such file", *SEAL, program="/none/sealjob")
        self.write("plain", b"")
        self.complains("Permission denied", *SEAL, program=self.path("plain"))
        self.complains("the variable SEALJOB holds no command: No closing quotation", *SEAL, program="'")
        self.complains("the variable SEALJOB holds no command", *SEAL, program=" ")

    def test_fails(self):
        self.complains("sealjob failed: it ended with status 1", *SEAL, program="false")
        self.complains("status 3", *SEAL, program=self.stand_in("echo '0 0 -'; exit 3"))
        self.complains("status -9", *SEAL, program=self.stand_in("kill -9 $$"))

    def test_prints_something_else(self):
        for script in ("true", "echo", "echo hello", "echo '11 0 -'", "echo '6 0 -'; echo '6 0 -'", "printf '6 0 -'"):
            with self.subTest(script):
                self.assertEqual(self.complains("printed something that is no answer", *SEAL, program=self.stand_in(script)), "")
        for script in ("echo '0 2 00'", "echo '6 1 00'"):
            self.complains("whose length is wrong", *SEAL, program=self.stand_in(script))

    def test_reads_nothing(self):
        """A program that does not read its input is no reason to fail."""
        self.write("body.bin", bytes(65535))
        ended = self.desk(*replaced(SEAL, "--body", "@body.bin"), program=self.stand_in("exec <&-; echo '9 0 -'"))
        self.assertEqual(ended.returncode, 1)
        self.assertIn("answer   9 0 -\n", ended.stdout)

    def test_all_answers(self):
        for number in range(1, 11):
            shown = self.done(*SEAL, status=1, program=self.stand_in(f"echo '{number} 0 -'"))
            self.assertIn(f"answer   {number} 0 -\nmeaning  refused, ", shown)


class Stopped(support.DeskTest):
    def start(self, program, **streams):
        return subprocess.Popen(
            [sys.executable, "-B", os.path.join(support.ROOT, "desk"), *SEAL], env={**os.environ, "SEALJOB": program},
            stderr=subprocess.PIPE, text=True, start_new_session=True, restore_signals=True,
            # a shell that starts the tests in the background has its children ignore it
            preexec_fn=lambda: signal.signal(signal.SIGINT, signal.default_int_handler), **streams,
        )

    def test_from_the_keyboard(self):
        process = self.start(self.stand_in(f"echo > {self.path('begun')}; exec sleep 30"), stdout=subprocess.PIPE)
        while not os.path.exists(self.path("begun")) and process.poll() is None:
            time.sleep(0.02)
        os.killpg(process.pid, signal.SIGINT)
        self.assertEqual(process.communicate(timeout=20), ("", "desk: stopped from the keyboard\n"))
        self.assertEqual(process.returncode, -signal.SIGINT)  # 130 to a shell

    def test_nobody_reads(self):
        reading, writing = os.pipe()
        os.close(reading)
        process = self.start(self.stand_in("echo '6 0 -'"), stdout=writing)
        os.close(writing)
        self.assertEqual(process.communicate(timeout=20)[1], "desk: stopped, for nobody reads the output any more\n")
        self.assertEqual(process.returncode, 2)

    def test_no_output(self):
        closed = 'exec "$@" >&-'
        ended = subprocess.run(["sh", "-c", closed, "sh", sys.executable, "-B", os.path.join(support.ROOT, "desk"), "explain"],
                               stderr=subprocess.PIPE, text=True)
        self.assertEqual((ended.returncode, ended.stderr), (2, "desk: standard output is closed\n"))

    def test_no_space(self):
        with open("/dev/full", "wb") as full:
            process = self.start(self.stand_in("echo '6 0 -'"), stdout=full)
        self.assertEqual(process.communicate(timeout=20)[1], "desk: the output can't be written: No space left on device\n")
        self.assertEqual(process.returncode, 2)
