"""What the desk's tests have in common: the desk as a person starts it, programs in sealjob's place, a folder that goes away."""
import importlib.util
import os
import shlex
import shutil
import signal
import stat
import subprocess
import sys
import tempfile
import traceback
import unittest

# Nothing is left beside the sources.
sys.dont_write_bytecode = True
ROOT = os.path.dirname(os.path.dirname(os.path.dirname(os.path.abspath(__file__))))
sys.path.insert(0, os.path.join(ROOT, "desk"))

import sealjob

START = importlib.util.spec_from_file_location("desk_main", os.path.join(ROOT, "desk", "__main__.py"))
desk_main = importlib.util.module_from_spec(START)
START.loader.exec_module(desk_main)

KEY = "5d1c8e40b729f36a910ec4783fd256ab"
NONCE = "2026030108680000000000000001"
HEADER = "7461626c65203836384d207265763380"
BODY = "24282c1e2420"
# The second program's, as all outputs in examples/jobs.
SEALED = "8fc6325ceecadb1b9feb28f419c730a06b148d5a5753"
SEAL = ["seal", "--scheme", "2", "--key", KEY, "--nonce", NONCE, "--header", HEADER, "--body", BODY]
OPEN = ["open", "--scheme", "2", "--key", KEY, "--nonce", NONCE, "--header", HEADER, "--sealed", SEALED]
JOB = bytes.fromhex("0200" + "0010" + KEY + "000e" + NONCE + "0010" + HEADER + "0006" + BODY)
SHEET = f"# A story.\nscheme 2\nseal\nkey {KEY}\nnonce {NONCE}\nheader {HEADER}\nbody {BODY}\n"


def whole(word):
    """The tests work in folders of their own, where a relative name would mean another file."""
    return os.path.abspath(word) if os.path.exists(word) else word


PROGRAM = shlex.join(whole(word) for word in sealjob.command())


def replaced(words, option, value):
    """The words with another value behind an option; without the option where the value is None."""
    at = words.index(option)
    return words[:at] + ([] if value is None else [option, value]) + words[at + 2:]


def between(name, start, end):
    """From a file of the project, what stands behind the first start and before the next end."""
    with open(os.path.join(ROOT, name), encoding="utf-8") as file:
        return file.read().split(start, 1)[1].split(end, 1)[0]


def encoded(data):
    return data.encode() if isinstance(data, str) else data


def become_desk(words, folder, program, prepare, streams):
    """Does not come back. A desk that hangs is ended by an alarm."""
    status = 70
    try:
        signal.alarm(100)
        os.chdir(folder)
        os.environ["SEALJOB"] = program
        for number, name in enumerate(("stdin", "stdout", "stderr")):
            stream = streams[name]
            os.dup2(stream if isinstance(stream, int) else stream.fileno(), number)
            setattr(sys, name, open(number, "w" if number else "r", 1 if name == "stderr" else -1, closefd=False))
        if prepare:
            prepare()
        status = desk_main.main(list(words))
    except BaseException:
        traceback.print_exc()
    finally:
        sys.stderr.flush()
        os._exit(status)


class DeskTest(unittest.TestCase):
    def setUp(self):
        self.folder = tempfile.mkdtemp()
        self.addCleanup(shutil.rmtree, self.folder)

    def path(self, name):
        return os.path.join(self.folder, name)

    def write(self, name, data):
        with open(self.path(name), "wb") as file:
            file.write(encoded(data))
        return name

    def read(self, name):
        with open(self.path(name), "rb") as file:
            return file.read()

    def stand_in(self, script):
        """The command of a shell script in sealjob's place."""
        self.write("stand-in", script)
        return shlex.join(["sh", self.path("stand-in")])

    def desk(self, *words, program=PROGRAM, prepare=None, text=True, **streams):
        """The desk in a process of its own, in the test's folder; forked, for Python's start would take most of the time."""
        with tempfile.TemporaryFile() as given, tempfile.TemporaryFile() as out, tempfile.TemporaryFile() as err:
            given.write(encoded(streams.pop("input", b"")))
            given.seek(0)
            child = os.fork()
            if child == 0:
                become_desk(words, self.folder, program, prepare, {"stdin": given, "stdout": out, "stderr": err, **streams})
            status = os.waitstatus_to_exitcode(os.waitpid(child, 0)[1])
            said = [file.seek(0) or file.read() for file in (out, err)]
            return subprocess.CompletedProcess(words, status, *(data.decode() if text else data for data in said))

    def done(self, *words, status=0, program=PROGRAM, **streams):
        """What the desk prints when it has nothing to complain of."""
        ended = self.desk(*words, program=program, **streams)
        self.assertEqual((ended.stderr, ended.returncode), ("", status), ended.stdout)
        return ended.stdout

    def mode(self, name):
        return stat.S_IMODE(os.stat(self.path(name)).st_mode)

    def complains(self, sentence, *words, program="false", **streams):
        """Status 2, one sentence and nothing else; `false` in sealjob's place would be complained of otherwise."""
        ended = self.desk(*words, program=program, **streams)
        self.assertEqual(ended.returncode, 2, ended)
        self.assertEqual(ended.stderr.count("\n"), 1, ended.stderr)
        self.assertTrue(ended.stderr.startswith("desk: "), ended.stderr)
        self.assertIn(sentence, ended.stderr)
        return ended.stdout
