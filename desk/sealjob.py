"""The proved program: how it is started, and the one line that it prints."""
import os
import re
import shlex
import subprocess
import sys
from collections import namedtuple

from stopping import Stopped
from trouble import Trouble

TOOLS = os.path.join(os.path.dirname(os.path.dirname(os.path.abspath(__file__))), "tools")
UNBUILT = 3  # tools/desk --sealjob says so by its status
SECONDS = 60  # no job takes a second, also under an emulator
GRACE = 20  # seconds in which a build that is stopped has ended its provers
LINE = re.compile(rb"(10|[0-9]) (0|[1-9][0-9]*) (-|(?:[0-9a-f]{2})+)\n")

Answer = namedtuple("Answer", "number output line")


def command():
    """The words that start sealjob: the variable SEALJOB's, else the launcher's, once tools/program has built what is missing."""
    if os.environ.get("SEALJOB"):
        return given_command(os.environ["SEALJOB"])
    sys.stdout.flush()
    status, words = launched()
    if status == UNBUILT:
        build()
        status, words = launched()
    if status == UNBUILT:
        raise Trouble("sealjob was built, and then a crate or the kit changed; nothing was run")
    if status:
        raise Trouble("sealjob can't be had, for the reason above, and nothing was run")
    return words


def launched():
    told = subprocess.run([os.path.join(TOOLS, "desk"), "--sealjob"], stdin=subprocess.DEVNULL, stdout=subprocess.PIPE)
    return told.returncode, os.fsdecode(told.stdout).splitlines()


def build():
    """tools/program itself ends its provers if it is stopped; so it is asked to, and waited for."""
    with subprocess.Popen([os.path.join(TOOLS, "program")], stdin=subprocess.DEVNULL, stdout=sys.stderr) as building:
        try:
            status = building.wait()
        except Stopped:
            building.terminate()
            end(building)
            raise
    if status:
        raise Trouble("sealjob is not built, for the reason above, and nothing was run")


def end(building):
    try:
        building.wait(GRACE)
    except subprocess.TimeoutExpired:
        building.kill()


def given_command(text):
    try:
        words = shlex.split(text)
    except ValueError as error:
        raise Trouble(f"the variable SEALJOB holds no command: {error}") from None
    if not words:
        raise Trouble("the variable SEALJOB holds no command")
    return words


def answer_to(data, words):
    """What sealjob, started by these words, answers to a job's bytes."""
    try:
        ended = subprocess.run(words, input=data, stdout=subprocess.PIPE, timeout=SECONDS)
    except OSError as error:
        raise Trouble(f"sealjob can't be run ({shlex.join(words)}): {error.strerror}") from None
    except subprocess.TimeoutExpired:
        raise Trouble(f"sealjob gave no answer within {SECONDS} seconds") from None
    if ended.returncode:
        raise Trouble(f"sealjob failed: it ended with status {ended.returncode}")
    return answer_of(ended.stdout)


def answer_of(printed):
    """A line that is not just as documented is no answer: the desk guesses nothing."""
    parts = LINE.fullmatch(printed)
    if not parts:
        raise Trouble(f"sealjob printed something that is no answer: {printed[:60]!r}")
    number, length = int(parts[1]), int(parts[2])
    output = b"" if parts[3] == b"-" else bytes.fromhex(parts[3].decode())
    if length != len(output) or (number and output):
        raise Trouble(f"sealjob printed a line whose length is wrong: {printed[:60]!r}")
    return Answer(number, output, printed.decode().rstrip("\n"))
