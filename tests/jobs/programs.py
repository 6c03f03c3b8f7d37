"""The programs that are run: how they are named on a command line, and how the
second program is asked for the lines of many jobs at once."""

import argparse
import os
import re
import shlex
import shutil
import subprocess
import sys
import time

from layout import Sealed, stream

# What a job can be answered with. Never 3 or 8: their limits lie above 65,000
# bytes, and a job has at most 16,384. Never 5: the room is always large enough.
ANSWERS = (0, 1, 2, 4, 6, 7, 9, 10)

# Seconds after which a program is ended that does not end by itself. The
# second program has all jobs to do, sealjob one.
PATIENCE_ALL = 600
PATIENCE_ONE = 60

# Seconds between the pieces of a job.
PAUSE = 0.1

LINE = re.compile(rb"([0-9]+) ([0-9]+) ([0-9a-f]+|-)\n")


def stop(sentence):
    """Ends with 2; 1 is kept for differences."""
    sys.stderr.write("%s: %s\n" % (os.path.basename(sys.argv[0]), sentence))
    sys.exit(2)


def command(words):
    """The words of a command, given as one argument."""
    try:
        parts = shlex.split(words)
    except ValueError as error:
        raise argparse.ArgumentTypeError("%r cannot be split into words: %s" % (words, error))
    if not parts:
        raise argparse.ArgumentTypeError("no command is named")
    if shutil.which(parts[0]) is None:
        raise argparse.ArgumentTypeError("%s is not a program that can be run" % parts[0])
    return parts


def run(words, given, patience):
    """Runs a command to its end, with these bytes on its standard input."""
    pipe = subprocess.PIPE
    return subprocess.run(words, input=given, stdout=pipe, stderr=pipe, timeout=patience)


def run_in_pieces(words, given, patience):
    """The same, with the bytes handed over in three pieces and a pause before each."""
    pipe = subprocess.PIPE
    with subprocess.Popen(words, stdin=pipe, stdout=pipe, stderr=pipe) as running:
        third = len(given) // 3 + 1
        for start in (0, third, 2 * third):
            time.sleep(PAUSE)
            send(running.stdin, given[start : start + third])
        try:
            out, err = running.communicate(timeout=patience)
        except subprocess.TimeoutExpired:
            running.kill()
            raise
    return subprocess.CompletedProcess(words, running.returncode, out, err)


def send(pipe, piece):
    """A program that has read all it takes may have closed the pipe."""
    try:
        pipe.write(piece)
        pipe.flush()
    except BrokenPipeError:
        pass


def ask(second, jobs):
    """What the second program prints for each job, with the lines' ends."""
    try:
        done = run(second, stream(jobs), PATIENCE_ALL)
    except (OSError, subprocess.TimeoutExpired) as error:
        stop("the second program cannot be run: %s" % error)
    if done.returncode != 0 or done.stderr:
        told = done.stderr.decode(errors="replace").strip() or "it says nothing"
        stop("the second program ends with %d: %s" % (done.returncode, told))
    lines = done.stdout.splitlines(keepends=True)
    if len(lines) != len(jobs):
        stop("the second program prints %d lines for %d jobs" % (len(lines), len(jobs)))
    return lines


def answer(line):
    """The number and the output that a line of the second program tells."""
    found = LINE.fullmatch(line)
    if not found:
        stop("the second program prints %r, which is not a line of sealjob" % line[:80])
    output = b"" if found[3] == b"-" else bytes.fromhex(found[3].decode())
    if len(output) != int(found[2]):
        stop("the second program prints another length than its output has: %r" % line[:80])
    return int(found[1]), output


def sealed(second, seals):
    """Those of the seals that are done, with the runs they give."""
    answers = [answer(line) for line in ask(second, [seal.laid_out() for seal in seals])]
    return [Sealed(seal, output) for seal, (number, output) in zip(seals, answers) if number == 0]
