"""The desk: `python3 desk WORDS..`, as tools/desk starts it."""
import os
import signal
import sys

# Until the desk can say a sentence, Ctrl-C ends it without Python's own lines; unless it is to be ignored.
if signal.getsignal(signal.SIGINT) == signal.default_int_handler:
    signal.signal(signal.SIGINT, signal.SIG_DFL)

import stopping
from command_line import parsed, parser
from trouble import Trouble, complain


def give_up_output():
    """What could not be written is not tried again when Python ends."""
    os.dup2(os.open(os.devnull, os.O_WRONLY), sys.stdout.fileno())


def answered(words):
    if not words:
        parser().print_help(sys.stderr)
        return 2
    try:
        args = parsed(words)
    except SystemExit:  # --help was shown
        return 0
    return args.action(args)


def flushed(words):
    try:
        return answered(words)
    finally:
        sys.stdout.flush()


def status_of(words):
    try:
        return flushed(words)
    except Trouble as trouble:
        complain(trouble)
    except BrokenPipeError:
        complain("stopped, for nobody reads the output any more")
        give_up_output()
    except OSError as error:
        complain(f"the output can't be written: {error.strerror}")
        give_up_output()
    return 2


def main(words):
    if sys.stdout is None:
        complain("standard output is closed")
        return 2
    # Names and stories may hold what the terminal's encoding does not.
    sys.stdout.reconfigure(errors="backslashreplace")
    try:
        stopping.watch()
        return status_of(words)
    except stopping.Stopped as stopped:
        complain(stopped)
        return stopping.end_by(stopped.number)


if __name__ == "__main__":
    sys.exit(main(sys.argv[1:]))
