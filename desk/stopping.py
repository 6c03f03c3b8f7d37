"""Signals that stop the desk. It ends what it started, says a sentence, and then ends by the same signal, so that a shell sees status 130
after Ctrl-C, and a shell's loop over many records stops too."""
import os
import signal

SENTENCES = {
    signal.SIGINT: "stopped from the keyboard",
    signal.SIGTERM: "stopped by another program",
    signal.SIGHUP: "stopped, for the terminal was closed",
}


class Stopped(BaseException):
    def __init__(self, number):
        super().__init__(SENTENCES[number])
        self.number = number


def stop(number, _frame):
    """Only once: what is then ended must not be left half ended."""
    for other in SENTENCES:
        signal.signal(other, signal.SIG_IGN)
    raise Stopped(number)


def watch():
    """A signal that whoever started the desk has it ignore stays ignored."""
    for number in SENTENCES:
        if signal.getsignal(number) != signal.SIG_IGN:
            signal.signal(number, stop)


def end_by(number):
    signal.signal(number, signal.SIG_DFL)
    os.kill(os.getpid(), number)
