"""Files read whole and never past a limit, and files made only where there was none, for their owner alone to read."""
import contextlib
import errno
import os
import sys

from trouble import Trouble, complain, plain

NEW = os.O_WRONLY | os.O_CREAT | os.O_EXCL | os.O_CLOEXEC
# What a file system says that can't set room aside: then nothing is known before the writing.
UNABLE = (errno.EOPNOTSUPP, errno.ENOSYS, errno.EINVAL, errno.ENODEV)


def limited(reading, name, most):
    try:
        data = reading(most + 1)
    except OSError as error:
        raise Trouble(f"{name} can't be read: {error.strerror}") from None
    if len(data) > most:
        raise Trouble(f"{name} has more than {most:,} bytes")
    return data


def read_file(name, most):
    def reading(size):
        with open(name, "rb") as file:
            return file.read(size)
    return limited(reading, plain(name), most)


def read_input(most):
    if sys.stdin is None:
        raise Trouble("standard input is closed")
    if sys.stdin.isatty():
        complain("reading from the keyboard, each character as it is, up to Ctrl-D")
    return limited(sys.stdin.buffer.read, "standard input", most)


class NewFile:
    """A file that is made before the job is run, with room for what may be written: no nonce is spent for a file that can't be. It goes
    away again if it is not kept."""

    def __init__(self, name, room):
        self.name, self.kept = name, False
        if os.path.isdir(name):
            raise Trouble(f"{plain(name)} is a folder; a file is to be named")
        try:
            self.file = open(name, "xb", opener=lambda path, _flags: os.open(path, NEW, 0o600))
        except FileExistsError:
            raise Trouble(f"{plain(name)} is there already, and the desk overwrites no file") from None
        except OSError as error:
            raise self.unwritten(error) from None
        try:
            self.set_aside(room)
        except BaseException:
            self.__exit__()
            raise

    def set_aside(self, room):
        try:
            os.posix_fallocate(self.file.fileno(), 0, max(room, 1))
        except OSError as error:
            if error.errno not in UNABLE:
                raise self.unwritten(error) from None

    def unwritten(self, error):
        return Trouble(f"{plain(self.name)} can't be written: {error.strerror}")

    def write(self, data):
        """All of it, and nothing behind it."""
        try:
            self.file.write(data)
            self.file.flush()
            os.ftruncate(self.file.fileno(), len(data))
        except OSError as error:
            raise self.unwritten(error) from None

    def keep(self):
        self.kept = True

    def __enter__(self):
        return self

    def __exit__(self, *_error):
        """What can't be removed, or has become another file meanwhile, is left."""
        made = os.fstat(self.file.fileno())
        with contextlib.suppress(OSError):  # what could not be written was told before
            self.file.close()
        with contextlib.suppress(OSError):
            if not self.kept and os.path.samestat(made, os.lstat(self.name)):
                os.unlink(self.name)
