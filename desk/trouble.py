"""What stops the desk: a sentence for the person at it, and exit status 2."""
import sys


class Trouble(Exception):
    """Its text is one sentence, or several on lines of their own."""


def complain(text):
    for sentence in str(text).split("\n"):
        print(f"desk: {sentence}", file=sys.stderr)


def placed(place, reading, *given):
    """What a reading gives; its trouble is told with the place where it was met."""
    try:
        return reading(*given)
    except Trouble as trouble:
        raise Trouble(f"{place}: {trouble}") from None


def plain(text):
    """A name as it can be shown: a terminal must not act on what stands in it."""
    return "".join(c if c.isprintable() else c.encode("unicode_escape").decode() for c in text) or "''"
