"""Job sheets: a job as a person writes it down, a word and its value to a line, with its story in # lines at the top."""
import os
from collections import namedtuple

import explain
from files import read_file
from jobs import OPEN, SEAL, Job
from trouble import Trouble, placed, plain
from values import INPUT, bytes_of, number_of

MOST = 4 * 1024 * 1024  # four full sections in hex, with room for spaces and words
ALONE = ("seal", "open")
WORDS = ("scheme",) + ALONE + ("key", "nonce", "header", "body", "sealed", "expect", "output")

Line = namedtuple("Line", "place value")
Sheet = namedtuple("Sheet", "story job expect output")


def text_of(name):
    try:
        return read_file(name, MOST).decode("utf-8-sig")
    except UnicodeDecodeError:
        raise Trouble(f"{plain(name)} is not text in UTF-8; a raw job's name ends in .job") from None


def check_word(word, value, lines):
    """The strictness of a sheet: nothing that it says is passed over."""
    if word not in WORDS:
        raise Trouble(f"{word[:40]!r} is not a word of a sheet; they are {', '.join(WORDS)}")
    if word in lines:
        raise Trouble(f"a second '{word}'")
    if word in ALONE and value:
        raise Trouble(f"'{word}' stands alone on its line")
    if word in ALONE and any(other in lines for other in ALONE):
        raise Trouble("a sheet is either 'seal' or 'open'")
    if word not in ALONE and not value:
        raise Trouble(f"'{word}' has no value; '-' stands for no bytes")


def check_shown(line):
    """A story is shown as it is, so that nothing in it may steer a terminal."""
    for char in line.replace("\t", " "):
        if not char.isprintable():
            raise Trouble(f"a character that can't be shown, {ascii(char)}; a raw job's name ends in .job")


def take_line(text, place, story, lines):
    check_shown(text)
    text = text.strip()
    if text.startswith("#"):
        if not lines:
            story.append(text[1:].strip())
        return
    word, value = (text.split(None, 1) + ["", ""])[:2]
    if word:
        check_word(word, value, lines)
        lines[word] = Line(f"{place}: {word}", value)


def lines_of(name, text):
    """The story at the top, and the lines by their word."""
    story, lines = [], {}
    for number, line in enumerate(text.split("\n"), 1):
        place = f"{plain(name)}, line {number}"
        placed(place, take_line, line.rstrip("\r"), place, story, lines)
    return story, lines


def direction_of(name, lines):
    """Also sees to it that the last section has the name that fits the direction."""
    if not any(word in lines for word in ALONE):
        raise Trouble(f"{plain(name)}: neither a line 'seal' nor a line 'open'")
    verb, last, other = ("open", "sealed", "body") if "open" in lines else ("seal", "body", "sealed")
    if other in lines:
        raise Trouble(f"{lines[other].place}: a sheet with '{verb}' has '{last}' in its place")
    return (OPEN if verb == "open" else SEAL), last


def section(name, lines, word):
    """Nothing is empty because its line was forgotten."""
    if word not in lines:
        empty = "" if word in ("key", "nonce") else f"; `{word} -` stands for no bytes"
        raise Trouble(f"{plain(name)}: no line '{word}'{empty}")
    line = lines[word]
    if line.value == INPUT:
        raise Trouble(f"{line.place}: a sheet does not read standard input; a file of that name is @./-")
    return placed(line.place, bytes_of, line.value, os.path.dirname(name))


def scheme_of(name, lines):
    if "scheme" not in lines:
        raise Trouble(f"{plain(name)}: no line 'scheme'")
    return placed(lines["scheme"].place, number_of, lines["scheme"].value, 255)


def job_of(name, lines):
    direction, last = direction_of(name, lines)
    return Job(scheme_of(name, lines), direction, *(section(name, lines, word) for word in ("key", "nonce", "header", last)))


def expected(name, lines):
    """The number and the output that a sheet expects; None where it says nothing."""
    expect = output = None
    if "expect" in lines:
        expect = placed(lines["expect"].place, number_of, lines["expect"].value, explain.MOST)
    if "output" in lines:
        output = section(name, lines, "output")
        if expect != 0:
            raise Trouble(f"{lines['output'].place}: only with 'expect 0', for a refusal has no output")
    return expect, output


def sheet_of(name, text):
    story, lines = lines_of(name, text)
    return Sheet(story, job_of(name, lines), *expected(name, lines))


def read_sheet(name):
    return sheet_of(name, text_of(name))
