"""Values as a person writes them: numbers, hex digits, or the bytes of a file or of standard input."""
import os
import re

from files import read_file, read_input
from trouble import Trouble, plain

MOST = 65535  # what a section's two-byte count can say
DIGITS = frozenset("0123456789abcdefABCDEF")
INPUT = "@-"


def number_of(text, most):
    """Zeros may stand before it."""
    if not re.fullmatch("[0-9]{1,9}", text) or int(text) > most:
        raise Trouble(f"{text[:40]!r} is not a number from 0 to {most}")
    return int(text)


def group_bytes(group, place):
    for at, digit in enumerate(group):
        if digit not in DIGITS:
            raise Trouble(f"{digit!r}, character {place + at} of the value, is no hex digit")
    if len(group) == 1:
        raise Trouble(f"1 hex digit alone at character {place}; two make a byte")
    if len(group) % 2:
        raise Trouble(f"{len(group):,} hex digits from character {place} on, an odd number; two make a byte")
    return bytes.fromhex(group)


def hex_bytes(text):
    """Spaces and colons part whole bytes. So `1 2` is refused, and not read as the one byte 12."""
    if text.strip() == "-":
        return b""
    if not text.strip():  # more likely a shell's variable that was never set than a value
        raise Trouble("the value is empty; '-' stands for no bytes")
    groups = list(re.finditer(r"[^\s:]+", text, re.ASCII))
    if not groups:
        raise Trouble("no hex digits; '-' stands for no bytes")
    return b"".join(group_bytes(group.group(), group.start() + 1) for group in groups)


def bytes_of(text, folder="", most=MOST, whose="a section of a job"):
    """@FILE is a file's bytes; its name counts from the folder."""
    if text == "@":
        raise Trouble("'@' without the name of a file")
    if text == INPUT:
        return read_input(most)
    if text.startswith("@"):
        return read_file(os.path.join(folder, text[1:]), most)
    try:
        data = hex_bytes(text)
    except Trouble as trouble:
        if os.path.isfile(os.path.join(folder, text)):
            raise Trouble(f"{trouble}; a file of that name is there, whose bytes are @{plain(text)}") from None
        raise
    if len(data) > most:
        raise Trouble(f"{len(data):,} bytes; {whose} has {most:,} at most")
    return data
