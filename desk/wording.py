"""An answer in words: which check it was, with the lengths that were given and those that the scheme wants."""
import re

from explain import NUMBERS
from jobs import count, why_none
from schemes import KEY, SCHEMES


def done(job, answer):
    if job is None:
        return f"done, {count(answer.output)}"
    if job.verb == "open":
        return f"done: authentic, a body of {count(answer.output)}"
    return f"done: sealed, {count(answer.output)}, one block more than the body's {len(job.body):,}"


def no_scheme(job, _scheme):
    return f"given {job.scheme}; there are 1 to 7"


def is_hex_text(data):
    return len(data) > 1 and re.fullmatch(rb"[0-9A-Fa-f\s:]+", data) is not None


def wrong_length(data, name, length):
    """Digits in a file in the place of the bytes that they stand for are the likeliest slip with a key's file."""
    digits = "; the bytes given are hex digits, and a file's bytes are taken as they are" if is_hex_text(data) else ""
    return f"given {count(data)}, {name} has {length}{digits}"


def nonce_length(job, scheme):
    return wrong_length(job.nonce, f"a nonce of scheme {job.scheme}", scheme.nonce)


def key_length(job, scheme):
    """The check of the nonce comes after the key's; what it would say is told at once, so that both can be put right together."""
    key = wrong_length(job.key, "a key", KEY)
    if len(job.nonce) == scheme.nonce:
        return key
    return f"{key}; the nonce's length is wrong too (7): {nonce_length(job, scheme)}"


def too_short(job, scheme):
    return f"given {count(job.body)}, a block of scheme {job.scheme} has {scheme.block}"


def nothing(job, _scheme):
    body = "a run of one block has an empty body, and " if job.verb == "open" else ""
    return f"{body}scheme {job.scheme} has no run for them"


def not_authentic(_job, _scheme):
    return "no byte of a body is given"


DETAILS = {1: no_scheme, 2: key_length, 4: too_short, 6: not_authentic, 7: nonce_length, 10: nothing}


def detail(number, data, job):
    """What is known of this job beyond the number's title, if anything."""
    if number == 9:
        return why_none(data)
    scheme = job and SCHEMES.get(job.scheme)
    # Sizes can be told of a known scheme only, and number 1 asks for none.
    if number in DETAILS and job and (scheme or number == 1):
        return DETAILS[number](job, scheme)
    return None


def meaning(data, job, answer):
    if answer.number == 0:
        return done(job, answer)
    more = detail(answer.number, data, job)
    return f"refused, {NUMBERS[answer.number].title}" + (f": {more}" if more else "")
