"""Slips in the words of a command, found before argparse sees them: each gets a sentence that names the word and what may be meant."""
import difflib

from trouble import Trouble, plain

HELP = ("--help", "-h")
MAY_BE_EMPTY = {"--header", "--body", "--sealed"}


def listed(names, last="and"):
    return f" {last} ".join(filter(None, [", ".join(names[:-1]), names[-1]]))


def meant(word, known):
    """The known words that begin so, or else look alike; dashes, which all options have, don't count."""
    bare = {name.lstrip("-"): name for name in known}
    word = word.lstrip("-")
    likely = [name for name in bare if word and name.startswith(word)] or difflib.get_close_matches(word, bare, 2, 0.7)
    return f"; {listed([bare[name] for name in likely], 'or')} may be meant" if likely else ""


def is_option(word):
    return word.startswith("-") and len(word) > 1 and not word[1:].isdecimal()


class Words:
    """What a command takes: options with a value, those of them that it needs (one of each group), options without a value, and how many
    other words."""

    def __init__(self, values=(), flags=(), needed=(), most=0, why="", least=0):
        self.values, self.flags, self.needed, self.most, self.why, self.least = values, flags, needed, most, why, least

    def check(self, words):
        """What stands behind --help does not matter."""
        given, others, rest = set(), [], list(words)
        while rest:
            word = rest.pop(0)
            name, equals, _value = word.partition("=")
            if word in HELP:
                return
            if name in self.values:
                given.add(name)
                if not equals:
                    self.check_value(name, rest[:1])
                    rest.pop(0)
            elif name in self.flags:
                if equals:
                    raise Trouble(f"{name} takes no value")
            elif is_option(word):
                raise Trouble(f"{plain(name[:40])} is no option here{meant(name, self.values + self.flags)}")
            else:
                others.append(word)
        self.check_others(others)
        self.check_missing(given)

    def check_value(self, name, following):
        if not following:
            raise Trouble(f"{name} needs a value")
        if is_option(following[0]):
            raise Trouble(f"{name} needs a value, and {plain(following[0][:40])} follows, which begins like an option")

    def check_others(self, others):
        if len(others) > self.most:
            raise Trouble(f"'{plain(others[self.most][:40])}' is one word too many{self.why}")
        if len(others) < self.least:
            raise Trouble(f"{'a word is' if len(others) + 1 == self.least else 'words are'} missing{self.why}")

    def check_missing(self, given):
        missing = [group[0] for group in self.needed if given.isdisjoint(group)]
        if missing:
            empty = "" if MAY_BE_EMPTY.isdisjoint(missing) else "; '-' stands for an empty value"
            raise Trouble(f"{listed(missing)} {'is' if len(missing) == 1 else 'are'} missing{empty}")
