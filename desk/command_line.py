"""The words after tools/desk."""
import argparse
import sys

import commands
import helps
import jobs
from slips import HELP, Words, is_option, listed, meant
from trouble import Trouble

NEEDED = (("--scheme",), ("--key",), ("--nonce",), ("--header",))
BEHIND = "; a value stands behind its option, in quotes if it has spaces"


def job_words(*last):
    needed = NEEDED + (last,)
    return Words(sum(needed, ()) + ("--job", "--out"), ("--quiet",), needed, 0, BEHIND)


WORDS = {
    "seal": job_words("--body"),
    "open": job_words("--sealed", "--body"),
    "run": Words(most=sys.maxsize),
    "differ": Words(("--scheme",), (), (("--scheme",),), 2, "; differ takes two runs, each in quotes if it has spaces", 2),
    "explain": Words(most=1, why="; explain takes one number"),
}


class Parser(argparse.ArgumentParser):
    def error(self, message):
        raise Trouble(f"{message}; `{self.prog} --help` shows how")


class Once(argparse.Action):
    """An option that is given twice is a slip; argparse would take the last."""

    def __call__(self, parser, namespace, values, option_string=None):
        if getattr(namespace, self.dest) is not None:
            parser.error(f"{option_string} is given a second time")
        setattr(namespace, self.dest, values)


def add_command(kinds, name, what, about, more):
    """No abbreviations: a slip must not be taken for another option."""
    return kinds.add_parser(
        name, help=what, description=about, epilog=more, allow_abbrev=False,
        formatter_class=argparse.RawDescriptionHelpFormatter,
    )


def add_job_options(kind, direction, last_names, last_help):
    kind.add_argument("--scheme", metavar="N", required=True, action=Once, help=helps.SCHEME)
    kind.add_argument("--key", metavar="VALUE", required=True, action=Once, help=helps.KEY)
    kind.add_argument("--nonce", metavar="VALUE", required=True, action=Once, help="6, 14 or 15 bytes, by the scheme")
    kind.add_argument("--header", metavar="VALUE", required=True, action=Once, help="- for an empty one")
    kind.add_argument(*last_names, dest="body", metavar="VALUE", required=True, action=Once, help=last_help)
    kind.add_argument("--job", metavar="FILE", action=Once, help=helps.JOB_FILE)
    kind.add_argument("--out", metavar="FILE", action=Once, help=helps.OUT)
    kind.add_argument("--quiet", action="store_true", help=helps.QUIET)
    kind.set_defaults(action=commands.one_job, direction=direction, last=last_names[0])


def parser():
    top = Parser(prog="tools/desk", description=helps.ABOUT, epilog=helps.EXAMPLES, allow_abbrev=False,
                 formatter_class=argparse.RawDescriptionHelpFormatter)
    kinds = top.add_subparsers(title="commands", metavar="COMMAND", required=True, parser_class=Parser)
    seal = add_command(kinds, "seal", "seal a body under a header", helps.SEAL, helps.JOB + helps.SEAL_EXAMPLE)
    add_job_options(seal, jobs.SEAL, ["--body"], "what is sealed; - for an empty one")
    opening = add_command(kinds, "open", "open a sealed run", helps.OPEN, helps.JOB + helps.OPEN_EXAMPLE)
    add_job_options(opening, jobs.OPEN, ["--sealed", "--body"], "the sealed run")
    run = add_command(kinds, "run", "run job sheets and raw jobs", helps.RUN, helps.SHEET)
    run.add_argument("files", metavar="FILE", nargs="+", help="a sheet, or a raw job if its name ends in .job")
    run.set_defaults(action=commands.run_files)
    differ = add_command(kinds, "differ", "compare two sealed runs block by block", helps.DIFFER, helps.DIFFER_MORE)
    differ.add_argument("--scheme", metavar="N", required=True, action=Once, help="1 to 7, under which both were sealed")
    differ.add_argument("runs", metavar="RUN", nargs=2, help="@FILE, or @- for standard input, or hex")
    differ.set_defaults(action=commands.differ_runs)
    explain = add_command(kinds, "explain", "say what an answer number means", helps.EXPLAIN, helps.EXPLAIN_EXAMPLE)
    explain.add_argument("number", metavar="NUMBER", nargs="?", help="0 to 10; zeros before it don't count")
    explain.set_defaults(action=commands.explain_number)
    return top


def check(words):
    command, *rest = words
    if command in WORDS:
        WORDS[command].check(rest)
    elif command not in HELP:
        kind = "option of the desk's" if is_option(command) else "command"
        raise Trouble(f"{command[:40]!r} is no {kind}{meant(command, list(WORDS))}; "
                      f"the first word is {listed(list(WORDS), 'or')}")
    if words == ["run"]:
        raise Trouble("run needs the name of a sheet or of a raw job")


def parsed(words):
    try:
        check(words)
    except Trouble as trouble:
        command = f"{words[0]} " if words[0] in WORDS else ""
        raise Trouble(f"{trouble}; `tools/desk {command}--help` shows how") from None
    return parser().parse_args(words)
