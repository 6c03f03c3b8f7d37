"""The desk's commands. Each reads all that it was given, and makes the files that it will write, before sealjob is asked for, and gives the
exit status."""
import contextlib
import os
import sys
import textwrap

import cuts
import differ
import explain
import jobs
import sealjob
from files import NewFile
from jobs import count
from schemes import SCHEMES
from tasks import heading, outcome, read_tasks, tally, wanted
from trouble import Trouble, complain, placed, plain
from values import INPUT, bytes_of, number_of
from wording import meaning

STANDARD = "-"  # standard output, as --out names it


def line(label, text, indent=""):
    print(f"{indent}{label:<8} {text}")


def words(label, text, indent=""):
    """Words are wrapped; hex, which is for copying, never is."""
    lines = textwrap.wrap(text, 88 - len(indent) - 9)
    line(label, f"\n{indent}{' ' * 9}".join(lines), indent)


def warn_if_long(data, job, name):
    """Only a warning: that the answer is 9 is for sealjob to say."""
    if len(data) > jobs.MOST:
        sizes = job.sizes() if job else "no job"
        sys.stdout.flush()
        complain(f"{name} {len(data):,} bytes ({sizes}); sealjob takes {jobs.MOST:,} at most")


def typed_job(args):
    sections = {"--key": args.key, "--nonce": args.nonce, "--header": args.header, args.last: args.body}
    scheme = placed("--scheme", number_of, args.scheme, 255)
    if list(sections.values()).count(INPUT) > 1:
        names = [name for name, text in sections.items() if text == INPUT]
        raise Trouble(f"{' and '.join(names)} would read standard input, which only one value can")
    return jobs.Job(scheme, args.direction, *(placed(name, bytes_of, text) for name, text in sections.items()))


def check_places(args):
    if args.job == STANDARD:
        raise Trouble("--job needs the name of a file; only --out writes to standard output")
    if args.out == STANDARD and sys.stdout.isatty():
        raise Trouble("--out -: standard output is a terminal, and raw bytes are for a file or a pipe")
    if None not in (args.job, args.out) and os.path.realpath(args.job) == os.path.realpath(args.out):
        raise Trouble("--job and --out name the same file")


def show_words(job, data, answer):
    line("answer", answer.line)
    words("meaning", meaning(data, job, answer))
    if answer.number:
        line("next", f"`tools/desk explain {answer.number}` says what to check")
        return
    line("body" if job.direction == jobs.OPEN else "sealed", answer.output.hex() or "-")
    line("length", count(answer.output))


def show_answer(job, data, answer, args):
    """Standard output has the words; or the hex alone; or, for --out -, the bytes alone."""
    raw = args.out == STANDARD
    if args.quiet and answer.number:
        complain(f"answer {answer.line}: {meaning(data, job, answer)}")
    elif args.quiet and not raw:
        print(answer.output.hex() or "-")
    elif not args.quiet:
        with contextlib.redirect_stdout(sys.stderr if raw else sys.stdout):
            show_words(job, data, answer)
    if raw:
        sys.stdout.buffer.write(answer.output)


def one_job(args):
    """seal and open. A job that got no answer leaves no file."""
    check_places(args)
    job = typed_job(args)
    data = job.laid_out()
    warn_if_long(data, job, "this job has")
    with contextlib.ExitStack() as made:
        job_file = out_file = None
        if args.job is not None:
            job_file = made.enter_context(NewFile(args.job, len(data)))
            job_file.write(data)
        if args.out not in (None, STANDARD):
            out_file = made.enter_context(NewFile(args.out, job.most_output()))
        answer = sealjob.answer_to(data, sealjob.command())
        if job_file:
            job_file.keep()
        try:
            if out_file and answer.number == 0:
                out_file.write(answer.output)
                out_file.keep()
        finally:  # what was sealed is shown also if the file fails
            show_answer(job, data, answer, args)
    return 1 if answer.number else 0


def show_task(task, answer, found):
    line("answer", answer.line, "  ")
    said = meaning(task.data, task.job, answer)
    words("meaning", f"{said} (as expected)" if found == "as expected" else said, "  ")
    if found == "NOT as expected":
        line("verdict", f"NOT as expected, which is: {wanted(task)}", "  ")


def run_task(task, program):
    print(heading(task))
    for text in task.story:
        print(f"  {text}".rstrip())
    warn_if_long(task.data, task.job, f"{plain(task.name)}:")
    answer = sealjob.answer_to(task.data, program)
    found = outcome(task, answer)
    show_task(task, answer, found)
    print(flush=True)
    return found


def run_files(args):
    given = read_tasks(args.files)
    program = sealjob.command()
    found = [run_task(task, program) for task in given]
    print(tally(found))
    return 0 if set(found) <= {"as expected", "done"} else 1


def known_scheme(text):
    number = number_of(text, 255)
    if number not in SCHEMES:
        raise Trouble(f"{number} is no scheme; there are 1 to {max(SCHEMES)}")
    return number


def cut_run(number, text):
    scheme, whose = SCHEMES[number], f"a run of scheme {number}"
    run = bytes_of(text, most=scheme.body + scheme.block, whose=whose)
    if len(run) < scheme.block:
        raise Trouble(f"{count(run)}; {whose} has one block at least, {scheme.block}")
    return cuts.Cut(scheme, run)


def differ_runs(args):
    """It asks for no key and opens nothing. The exit status is that of cmp and diff."""
    number = placed("--scheme", known_scheme, args.scheme)
    scheme = SCHEMES[number]
    if args.runs.count(INPUT) > 1:
        raise Trouble("both runs would read standard input, which only one value can")
    one, other = (placed(f"the {which} run", cut_run, number, text) for which, text in zip(("first", "second"), args.runs))
    line("scheme", f"{number}, {scheme.mode}: blocks of {scheme.block} bytes")
    words("runs", cuts.sizes(one, other))
    for verdict, piece in cuts.rows(one, other):
        line(verdict, piece)
    words("meaning", differ.meaning(scheme.mode, one, other))
    words("beware", differ.BEWARE)
    return 0 if one.run == other.run else 1


def explain_number(args):
    print(explain.explain(args.number))
    return 0
