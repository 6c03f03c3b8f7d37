"""What `run` is given: sheets and raw jobs, read before any is run, and an answer held to what a sheet expects."""
from collections import namedtuple

import jobs
import sheets
from files import read_file
from jobs import count
from trouble import Trouble, plain

OUTCOMES = ("as expected", "done", "refused", "NOT as expected")

# job is None where the bytes are no job.
Task = namedtuple("Task", "name story data job expect output")


def raw_task(name):
    data = read_file(name, jobs.LARGEST)
    try:
        job = jobs.job_of(data)
    except jobs.NoJob:
        job = None
    return Task(name, [f"A raw job of {count(data)}."], data, job, None, None)


def read_task(name):
    if name.endswith(".job"):
        return raw_task(name)
    sheet = sheets.read_sheet(name)
    return Task(name, sheet.story, sheet.job.laid_out(), sheet.job, sheet.expect, sheet.output)


def read_tasks(names):
    """All of them, or every trouble that is in them: nothing is run beside a sheet that can't be read."""
    read, troubles = [], []
    for name in names:
        try:
            read.append(read_task(name))
        except Trouble as trouble:
            troubles.append(str(trouble))
    if troubles:
        raise Trouble("\n".join(troubles))
    return read


def heading(task):
    if task.job is None:
        return plain(task.name)
    job = task.job
    sizes = f"header {count(job.header)}, {job.last} {count(job.body)}"
    return f"{plain(task.name)}: {job.verb}, scheme {job.scheme}, {sizes}"


def outcome(task, answer):
    """One of OUTCOMES."""
    if task.expect is None:
        return "refused" if answer.number else "done"
    same = answer.number == task.expect and task.output in (None, answer.output)
    return "as expected" if same else "NOT as expected"


def tally(outcomes):
    counts = ", ".join(f"{outcomes.count(kind)} {kind}" for kind in OUTCOMES if kind in outcomes)
    return f"{len(outcomes)} {'job' if len(outcomes) == 1 else 'jobs'}: {counts}."


def wanted(task):
    """What a sheet expects, in the way in which sealjob would print it."""
    if task.output is None:
        return f"answer {task.expect}"
    return f"0 {len(task.output)} {task.output.hex() or '-'}"
