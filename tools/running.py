"""Runs schedules: with the proved program where there is one, else without proofs, many of them with one compilation."""

import os
import re
import subprocess
import sys
import tempfile
from concurrent.futures import ThreadPoolExecutor
from typing import NamedTuple

import report as reports
from commands import TOP, Stop, load, save
from files import refuse_what_is_none

PROGRAM = os.path.abspath(os.environ.get("JUNIPER_PROGRAM") or os.path.join(TOP, "crates", "juniper", "out", "juniper"))
SCRIPT = os.path.join(TOP, "bin", "juniper")


class Run(NamedTuple):
    """How a run ended: its status and its report."""

    status: int
    report: str


class Source(NamedTuple):
    """A schedule's bytes, and the options of its run."""

    path: str
    schedule: bytes
    options: list


def is_proved():
    return os.access(PROGRAM, os.X_OK)


def source_of(path, options):
    """Returns the schedule of a file. Its options are those given, else those that the file of that name and `.options` has, one on a line."""
    beside = os.path.splitext(path)[0] + ".options"
    if options is None:
        options = load(beside).decode("utf-8", "surrogateescape").split("\n") if path != "-" and os.path.isfile(beside) else []
    return Source(path, load(path), [it for it in options if it])


def text_of(data):
    """Returns bytes as text of as many characters, as a schedule may have any bytes."""
    return data.decode("latin-1")


def schedule_of(source):
    """Returns the schedule as it is read, where it has no fault."""
    refuse_what_is_none(source.path, source.schedule)
    schedule = reports.read_schedule(text_of(source.schedule))
    if schedule.faults:
        fault = schedule.faults[0]
        raise Stop(f"{source.path}, line {fault.line}: {fault.reason}; tools/lint shows all faults")
    if schedule.too_long:
        raise Stop(f"{source.path}: {schedule.too_long}")
    return schedule


def run_proved(schedule, options):
    done = subprocess.run(["juniper", "run", *options], executable=PROGRAM, input=schedule, stdout=subprocess.PIPE, check=False)
    return Run(done.returncode, text_of(done.stdout))


def run_one(schedule, options):
    """Runs one schedule. Without a proved program bin/juniper does it, which says so."""
    if is_proved():
        return run_proved(schedule, options)
    done = subprocess.run([SCRIPT, "run", *options], input=schedule, stdout=subprocess.PIPE, check=False)
    if done.returncode in (69, 70):
        raise Stop("there is no answer without a proved program")
    return Run(done.returncode, text_of(done.stdout))


def refusal_of(run):
    """Returns why a run has no report to look at, or None where it has one."""
    if run.status in (0, 8, 9) and run.report:
        return None
    if run.status == 0:
        return "it printed no report (status 0)"
    first = run.report.split("\n")[0]
    try:
        refusal = reports.read_report(first + "\n").refusal
    except reports.ReportFault:
        refusal = None
    why = reports.whole_refusal_words(refusal) if refusal else reports.status_words(run.status)
    return f"{why} (status {run.status})"


def report_of(source):
    """Returns the report of a schedule with all messages."""
    schedule_of(source)
    run = run_one(source.schedule, source.options + ["--trace"] * ("--trace" not in source.options))
    why = refusal_of(run)
    if why:
        raise Stop(f"{source.path}: {why}")
    return run.report


def run_many(schedules, options):
    """Returns the runs of these schedules, in their order. They would save their images over one another's."""
    if any(it.startswith("--out") for it in options):
        raise Stop("many runs save no images: leave out --out")
    if not is_proved():
        return run_unproved(schedules, options) if len(schedules) > 1 else [run_one(it, options) for it in schedules]
    with ThreadPoolExecutor(os.cpu_count()) as pool:
        return list(pool.map(lambda it: run_proved(it, options), schedules))


def run_unproved(schedules, options):
    """Runs schedules without proofs, all with one compilation, which takes a minute or more."""
    if any(it.startswith("--in") for it in options):
        raise Stop("without a proved program many runs take no images: bin/build builds it")
    print(f"no proved program is built yet, so {len(schedules)} runs are compiled without proofs, in a minute or more", file=sys.stderr)
    names = [f"{number:06}" for number in range(len(schedules))]
    with tempfile.TemporaryDirectory() as room:
        for name, schedule in zip(names, schedules):
            save(os.path.join(room, name), schedule)
        words = ["rt", "try", "--seconds", "120", "--cases", room, "--", "run", *options]
        try:
            done = subprocess.run(words, cwd=os.path.join(TOP, "crates", "juniper"), capture_output=True, check=False)
        except FileNotFoundError:
            raise Stop("no proved program is built, and the toolchain's command rt isn't on the path") from None
    return read_cases(names, text_of(done.stdout), text_of(done.stderr))


def read_cases(names, output, said):
    """Returns the runs that `rt try --cases` tells: the reports, each behind its name, and a line with each status."""
    statuses = dict(re.findall(r"^case=(\d+) run=ended status=(\d+) ", said, flags=re.M))
    pieces = re.split(r"^== (\d{6})\n", output, flags=re.M)
    reports = dict(zip(pieces[1::2], pieces[2::2]))
    for name in names:
        if name not in statuses:
            raise Stop(f"run {int(name) + 1} of {len(names)} gives no answer without proofs: bin/build builds the proved program")
    return [Run(int(statuses[name]), reports.get(name, "")) for name in names]
