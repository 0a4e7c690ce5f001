"""Loads reports and schedules from files, and refuses what is none, and a report that isn't of its schedule."""

import sys
from typing import Optional, Tuple

from forms import COMMANDS, OTHERS, TRIAL, WHOLE_REFUSALS, counted, read_by
from reading import Event, Line, Report, ReportFault, Schedule, limit_passed, read_line, read_report, read_schedule, text_of_bytes
from wording import shortened, whole_refusal_words

# How files begin that are neither reports nor schedules.
OTHER_FILES = {
    b"\x89PNG": "a picture",
    b"\xff\xd8\xff": "a picture",
    b"GIF8": "a picture",
    b"<svg": "a picture",
    b"<?xml": "a picture",
    b"<!doctype": "a page",
    b"<!DOCTYPE": "a page",
    b"JUNIMAGE": "the image of a disk",
}


class Unusable(Exception):
    """A file or a pair of files can't be used for what was asked."""


def load_bytes(path: str) -> bytes:
    """Reads a file, or standard input for `-`."""
    if path == "-" and sys.stdin is None:
        raise Unusable("standard input is closed")
    try:
        if path == "-":
            return sys.stdin.buffer.read()
        with open(path, "rb") as file:
            return file.read()
    except (OSError, ValueError) as fault:
        raise Unusable(f"{path} can't be read: {getattr(fault, 'strerror', None) or fault}") from fault


def load_text(path: str) -> str:
    """Reads a file, or standard input for `-`, as text."""
    return text_of_bytes(load_bytes(path))


def refuse_other_files(path: str, data: bytes, wanted: str) -> None:
    for start, what in OTHER_FILES.items():
        if data.startswith(start):
            raise Unusable(f"{path} is {what}, and no {wanted}")


def looks_like_schedule(data: bytes) -> bool:
    """Tells whether at least half of the lines that say anything are events."""
    schedule = read_schedule(data[:100_000])
    return 2 * len({it.line for it in schedule.faults}) < len(schedule.events)


def looks_like_report(data: bytes) -> bool:
    """Tells whether a text begins with a line that a report begins with, or is the one line where nothing was run."""
    first = text_of_bytes(data[:1000]).split("\n")[0]
    if TRIAL.fullmatch(first) or read_by(WHOLE_REFUSALS, first):
        return True
    try:
        return bool(read_line(1, first))
    except ReportFault:
        return False


def load_report(path: str, partial: bool = False) -> Report:
    """Reads the report of a run from a file; a refusal and the line of a trial aren't taken for one."""
    data = load_bytes(path)
    refuse_other_files(path, data, "report")
    try:
        report = read_report(data, partial)
    except ReportFault as fault:
        if looks_like_schedule(data):
            raise Unusable(f"{path} is a schedule, and a report is wanted there") from fault
        raise Unusable(f"{path} is no report: {fault}") from fault
    if report.refusal:
        raise Unusable(f"{path} is no report of a run: {whole_refusal_words(report.refusal)}")
    if report.trial:
        raise Unusable(f"{path} is the line of a trial, which has no report of its events")
    if not report.lines:
        raise Unusable(f"{path} has no whole line of a report")
    return report


def refuse_what_is_none(path: str, data: bytes) -> None:
    """Refuses bytes that surely aren't meant as a schedule."""
    refuse_other_files(path, data, "schedule")
    if looks_like_report(data):
        raise Unusable(f"{path} is a report, and a schedule is wanted there")


def load_schedule(path: str) -> Schedule:
    """Reads a schedule from a file, with its faults."""
    data = load_bytes(path)
    refuse_what_is_none(path, data)
    return read_schedule(data)


def load_sound_schedule(path: str) -> Schedule:
    """Reads a schedule that the program takes; as there, too many bytes count before a fault, and too many events behind it."""
    data = load_bytes(path)
    refuse_what_is_none(path, data)
    too_long = limit_passed(len(data), 0)
    if too_long:
        raise Unusable(f"{path}: {too_long}")
    schedule = read_schedule(data)
    if schedule.faults:
        fault = schedule.faults[0]
        raise Unusable(f"{path} has a fault in line {fault.line}: {fault.reason}; tools/lint shows all")
    if schedule.too_long:
        raise Unusable(f"{path}: {schedule.too_long}")
    return schedule


def load_run(report_path: str, schedule_path: Optional[str] = None, partial: bool = False) -> Tuple[Report, Optional[Schedule]]:
    """Reads a report and its schedule, which have to be of one run."""
    if report_path == schedule_path == "-":
        raise Unusable("only one file can be standard input")
    report = load_report(report_path, partial)
    if schedule_path is None:
        return report, None
    schedule = load_sound_schedule(schedule_path)
    reason = why_not_of(report, schedule)
    if reason:
        raise Unusable(f"{report_path} isn't the report of {schedule_path}: {reason}")
    return report, schedule


# ---- a report and its schedule

# The commands that lines answer, where it isn't each of them.
ANSWERED = {
    "begun": {"begin"},
    "opened": {"open"},
    "did": {"create", "remove", "cut", "write"},
    "read": {"read"},
    "waiting": {"end"},
    "committed": {"end", "abort"},
    "aborted": {"end", "abort"},
    "refused": set(COMMANDS) - {"again"},
}
# The events that some lines need; the start and the end have them too.
TOLD_BY = {
    "up": {"restart"},
    "file": {"show"},
    "page": {"show"},
    "locked": {"show"},
    "down": {"crash"},
    "event-refused": set(OTHERS) - {"settle"} | {"arm"},
}


def why_not_told(line: Line, event: Event) -> Optional[str]:
    """Says why an event can't have told a line, or returns None."""
    fields = line.fields
    wrong = event.kind not in TOLD_BY.get(line.kind, {event.kind})
    if line.kind in TOLD_BY and line.kind != "event-refused":
        wrong = wrong or event.fields["server"] != fields["server"]
    if line.kind == "message" and event.kind in COMMANDS:
        wrong = fields["sender"] != event.fields["client"]
    return f"line {line.number} of the report doesn't go with event {event.number}, `{shortened(event.raw.strip())}`" if wrong else None


def why_not_answered(line: Line, event: Optional[Event]) -> Optional[str]:
    """Says why a line can't answer an event, or returns None."""
    if event is None:
        return f"line {line.number} answers an event that the schedule doesn't have"
    if event.number > line.event:
        return f"line {line.number} of the report answers event {event.number}, which comes later"
    fits = event.kind in ANSWERED[line.kind] and event.fields["client"] == line.fields["client"]
    if fits and line.kind == "opened":
        fits = event.fields["server"] == line.fields["server"]
    return None if fits else f"line {line.number} of the report doesn't answer event {event.number}, `{shortened(event.raw.strip())}`"


def why_not_of(report: Report, schedule: Schedule) -> Optional[str]:
    """Says by which line a report shows that it isn't that of a schedule; None where nothing shows it."""
    for line in report.lines:
        if not line.event and "command" in line.fields:
            return f"line {line.number} of the report answers a command at the start or the end, where none is answered"
        if not line.event:
            continue
        event = schedule.event(line.event)
        if event is None:
            return f"line {line.number} is of event {line.event}, and the schedule has {counted(len(schedule.events), 'event')}"
        reason = why_not_told(line, event)
        if reason is None and "command" in line.fields:
            reason = why_not_answered(line, schedule.event(line.fields["command"]))
        if reason:
            return reason
    return None
