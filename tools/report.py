#!/usr/bin/env python3
"""Reads the reports and the schedules of Juniper, for every tool that looks at runs, and prints a report as JSON.

A tool imports what it needs from here. The tables stand in `tools/forms.py`, and what reads texts by them in `tools/reading.py`. The
words are made in `tools/wording.py` and `tools/waits.py`. Files are loaded by `tools/files.py`, and tools are called by
`tools/calling.py`.
"""

import json
import os
import sys
from typing import List, Optional

sys.dont_write_bytecode = True
sys.path.insert(0, os.path.dirname(os.path.realpath(__file__)))
from calling import parser_of, run_tool  # noqa: E402
from files import Unusable, load_bytes, load_report, load_run, load_schedule, load_text, why_not_of  # noqa: E402, F401
from forms import (  # noqa: E402, F401
    BLOCK, CALL, CAUSES, COMMANDS, EVENT_REFUSALS, FAULTS, FILE, FORMS, IN_PLACE_OF, KINDS, MESSAGES, MOST_BYTES, MOST_EVENTS, OTHERS, PAGE, REFUSALS,
    RESOURCES, SERVER, STATUSES, WHOLE_REFUSALS, Form, Place, counted,
)
from reading import Event, Fault, Line, Report, ReportFault, Schedule, read_line, read_report, read_schedule, text_of_bytes  # noqa: E402, F401
from waits import Wait, Waits  # noqa: E402, F401
from wording import (  # noqa: E402, F401
    SERVER_WORDS, cause_words, coordinator, describe, event_refusal_words, message_words, named_message, of_client, refusal_words, shortened, status_words,
    unit_words, visible, whole_refusal_words,
)


def line_as_object(line: Line, report: Report, schedule: Optional[Schedule]) -> dict:
    """Returns a line with its event and its line in the schedule."""
    event = schedule.event(line.event) if schedule else None
    found = {"line": line.number, "raw": line.raw, "when": line.when, "event": line.event, "kind": line.kind, "fields": line.fields}
    found["words"] = describe(line, report, schedule)
    if schedule is not None:
        found["schedule_line"] = event.line if event else None
        found["event_text"] = event.raw.strip() if event else None
    return found


def to_json(report: Report, schedule: Optional[Schedule] = None) -> List[dict]:
    """Returns what was read as a list of objects, one for each line of the report."""
    if report.refusal:
        return [{"line": 1, "kind": "whole-refusal", "fields": report.refusal, "words": whole_refusal_words(report.refusal)}]
    if report.trial:
        return [{"line": 1, "kind": "trial", "fields": report.trial}]
    return [line_as_object(it, report, schedule) for it in report.lines]


def main(words: List[str]) -> int:
    parser = parser_of("report.py", "tools/report.py REPORT [SCHEDULE] --json", __doc__)
    parser.add_argument("report", metavar="REPORT", help="a report, or - for standard input")
    parser.add_argument("schedule", metavar="SCHEDULE", nargs="?", help="the schedule that it is of, or -")
    parser.add_argument("--json", action="store_true", required=True, help="print each line of the report as an object of JSON, one a line")
    given = parser.parse_args(words)
    report, schedule = load_run(given.report, given.schedule)
    for it in to_json(report, schedule):
        print(json.dumps(it))
    return 0


if __name__ == "__main__":
    run_tool("report.py", main)
