"""Reads the texts of reports and of schedules by the tables in `tools/forms.py`."""

import re
from dataclasses import dataclass, field
from functools import cached_property
from typing import Dict, List, NamedTuple, Optional, Tuple, Union

from forms import (
    CALL, CLIENT, COMMANDS, FORMS_BY_KEY, KINDS, MOST_BYTES, MOST_EVENTS, MOST_HEX, NUMBER, OTHERS, SERVER, TRIAL, WHOLE_REFUSALS, Place, read_by,
    words_but,
)

PARTY = re.compile("c[1-8]|s[0-7]")
WHEN = re.compile(rf"{NUMBER}|end")


def text_of_bytes(data: Union[str, bytes]) -> str:
    """Returns bytes as text. A byte that is no UTF-8 becomes `\\xff`, which stands in no word of a schedule or a report."""
    return data if isinstance(data, str) else data.decode("utf-8", "backslashreplace")


# ---- reports

class ReportFault(Exception):
    """A text is no report: the line at fault, and why."""

    def __init__(self, line_number: int, reason: str):
        super().__init__(f"line {line_number}: {reason}")
        self.line_number = line_number
        self.reason = reason


class Line(NamedTuple):
    """A line of a report. Its event is 0 for the start and None for the end."""

    number: int
    raw: str
    when: str
    event: Optional[int]
    kind: str
    fields: dict


@dataclass
class Report:
    """What a run wrote: lines, or why nothing was run, or the one line of a trial."""

    lines: List[Line] = field(default_factory=list)
    refusal: Optional[dict] = None
    trial: Optional[dict] = None
    is_whole: bool = False

    @cached_property
    def messages(self) -> List[Line]:
        """The lines of messages; the place of each is its number. A report without `--trace` has none."""
        return [it for it in self.lines if it.kind == "message"]

    @property
    def is_traced(self) -> bool:
        return bool(self.messages)

    @cached_property
    def clients(self) -> Dict[str, str]:
        """The client of each transaction that the report says has begun."""
        return {it.fields["transaction"]: it.fields["client"] for it in self.lines if it.kind == "begun"}


def read_line(number: int, raw: str) -> Line:
    """Reads a line of a report."""
    if raw.endswith("\r"):
        raise ReportFault(number, "it ends with \\r, and a line feed alone has to end it")
    when, colon, text = raw.partition(": ")
    if not colon or not WHEN.fullmatch(when):
        raise ReportFault(number, "it doesn't begin with an event's number, or `end`, and a colon")
    words = text.split(" ", 2)
    key = words[1] if len(words) > 1 and PARTY.fullmatch(words[0]) else words[0]
    found = read_by(FORMS_BY_KEY.get(key, ()), text)
    if found is None:
        raise ReportFault(number, "it has no form of a report's line")
    return Line(number, raw, when, None if when == "end" else int(when), *found)


def check_order(lines: List[Line]) -> None:
    """Requires that events rise, and that messages are numbered from 0 in their order."""
    last, messages = 0, 0
    for line in lines:
        event = float("inf") if line.event is None else line.event
        if event < last:
            raise ReportFault(line.number, "its event is before that of the line above")
        if (line.event or 0) > MOST_EVENTS:
            raise ReportFault(line.number, f"its event is above {MOST_EVENTS}, and no run has more events")
        last = event
        if line.kind == "message":
            if line.fields["number"] != messages:
                raise ReportFault(line.number, f"message {messages} is to come first")
            messages += 1
        elif messages and line.kind in ("lost", "ignored") and line.fields["number"] >= messages:
            raise ReportFault(line.number, f"message {line.fields['number']} isn't sent by then")


# How the front of a first line of a report, of a refusal or of a trial begins, where it is cut.
CUT_FRONT = re.compile(rf"(?:{NUMBER}|end)(?::.*)?|refused.*|trial.*|[a-z]{{1,6}}")


def check_end(lines: List[str], last: str) -> None:
    """Requires that nothing stands behind the last line feed. What is wrong above, or can't be a report's front, is said first."""
    if not last:
        return
    for number, raw in enumerate(lines, 1):
        if number > 1 or not (read_by(WHOLE_REFUSALS, raw) or TRIAL.fullmatch(raw)):
            read_line(number, raw)
    if not lines and not CUT_FRONT.fullmatch(last):
        read_line(1, last)
    raise ReportFault(len(lines) + 1, "it has no end: the report was cut")


def read_report(text: Union[str, bytes], partial: bool = False) -> Report:
    """Reads the text of a report, or, where `partial` is set, of its front up to any byte."""
    raws = text_of_bytes(text).split("\n")
    last = raws.pop()
    if not partial:
        check_end(raws, last)
    if not raws:
        if partial:
            return Report()
        raise ReportFault(1, "there is no line")
    refusal = read_by(WHOLE_REFUSALS, raws[0])
    if refusal and len(raws) == 1:
        return Report(refusal={"word": refusal[0], **refusal[1]}, is_whole=True)
    trial = TRIAL.fullmatch(raws[0])
    if trial and len(raws) == 1:
        return Report(trial={name: it if name == "sha256" else int(it) for name, it in trial.groupdict().items()}, is_whole=True)
    lines = [read_line(number, raw) for number, raw in enumerate(raws, 1)]
    check_order(lines)
    return Report(lines, is_whole=lines[-1].kind == "commits")


# ---- schedules

class Event(NamedTuple):
    """An event of a schedule, with its number and that of its line."""

    number: int
    line: int
    raw: str
    kind: str
    fields: dict


class Fault(NamedTuple):
    """A fault of a line: its word from 1, where that begins and ends as columns from 0, the fault's number, and why."""

    line: int
    word: int
    start: int
    stop: int
    number: int
    reason: str


@dataclass
class Schedule:
    """The text of a schedule: all its lines, the events among them, and all faults."""

    lines: List[str] = field(default_factory=list)
    events: List[Event] = field(default_factory=list)
    faults: List[Fault] = field(default_factory=list)
    too_long: Optional[str] = None

    def event(self, number: Optional[int]) -> Optional[Event]:
        """Returns the event of a number, or None where there is none."""
        return self.events[number - 1] if number and number <= len(self.events) else None


class WordFault(NamedTuple):
    """A fault of a word: its place in the list of words, the fault's number, and why."""

    at: int
    number: int
    reason: str


def is_number(word: str, least: int, most: int) -> bool:
    """Tells whether a word is a number in this range, without a sign or a leading zero."""
    return bool(re.fullmatch("0|[1-9][0-9]{0,19}", word)) and least <= int(word) <= most


def is_transaction(word: str) -> bool:
    parts = word.split(".")
    most = (7, 4_294_967_295, 4_294_967_295)
    return len(parts) == 3 and all(is_number(it, 0, limit) for it, limit in zip(parts, most))


def fault_of_hex(word: str) -> Optional[str]:
    """Returns why a word isn't the bytes of a block, or None where it is."""
    if word == "-":
        return None
    if not re.fullmatch("[0-9a-f]*", word):
        return "bytes are pairs of the digits 0 to 9 and a to f, or `-`"
    if len(word) % 2:
        return "bytes are pairs of digits, and one digit is left over"
    return f"a block has at most 448 bytes, and these are {len(word) // 2}" if len(word) > MOST_HEX else None


def fault_of_word(place: Place, word: str) -> Optional[Tuple[int, str]]:
    """Returns the fault's number and its reason where a word doesn't fit its place."""
    if place.form == "hex":
        reason = fault_of_hex(word)
        return (4, reason) if reason else None
    if place.form == "transaction":
        reason = "a transaction's name is S.E.N: a server from 0 to 7, and two numbers up to 4294967295"
        return None if is_transaction(word) else (3, reason)
    if is_number(word, place.least, place.most):
        return None
    return 3, f"the {place.field} is a number from {place.least} to {place.most}, without a sign or a leading zero"


def places_of(words: List[str]) -> Union[WordFault, Tuple[str, int, Tuple[Place, ...]]]:
    """Returns an event's kind, how many words come before its places, and the places; or the fault of its words."""
    first = words[0]
    if CLIENT.fullmatch(first):
        if len(words) == 1:
            return WordFault(0, 2, "a command is missing behind the client")
        if words[1] not in COMMANDS:
            return WordFault(1, 1, "no command of a client begins so")
        return words[1], 2, COMMANDS[words[1]]
    if first == "arm":
        if len(words) < 4:
            return WordFault(len(words) - 1, 2, "`arm` needs a server, a count of calls and a fault")
        if words[3] not in KINDS:
            return WordFault(3, 1, "no fault of a device has this name")
        return first, 4, KINDS[words[3]]
    if first not in OTHERS:
        return WordFault(0, 1, "no event begins so")
    return first, 1, OTHERS[first]


def read_event(words: List[str]) -> Union[List[WordFault], Tuple[str, dict]]:
    """Returns an event's kind and its fields, or all faults of its words."""
    found = places_of(words)
    if isinstance(found, WordFault):
        return [found]
    kind, before, places = found
    if len(words) != before + len(places):
        wanted = before + len(places)
        at = min(wanted, len(words) - 1)
        return [WordFault(at, 2, f"this event has {words_but(str(wanted), len(words))}")]
    values = list(zip(range(before, len(words)), places))
    if kind == "arm":
        values = [(1, SERVER), (2, CALL)] + values
    checked = [(at, fault_of_word(place, words[at])) for at, place in values]
    faults = [WordFault(at, *fault) for at, fault in checked if fault]
    return faults or (kind, fields_of(kind, words, values))


def fields_of(kind: str, words: List[str], values: List[Tuple[int, Place]]) -> dict:
    """Returns the named parts of an event without a fault."""
    fields: dict = {"client": words[0]} if kind in COMMANDS else {}
    if kind == "arm":
        fields["fault"] = words[3]
    for at, place in values:
        if place == SERVER:
            fields["server"] = "s" + words[at]
        else:
            fields[place.field] = int(words[at]) if place.form == "number" else words[at]
    if "file" in fields:
        fields["unit"] = str(fields["file"]) + (f"/{fields['block']}" if "block" in fields and kind != "cut" else "")
    return fields


def spans_of(raw: str) -> List[Tuple[int, int]]:
    """Returns where the words of a line begin and end. A space alone parts two words."""
    return [found.span() for found in re.finditer("[^ ]+", raw)]


def fault_in_line(number: int, raw: str, fault: WordFault) -> Fault:
    start, stop = spans_of(raw)[fault.at]
    return Fault(number, fault.at + 1, start, stop, fault.number, fault.reason)


def limit_passed(size: int, events: int) -> Optional[str]:
    """Says which limit a schedule of so many bytes and events passes, or None."""
    if size > MOST_BYTES:
        return f"the schedule has {size} bytes, and at most {MOST_BYTES} are taken"
    if events > MOST_EVENTS:
        return f"the schedule has {events} events, and at most {MOST_EVENTS} are taken"
    return None


def read_schedule(text: Union[str, bytes]) -> Schedule:
    """Reads the text of a schedule. A line with a fault is an event of the kind `fault`, so that the numbers go on."""
    size = len(text if isinstance(text, bytes) else text.encode("utf-8", "surrogatepass"))
    lines = text_of_bytes(text).split("\n")
    if lines[-1] == "":
        lines.pop()
    schedule = Schedule(lines)
    count = 0
    for number, raw in enumerate(lines, 1):
        words = [it for it in raw.split(" ") if it]
        if not words or words[0].startswith("#"):
            continue
        count += 1
        found = read_event(words)
        if isinstance(found, list):
            schedule.faults += [fault_in_line(number, raw, it) for it in found]
            found = ("fault", {})
        schedule.events.append(Event(count, number, raw, *found))
    schedule.too_long = limit_passed(size, count)
    return schedule
