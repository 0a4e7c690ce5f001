"""Says in words what the lines of a report tell."""

from typing import Optional

from forms import EVENT_REFUSALS, IN_PLACE_OF, MESSAGES, REFUSALS, RESOURCES, STATUSES
from reading import Line, Report, Schedule


def shortened(text: str, most: int = 60) -> str:
    return text if len(text) <= most else text[:most - 1] + "\u2026"


def visible(text: str) -> str:
    """Returns a text in which a character that a terminal doesn't show is written out, as `\\r`."""
    if text.isprintable():
        return text
    return "".join(it if it.isprintable() else it.encode("unicode_escape").decode("ascii") for it in text)


def unit_words(unit: str) -> str:
    return f"block {unit}" if "/" in unit else f"file {unit}"


def coordinator(transaction: str) -> str:
    """Returns the server that coordinates a transaction."""
    return "s" + transaction.split(".")[0]


def refusal_words(number: int, fields: Optional[dict] = None) -> str:
    """Says why a command was refused. The fields of its line and of its event name the unit, the file or the server."""
    plain, full = REFUSALS.get(number, (EVENT_REFUSALS.get(number, f"reason {number}"), ""))
    named = dict(fields or {})
    if "unit" in named:
        named["unit"] = unit_words(named["unit"])
    try:
        return full.format(**named) if full else plain
    except KeyError:
        return plain


def event_refusal_words(number: int) -> str:
    return EVENT_REFUSALS.get(number, f"reason {number}")


def cause_words(cause: dict) -> str:
    """Says why a transaction was aborted."""
    if cause["word"] == "requested":
        return "its client asked for it"
    if cause["word"] == "broken":
        return f"its part at {cause['server']} was broken at {unit_words(cause['unit'])} by {cause['by']}"
    if cause["word"] == "lost":
        return f"{cause['server']} lost its part"
    what = RESOURCES.get(cause["number"], f"resource {cause['number']}")
    return f"{cause['server']} had too few {what}: {cause['need']} needed, {cause['free']} free"


def status_words(status: int) -> str:
    return STATUSES.get(status, f"status {status}")


def message_words(word: str) -> str:
    return MESSAGES.get(word, word)


def whole_refusal_words(refusal: dict) -> str:
    """Says why nothing was run."""
    if refusal["word"] == "words":
        return "the words of the command line were refused"
    if refusal["word"] == "schedule":
        return f"the schedule was refused: line {refusal['line']} has fault {refusal['number']}"
    return f"the image of server {refusal['server']} was refused: {refusal['word'].partition('-')[2]}"


def event_words(number: int, schedule: Optional[Schedule]) -> str:
    """Names an event, with its line where the schedule is known."""
    event = schedule.event(number) if schedule else None
    return f"event {number}, line {event.line}" if event else f"event {number}"


def command_words(line: Line, schedule: Optional[Schedule]) -> str:
    """Names the command that a line answers."""
    number = line.fields["command"]
    event = schedule.event(number) if schedule else None
    return f"{line.fields['client']}'s {event.kind if event else 'command'} ({event_words(number, schedule)})"


def of_client(transaction: str, report: Optional[Report]) -> str:
    """Says whose transaction it is, where the report tells it."""
    client = report.clients.get(transaction) if report else None
    return f", a transaction of {client}" if client else ""


def described_answer(line: Line, report: Optional[Report], schedule: Optional[Schedule]) -> str:
    fields, command = line.fields, command_words(line, schedule)
    if line.kind == "begun":
        return f"{command} began transaction {fields['transaction']}"
    if line.kind == "opened":
        return f"{command} opened {fields['server']}"
    if line.kind == "did":
        return f"{command} was done"
    if line.kind == "read":
        found = "zeros" if fields["hex"] == "-" else fields["hex"]
        return f"{command} read {found}"
    if line.kind == "refused":
        holder = of_client(fields["by"], report) if "by" in fields else ""
        event = schedule.event(fields["command"]) if schedule else None
        return f"{command} was refused: {refusal_words(fields['number'], {**(event.fields if event else {}), **fields})}{holder}"
    if line.kind == "waiting":
        return f"{command} waits at {fields['server']} for {unit_words(fields['unit'])}, held by {fields['by']}{of_client(fields['by'], report)}"
    if line.kind == "committed":
        return f"{command} was answered: transaction {fields['transaction']} is committed"
    return f"{command} was answered: transaction {fields['transaction']} is aborted, since {cause_words(fields['cause'])}"


def named_message(number: int, report: Optional[Report]) -> str:
    """Names a message with its word and its way, which only a report with `--trace` has."""
    if report is None or not report.is_traced:
        return f"message {number} (a run with `--trace` shows which one that is)"
    sent = report.messages[number]
    return f"message {number} (`{sent.fields['word']}` from {sent.fields['sender']} to {sent.fields['receiver']}, sent in event {sent.when})"


SERVER_WORDS = {
    "up": "{server} is up, in epoch {epoch}",
    "down": "{server} goes down",
    "stopped": "{server} was stopped within a step or a restart",
    "commit": "transaction {transaction} is committed for good",
    "ignored": "{message} came too late or once too often, and was ignored",
    "lost": "{message} was lost, since its server was down",
    "outside": "the fault `{fault}` at page {page} of {server} wasn't allowed there: {instead}",
    "file": "{server} has file {file}",
    "page": "{server} has block {file}/{block} with the bytes {hex}",
    "message": "{sender} {meaning} ({receiver} is to get this message)",
    "commits": "commits that the report names: {number}",
}


def describe(line: Line, report: Optional[Report] = None, schedule: Optional[Schedule] = None) -> str:
    """Says in words what a line tells."""
    fields = line.fields
    if "command" in fields:
        return described_answer(line, report, schedule)
    if line.kind == "event-refused":
        return f"the event was refused: {event_refusal_words(fields['number'])}"
    if line.kind == "broke":
        return f"the part of {fields['transaction']} at {fields['server']} was broken at {unit_words(fields['unit'])} by {fields['by']}"
    if line.kind == "locked":
        return f"{fields['server']} has {unit_words(fields['unit'])} locked by {fields['by']}"
    more = {}
    if line.kind == "message":
        more["meaning"] = message_words(fields["word"])
    if line.kind in ("lost", "ignored"):
        more["message"] = named_message(fields["number"], report)
    if line.kind == "outside":
        more["instead"] = IN_PLACE_OF.get(fields["fault"], "the call was done without it")
    return SERVER_WORDS[line.kind].format(**fields, **more)
