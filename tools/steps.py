"""Finds which message is handed over where in a report, and of which transaction and command each message is.

A report made with `--trace` has a line for each message that is sent, and none for one that is handed over. What is handed over
where follows from the order of the lines: a settle hands over the least message that waits, and servers step where none waits. A
report can have several such readings. The first is drawn. A cause counts as known only where all readings agree on it.
"""

import re
from typing import Dict, Iterator, List, NamedTuple, Optional, Set, Tuple

from report import Line, Report, Schedule, coordinator

REQUESTS = {"begin", "open", "op", "end", "abort"}
ANSWERS = {"begun", "opened", "did", "read", "refused", "waiting", "committed", "aborted"}

# What a message's taking can tell: kinds of lines, and words of messages with a `>` before them.
TAKEN = {
    "begin": ">begun ",
    "open": ">opened ",
    "op": "(broke )*>answer ",
    "end": "(commit )?(>prepare |>drop |>outcome )+",
    "abort": "(>drop |>outcome )+",
    "begun": "begun |refused ",
    "opened": "opened |refused ",
    "answer": "did |read |refused ",
    "outcome": "(committed |aborted |waiting )?(>thanks )?",
    "prepare": "(broke )*>vote ",
    "commit": ">done ",
    "vote": "(commit )?(>commit |>drop |>outcome )+",
    "inquire": ">commit |>drop ",
}
SILENT = {"vote", "commit", "drop", "done", "thanks", "inquire"}
REPLIES = {"begun", "opened", "answer", "vote", "done", "thanks"}
AGAIN = REQUESTS | {"inquire", "commit", "outcome"}
STEPS = {"stopped", "outside"}
ENDS = STEPS | {"up", "down", "commit", "file", "page", "locked", "commits"}
# More than one step can tell: 16 faults, 64 works that are broken, and a message for each of 8 works and the client.
MOST_LINES = 100
# A settle with more readings than this isn't searched through: nothing in it counts as known.
MOST_STATES = 200_000

# The three parts of a settle: what waits is handed over; all send again; what waits then is handed over.
FIRST, ALL_AGAIN, SECOND = 0, 1, 2


class Step(NamedTuple):
    """What happens at once: in an event, with the message that is handed over, or None, its lines, and the part of the settle.

    `is_known` tells whether all readings of the report have this step.
    """

    event: Optional[int]
    message: Optional[int]
    lines: List[Line]
    part: int = FIRST
    is_known: bool = True


class State(NamedTuple):
    """How far a reading of a settle is: lines told, messages handed over, the part, and who sent again last."""

    told: int
    given: int
    part: int
    rank: int = 0


class Reading(NamedTuple):
    """The steps of a report, and for each line's number the messages, or None, in whose taking some reading has the line."""

    steps: List[Step]
    causes: Dict[int, Set[Optional[int]]]


def party_of(line: Line) -> Optional[str]:
    """Returns the client or server that the line speaks of, or None where it names none."""
    if line.kind == "message":
        return line.fields["sender"]
    if line.kind == "commit":
        return coordinator(line.fields["transaction"])
    return line.fields.get("client") or line.fields.get("server")


def rank_of(line: Line) -> int:
    """Returns the place of a message's sender where all send again: clients first, then servers, each by its number."""
    sender = line.fields["sender"]
    return int(sender[1:]) + (0 if sender[0] == "c" else 10)


def word_of(line: Line, message: Line) -> str:
    """Returns the line's word in `TAKEN` where it may tell of this message's taking, `?` where it can't."""
    if line.kind in ("ignored", "lost"):
        return "missed " if line.fields["number"] == message.fields["number"] else "?"
    if party_of(line) != message.fields["receiver"]:
        return "?"
    if line.kind != "message":
        return line.kind + " "
    word = line.fields["word"]
    answers_another = word in REPLIES and line.fields["receiver"] != message.fields["sender"]
    return "?" if answers_another else f">{word} "


def lengths_taken(message: Line, lines: List[Line], first: int) -> List[int]:
    """Returns how many lines from the first on may tell of this message: none where that may be, then more before fewer."""
    words = []
    for at in range(first, min(len(lines), first + MOST_LINES)):
        words.append(word_of(lines[at], message))
        if words[-1] == "?":
            break
    kind = message.fields["word"]
    pattern = re.compile(f"(outside )*(missed |stopped |{TAKEN.get(kind, 'missed ')})")
    found = pattern.match("".join(words))
    most = found.group().count(" ") if found else 0
    lengths = [n for n in range(most, 0, -1) if pattern.fullmatch("".join(words[:n]))]
    return [0] + lengths if kind in SILENT else lengths


class Settle:
    """A settle, or the end: its lines, and the messages that are handed over in it, in their order."""

    def __init__(self, lines: List[Line], queue: List[Line], is_end: bool, is_cut: bool):
        self.lines, self.queue, self.is_cut = lines, queue, is_cut
        self.alone = ENDS if is_end else STEPS
        sent = {it.fields["number"]: at + 1 for at, it in enumerate(lines) if it.kind == "message"}
        self.sent_before = [sent.get(it.fields["number"], 0) for it in queue]
        self.lengths: Dict[Tuple[int, int], List[int]] = {}
        committed = [it.fields["receiver"] if it.fields["word"] == "commit" else None for it in queue]
        self.first_commit = {party: committed.index(party) for party in set(committed) - {None}}

    def is_step(self, line: Line, given: int, strict: bool) -> bool:
        """Tells whether a step without a message may tell this line. Strictly, a stop in one follows a message that told to commit."""
        if line.kind == "message":
            return line.fields["word"] == "done"
        if line.kind not in self.alone:
            return False
        follows = self.first_commit.get(party_of(line), len(self.queue)) < given
        return line.kind not in STEPS or follows or not strict

    def successors(self, state: State, strict: bool) -> Iterator[State]:
        """Yields the states that may follow, those that are drawn sooner first."""
        told, given, part, _ = state
        line = self.lines[told] if told < len(self.lines) else None
        if part == ALL_AGAIN:
            if line and line.kind == "message" and line.fields["word"] in AGAIN and rank_of(line) >= state.rank:
                yield State(told + 1, given, part, rank_of(line))
            yield State(told, given, SECOND)
        elif given < len(self.queue) and self.sent_before[given] <= told:
            if (told, given) not in self.lengths:
                self.lengths[told, given] = lengths_taken(self.queue[given], self.lines, told)
            for length in self.lengths[told, given]:
                yield State(told + length, given + 1, part)
        else:
            if line and self.is_step(line, given, strict):
                yield State(told + 1, given, part)
            if part == FIRST:
                yield State(told, given, ALL_AGAIN)

    def is_over(self, state: State) -> bool:
        if self.is_cut:
            return state.told == len(self.lines)
        return state[:3] == (len(self.lines), len(self.queue), SECOND)

    def first_reading(self, strict: bool) -> Optional[List[State]]:
        """Returns the states of the first reading, or None where there is none."""
        start = State(0, 0, FIRST)
        path, seen = [(start, self.successors(start, strict))], {start}
        while path and not self.is_over(path[-1][0]):
            state = next((it for it in path[-1][1] if it not in seen), None)
            if state is None:
                path.pop()
            else:
                seen.add(state)
                path.append((state, self.successors(state, strict)))
        return [state for state, _ in path] or None

    def all_moves(self) -> Optional[Set[Tuple[State, State]]]:
        """Returns each move of each reading, or None where there are too many states."""
        start = State(0, 0, FIRST)
        found, left, moves = {start}, [start], []
        while left:
            state = left.pop()
            for after in self.successors(state, False):
                moves.append((state, after))
                if after not in found:
                    found.add(after)
                    left.append(after)
            if len(found) > MOST_STATES:
                return None
        # Each move goes up in this order, so one walk backwards finds those that lead to an end.
        leads = {it for it in found if self.is_over(it)}
        kept = set()
        for state, after in sorted(moves, reverse=True):
            if after in leads:
                leads.add(state)
                kept.add((state, after))
        return kept

    def steps(self, event: Optional[int], causes: Dict[int, Set[Optional[int]]]) -> Optional[List[Step]]:
        """Returns the steps of the first reading, or None where the lines have none, and adds the causes by all readings."""
        path = self.first_reading(True) or self.first_reading(False)
        if path is None:
            return None
        moves = self.all_moves()
        spans: Dict[int, Set[Optional[State]]] = {}
        for state, after in moves or ():
            message = self.queue[state.given].fields["number"] if after.given > state.given else None
            if message is not None:
                spans.setdefault(message, set()).add(state[:1] + after[:1] if after.told > state.told else None)
            for at in range(state.told, after.told):
                causes.setdefault(self.lines[at].number, set()).add(message)
        steps = []
        for then, now in zip(path, path[1:]):
            if then[:2] == now[:2]:
                continue
            message = self.queue[then.given].fields["number"] if then.given < now.given else None
            is_known = moves is not None and (message is None or len(spans[message]) == 1)
            steps.append(Step(event, message, self.lines[then.told:now.told], then.part, is_known))
        return steps


def steps_of_settle(event: Optional[int], lines: List[Line], queue: List[Line], is_cut: bool, causes: Dict[int, Set[Optional[int]]]) -> List[Step]:
    if not lines and not queue:
        return []
    steps = Settle(lines, queue, event is None, is_cut).steps(event, causes)
    if steps is not None:
        return steps
    unknown = [Step(event, None, lines, FIRST, False)] if lines else []
    return unknown if is_cut else unknown + [Step(event, it.fields["number"], [], FIRST, False) for it in queue]


def lines_by_event(report: Report) -> Dict[Optional[int], List[Line]]:
    found: Dict[Optional[int], List[Line]] = {}
    for it in report.lines:
        found.setdefault(it.event, []).append(it)
    return found


def events_of(report: Report, schedule: Schedule) -> List[Optional[int]]:
    """Returns the events that the report tells of, with the start and, as None, the end. A cut report ends in its last event."""
    last = report.lines[-1].event if report.lines else 0
    if last is None:
        return [*range(len(schedule.events) + 1), None]
    return list(range(last + 1))


def read_steps(report: Report, schedule: Schedule) -> Reading:
    """Returns the steps of a report made with `--trace`, in their order, and what its lines were caused by."""
    at_event = lines_by_event(report)
    count = sum(it.kind == "message" for it in report.lines)
    last = report.lines[-1].event if report.lines else 0
    steps: List[Step] = []
    causes: Dict[int, Set[Optional[int]]] = {}
    waiting: Dict[int, Line] = {}
    for event in events_of(report, schedule):
        lines = at_event.get(event, [])
        given = schedule.event(event)
        kind = "settle" if event is None else given.kind if given else ""
        if event is None:
            waiting.clear()
        waiting.update({it.fields["number"]: it for it in lines if it.kind == "message"})
        if kind == "settle":
            queue = [waiting[it] for it in sorted(waiting)]
            waiting.clear()
            steps += steps_of_settle(event, lines, queue, not report.is_whole and event == last, causes)
            continue
        message = None
        if kind == "deliver" and given.fields["message"] < count and all(it.kind != "event-refused" for it in lines):
            message = given.fields["message"]
            waiting.pop(message, None)
        if lines or message is not None:
            steps.append(Step(event, message, lines))
            causes.update({it.number: {message} for it in lines})
    return Reading(steps, causes)
