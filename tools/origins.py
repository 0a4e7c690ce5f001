"""Finds of which transaction and of which command each message of a report is.

A message has them from what caused it: a client's message from its command, and a server's from the message that it answers. Where a
server sends again, or carries out a part in the background, the message has no cause in the report; then it has a transaction only
where a single one is possible. What stays open is None.
"""

from typing import Dict, List, NamedTuple, Optional, Set, Tuple

from report import COMMANDS, Line, Report, Schedule, coordinator
from steps import REQUESTS, Reading, Step

# Commands whose messages are `op`; the others have the word of their message.
OPERATIONS = {"create", "remove", "cut", "read", "write"}
FINAL = {"begun", "opened", "did", "read", "refused", "committed", "aborted"}


class Origin(NamedTuple):
    """The transaction and the event of the command that a message is of, each None where it isn't known."""

    transaction: Optional[str] = None
    command: Optional[int] = None


class Candidates:
    """Sets of transactions, by a key, of which some message can be; `None` among them stands for one that isn't known."""

    def __init__(self):
        self.sets: Dict[object, Set[Optional[str]]] = {}

    def add(self, key: object, transaction: Optional[str]) -> None:
        self.sets.setdefault(key, set()).add(transaction)

    def remove(self, key: object, transaction: Optional[str]) -> None:
        if transaction is not None:
            self.sets.get(key, set()).discard(transaction)

    def of(self, key: object, server: str) -> Set[Optional[str]]:
        """Returns those that this server coordinates, and None where one isn't known."""
        return {it for it in self.sets.get(key, ()) if it is None or coordinator(it) == server}


def only(found: Set[Optional[str]]) -> Optional[str]:
    """Returns the only transaction of a set, or None where there are more or none."""
    return next(iter(found)) if len(found) == 1 else None


def client_lines(report: Report) -> Dict[Optional[int], List[Line]]:
    found: Dict[Optional[int], List[Line]] = {}
    for it in report.lines:
        if it.fields.get("command") is not None:
            found.setdefault(it.event, []).append(it)
    return found


class Origins:
    """Walks the steps of a report once, in their order."""

    def __init__(self, report: Report, schedule: Schedule, reading: Reading):
        self.schedule, self.reading = schedule, reading
        self.messages = [it for it in report.lines if it.kind == "message"]
        self.found = [Origin() for _ in self.messages]
        self.transaction: Dict[str, Optional[str]] = {}
        self.command: Dict[str, Optional[int]] = {}
        self.begun_by: Dict[int, str] = {}
        self.event: Optional[int] = 0
        # Which transactions may have a part at a server, a part that is being carried out there, and which have committed.
        self.opened, self.going, self.committed, self.begun = Candidates(), Candidates(), Candidates(), Candidates()
        # What a coordinator surely knows until it restarts: a part is done, a client has thanked.
        self.over: Dict[str, Set[Tuple[str, str]]] = {}
        for step in reading.steps:
            self.take_step(step)
        self.name_begins()

    # -- what the step's message and event change

    def take_step(self, step: Step) -> None:
        if step.event != self.event:
            self.begin_event(step)
        for line in step.lines:
            self.take_line(line)
        if step.message is not None:
            self.hand_over(step, self.messages[step.message])

    def begin_event(self, step: Step) -> None:
        """A command that isn't refused at once is outstanding from its event on."""
        for number in range((self.event or 0) + 1, (step.event or len(self.schedule.events)) + 1):
            event = self.schedule.event(number)
            if event is None or event.kind not in COMMANDS or event.kind == "again":
                continue
            is_refused = number == step.event and any(it.kind == "refused" for it in step.lines)
            if not is_refused:
                self.command[event.fields["client"]] = number
        self.event = step.event

    def hand_over(self, step: Step, message: Line) -> None:
        """Keeps what the taking of a message may change, and takes away only what is certain."""
        word, sender, receiver = (message.fields[it] for it in ("word", "sender", "receiver"))
        transaction = self.found[message.fields["number"]].transaction
        is_quiet = step.is_known and not step.lines
        if word == "open":
            self.opened.add(receiver, transaction)
        elif word == "drop" and is_quiet:
            self.opened.remove(receiver, transaction)
        elif word == "commit" and not any(it.kind == "lost" for it in step.lines):
            self.going.add((receiver, sender), transaction)
            if is_quiet:
                self.opened.remove(receiver, transaction)
        elif word in ("done", "thanks") and is_quiet and transaction:
            self.over.setdefault(receiver, set()).add((transaction, sender))

    # -- lines

    def take_line(self, line: Line) -> None:
        fields = line.fields
        if line.kind == "message":
            self.found[fields["number"]] = self.origin_of(line)
        elif line.kind == "up":
            self.over.pop(fields["server"], None)
        elif line.kind == "commit":
            self.committed.add("all", fields["transaction"])
        elif "command" in fields:
            self.take_answer(line)

    def take_answer(self, line: Line) -> None:
        fields, client = line.fields, line.fields["client"]
        if line.kind == "begun":
            self.transaction[client] = fields["transaction"]
            self.begun_by[fields["command"]] = fields["transaction"]
            self.begun.add(client, fields["transaction"])
        if line.kind in ("begun", "committed", "aborted", "waiting"):
            self.name_cause(line, Origin(self.transaction.get(client), fields["command"]))
        if line.kind in ("committed", "aborted"):
            self.transaction[client] = None
        if line.kind in FINAL and self.command.get(client) == fields["command"]:
            self.command[client] = None

    def name_cause(self, line: Line, origin: Origin) -> None:
        """The line names the transaction of the message in whose taking it is told."""
        causes = self.reading.causes.get(line.number, set())
        if len(causes) == 1 and None not in causes:
            number = next(iter(causes))
            if self.found[number].transaction is None:
                self.found[number] = origin

    # -- messages

    def origin_of(self, line: Line) -> Origin:
        causes = self.reading.causes.get(line.number, set())
        origins = {self.origin_by(line, it) for it in causes}
        if len(origins) == 1:
            return next(iter(origins))
        return Origin(only({it.transaction for it in origins}), None)

    def origin_by(self, line: Line, cause: Optional[int]) -> Origin:
        """Returns the origin of a message that was sent in the taking of another, or without one."""
        fields = line.fields
        if cause is not None:
            return Origin() if self.messages[cause].fields["word"] == "begin" else self.found[cause]
        if fields["sender"][0] == "c":
            return self.origin_at_client(fields["sender"], fields["word"])
        return Origin(only(self.candidates(fields["sender"], fields["receiver"], fields["word"])), None)

    def origin_at_client(self, client: str, word: str) -> Origin:
        """A client that sends without a cause sends its outstanding command."""
        command = self.command.get(client)
        event = self.schedule.event(command)
        if event is None or word not in REQUESTS or word != ("op" if event.kind in OPERATIONS else event.kind):
            return Origin()
        return Origin(None if word == "begin" else self.transaction.get(client), command)

    def candidates(self, sender: str, receiver: str, word: str) -> Set[Optional[str]]:
        """Returns each transaction that a message which a server sends of itself can be of."""
        if word == "inquire":
            return self.opened.of(sender, receiver)
        if word == "done":
            return self.going.of((sender, receiver), receiver)
        over = {transaction for transaction, party in self.over.get(sender, ()) if party == receiver}
        if word == "commit":
            return self.committed.of("all", sender) - over
        return self.begun.of(receiver, sender) - over if word == "outcome" else set()

    def name_begins(self) -> None:
        """A `begin` gets the transaction that its command began."""
        for number, origin in enumerate(self.found):
            if self.messages[number].fields["word"] == "begin" and origin.command in self.begun_by:
                self.found[number] = Origin(self.begun_by[origin.command], origin.command)
