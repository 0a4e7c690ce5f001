"""A client: what it does with the commands of a schedule and with the messages of servers, as `jn_client` does it."""

from typing import List, NamedTuple, Optional, Tuple

from wire import ANSWER, BLOCK_BYTES, OUTCOME, Frame, Name

OPERATIONS = ("create", "remove", "cut", "read", "write")
# The refusals of a client itself.
BUSY, NO_TRANSACTION, HAS_TRANSACTION, NOT_OPEN, ALREADY_OPEN, NO_SERVER = 1, 2, 3, 4, 5, 6


class Refused(Exception):
    """A command is refused, and nothing is sent: the refusal's number."""

    def __init__(self, number: int):
        super().__init__(number)
        self.number = number


class Outstanding(NamedTuple):
    """A command that isn't answered yet: its event, its request, its word and its server, and its message."""

    event: int
    request: int
    command: str
    server: Optional[int]
    frame: Frame


class Work:
    """A transaction's part at a server, and the number of its last operation."""

    def __init__(self, name: Name):
        self.name = name
        self.last = 0


def operation_of(command: str, fields: dict) -> tuple:
    """Returns the operation that a command of a schedule asks for."""
    value = [command, fields["file"]] + ([fields["block"]] if "block" in fields else [])
    if "hex" in fields:
        data = b"" if fields["hex"] == "-" else bytes.fromhex(fields["hex"])
        value.append(data.ljust(BLOCK_BYTES, b"\0"))
    return tuple(value)


class Client:
    """A client of so many servers: its transaction with the works in the order of their opening, and its outstanding command."""

    def __init__(self, number: int, servers: int):
        self.number = number
        self.servers = servers
        self.last_request = 0
        self.transaction: Optional[Name] = None
        self.works: List[Work] = []
        self.outstanding: Optional[Outstanding] = None

    def work_at(self, server: int) -> Optional[Work]:
        return next((it for it in self.works if it.name.server == server), None)

    def check(self, command: str, server: Optional[int]) -> None:
        """Refuses a command that can't be given now."""
        if server is not None and server >= self.servers:
            raise Refused(NO_SERVER)
        if self.outstanding and command != "abort":
            raise Refused(BUSY)
        if command == "begin" and self.transaction:
            raise Refused(HAS_TRANSACTION)
        if command != "begin" and not self.transaction:
            raise Refused(NO_TRANSACTION)
        if command == "open" and self.work_at(server):
            raise Refused(ALREADY_OPEN)
        if command in OPERATIONS and not self.work_at(server):
            raise Refused(NOT_OPEN)

    def command(self, event: int, command: str, fields: dict) -> Frame:
        """Does what an event of a schedule asks of the client, and returns the message that it sends."""
        server = int(fields["server"][1:]) if "server" in fields else None
        self.check(command, server)
        request = self.last_request + 1
        kind, to, behind = command, server, ()
        if command == "open":
            behind = (self.transaction,)
        elif command in OPERATIONS:
            work = self.work_at(server)
            work.last += 1
            kind, behind = "op", (work.name, work.last, operation_of(command, fields))
        elif command != "begin":
            to, behind = self.transaction.server, (self.transaction, tuple(it.name for it in self.works))
        frame = Frame(f"c{self.number}", f"s{to}", kind, (self.number, request, *behind))
        self.last_request = request
        self.outstanding = Outstanding(event, request, command, server, frame)
        return frame

    def take(self, frame: Frame) -> Tuple[Optional[str], Optional[Frame]]:
        """Does what a message asks for: the line that a report has of it, and the message that is sent, if there are any."""
        client, *fields = frame.fields
        if client != self.number:
            return None, None
        if frame.kind == "outcome":
            return self.take_outcome(*fields)
        if not self.outstanding or fields[0] != self.outstanding.request:
            return None, None
        return self.take_reply(frame.kind, fields[1:]), None

    def line(self, words: str) -> str:
        """Returns a line that answers the outstanding command."""
        word, _, rest = words.partition(" ")
        return " ".join(it for it in (f"c{self.number}", word, str(self.outstanding.event), rest) if it)

    def take_reply(self, kind: str, fields: list) -> Optional[str]:
        """Takes the answer to the outstanding request, where it is one to its command."""
        command = self.outstanding.command
        if kind == "begun" and command == "begin":
            head, *name = fields[0]
            if name:
                self.transaction, self.works = name[0], []
            words = head or f"begun {name[0]}"
        elif kind == "opened" and command == "open" and fields[0] == self.transaction:
            head, *name = fields[1]
            if name and name[0].server != self.outstanding.server:
                return None
            self.works += [Work(it) for it in name]
            words = head or f"opened s{name[0].server}"
        elif kind == "answer" and command in OPERATIONS:
            words = words_of_answer(fields[0])
        else:
            return None
        line = self.line(words)
        self.outstanding = None
        return line

    def take_outcome(self, transaction: Name, outcome: tuple) -> Tuple[Optional[str], Optional[Frame]]:
        """Takes an outcome. One that is decided ends the transaction, and its coordinator is thanked, also where it is over already."""
        word = outcome[0].split()[0]
        is_current = transaction == self.transaction
        thanks = Frame(f"c{self.number}", f"s{transaction.server}", "thanks", (self.number, transaction)) if word in ("committed", "aborted") else None
        if not is_current:
            return None, thanks
        commands = ("end",) if word == "waiting" else ("end", "abort")
        if not self.outstanding or self.outstanding.command not in commands:
            return None, None
        line = self.line(words_of_outcome(transaction, outcome))
        if word != "waiting":
            self.transaction, self.works, self.outstanding = None, [], None
        return line, thanks


def words_of_answer(answer: tuple) -> str:
    return " ".join(ANSWER.words(answer))


def words_of_outcome(transaction: Name, outcome: tuple) -> str:
    """Returns an outcome as a report tells it. A transaction that its coordinator doesn't know is lost there."""
    if outcome[0] == "unknown":
        return f"aborted {transaction} lost s{outcome[1]}"
    word, *rest = OUTCOME.words(outcome)
    return " ".join([word, *rest] if word == "waiting" else [word, str(transaction), *rest])
