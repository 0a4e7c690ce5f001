"""Draws sessions of one server: frames of honest clients and servers, and forged ones, whose names are mostly those that the server has.

The plain model runs beside, so that a frame can name what is there by then.
"""

import os
import random
import sys
from typing import Callable, List

sys.path.insert(0, os.path.dirname(os.path.dirname(os.path.realpath(__file__))))
from server import Server, Transaction, Work
from wire import (
    BLOCK_BYTES, CLIENT, FIELDS, FILE, MOST_WORKS, NUMBERS, OF_CLIENTS, OF_SERVERS, OP, OPERATION, PLACE, REQUEST, RESOURCE, SERVER, TO_CLIENTS, TRANSACTION,
    UNIT, WORK, By, Choice, Content, Frame, Name, Unit, Works,
)

LAST = 2**32 - 1
# Blocks at both ends of a head, of its map pages and of a file.
BLOCKS = (0, 1, 2, 118, 119, 120, 121, 239, 240, 2399, 2400, 2519)
FILES = (0, 1, 2, 3, 7, LAST)
TAKEN = [kind for kind, number in NUMBERS.items() if number not in TO_CLIENTS]


class Session:
    """What is sent to a server, frame by frame."""

    def __init__(self, draw: random.Random, server: Server, take: Callable[[Server, Frame], bytes]):
        self.draw, self.server, self.take = draw, server, take
        self.name = f"s{server.number}"
        self.frames: List[Frame] = []
        self.requests = {client: 0 for client in range(1, 9)}
        # Transactions that other servers coordinate, and works at other servers.
        others = [it for it in range(8) if it != server.number]
        self.foreign = [Name(draw.choice(others), draw.randrange(4), draw.randrange(9)) for _ in range(4)]

    def send(self, sender: str, kind: str, *fields) -> None:
        frame = Frame(sender, self.name, kind, fields)
        self.frames.append(frame)
        self.take(self.server, frame)

    # ---- what there is

    def transactions(self, *stages: str) -> List[Transaction]:
        return [it for it in self.server.transactions.values() if it.stage in stages]

    def works(self, *phases: str) -> List[Work]:
        return [it for it in self.server.works.values() if it.phase in phases]

    def any_name(self) -> Name:
        """Draws a name that is there, one of another server, or one near to these."""
        known = [*self.server.transactions, *self.server.works]
        names = known if known and self.draw.randrange(4) else self.foreign
        name = self.draw.choice(names)
        if self.draw.randrange(8):
            return name
        near = (self.draw.randrange(8), self.draw.choice((0, self.server.epoch - 1, self.server.epoch, min(self.server.epoch + 1, LAST), LAST)), self.draw.randrange(9))
        at = self.draw.randrange(3)
        return Name(*(near[it] if it == at else name[it] for it in range(3)))

    def number_near(self, number: int) -> int:
        step = self.draw.choice((0, 0, 1, 1, 1, 1, 1, 1, 2, -1))
        return LAST if self.draw.randrange(60) == 0 else min(max(number + step, 0), LAST)

    def next_request(self, client: int) -> int:
        self.requests[client] = min(self.number_near(self.requests[client]), 2**31)
        return self.requests[client]

    # ---- honest moves; each does nothing where it has nothing to name

    def begin(self) -> None:
        client = self.draw.randrange(1, 9)
        self.send(f"c{client}", "begin", client, self.next_request(client))

    def open(self) -> None:
        tids = [it.tid for it in self.transactions("open")] + self.foreign[:1]
        client = self.draw.randrange(1, 9)
        self.send(f"c{client}", "open", client, self.next_request(client), self.draw.choice(tids))

    def operate(self) -> None:
        for work in self.draw.sample(self.works("active"), min(2, len(self.works("active")))):
            client = self.draw.randrange(1, 9)
            self.send(f"c{client}", "op", client, self.next_request(client), work.name, self.number_near(work.last), self.value(OP, ""))

    def ask(self, kind: str) -> None:
        """A client asks for the end of a transaction, and names its works: that at this server, and some of others.

        A forged one names more works of this server, which then has several messages to itself.
        """
        for it in self.draw.sample(self.transactions("open", "voting"), min(1, len(self.transactions("open", "voting")))):
            works = [work.name for work in self.server.works.values() if work.tid == it.tid]
            works += self.draw.sample(self.foreign, self.draw.choice((0, 0, 0, 1, 2)))
            if self.draw.randrange(3) == 0:
                works += self.draw.sample(list(self.server.works), min(self.draw.randrange(1, 4), len(self.server.works)))
                self.draw.shuffle(works)
            self.send(f"c{it.client}", kind, it.client, self.next_request(it.client), it.tid, tuple(works[:MOST_WORKS]))

    def end(self) -> None:
        self.ask("end")

    def abort(self) -> None:
        self.ask("abort")

    def thank(self) -> None:
        for it in self.transactions("committed", "aborted")[:2]:
            self.send(f"c{it.client}", "thanks", it.client, it.tid)

    def prepare(self) -> None:
        works = [it for it in self.server.works.values() if it.tid.server != self.server.number]
        for it in self.draw.sample(works, min(1, len(works))):
            self.send(f"s{it.tid.server}", "prepare", it.tid, self.draw.randrange(1, 9), it.name)

    def decide(self) -> None:
        for it in self.works("ready")[:2]:
            self.send(f"s{it.tid.server}", self.draw.choice(("commit", "commit", "drop")), it.tid, it.name)

    def vote(self) -> None:
        for it in self.transactions("voting"):
            for work in it.works:
                if work.server != self.server.number and self.draw.randrange(3):
                    vote = ("ready",) if self.draw.randrange(5) else self.value(FIELDS["vote"][2], "")
                    self.send(f"s{work.server}", "vote", it.tid, work, vote)

    def tell_done(self) -> None:
        for it in self.transactions("committed"):
            for work in [it for it in it.works if it.server != self.server.number][:2]:
                self.send(f"s{work.server}", "done", it.tid, work)

    def inquire(self) -> None:
        work = self.draw.choice(self.foreign)
        self.send(f"s{work.server}", "inquire", self.any_name(), work)

    def signal(self) -> None:
        sender = self.draw.choice(("c1", "c8", "s0", "s7"))
        if self.draw.randrange(2):
            self.send(sender, "nudge")
        else:
            self.send(sender, "timeout", self.any_name())

    def repeat(self) -> None:
        if self.frames:
            it = self.draw.choice(self.frames)
            self.send(it.sender, it.kind, *it.fields)

    # ---- forged ones

    def value(self, field, sender: str):
        """Draws a value that a field may have."""
        draw = self.draw
        if isinstance(field, Choice):
            head, _, fields = draw.choice(field.rows)
            return (head, *(self.value(it, sender) for it in fields))
        if isinstance(field, Works):
            return tuple(self.any_name() for _ in range(draw.choice((0, 1, 1, 2, 3, 8))))
        if isinstance(field, Content):
            return draw.randbytes(draw.choice((0, 1, 8, BLOCK_BYTES))).ljust(BLOCK_BYTES, b"\0")
        if isinstance(field, By) or field in (TRANSACTION, WORK):
            return self.any_name()
        if field is CLIENT:
            return int(sender[1:]) if sender.startswith("c") else draw.randrange(1, 9)
        choices = {FILE: FILES, PLACE: BLOCKS, SERVER: range(8), RESOURCE: (31, 32, 33)}
        if field is UNIT:
            return Unit(draw.choice(FILES), draw.choice((-1, *BLOCKS)))
        if field in choices:
            return draw.choice(choices[field])
        return draw.choice((0, 1, 2, 3, draw.randrange(20), LAST)) if field in (REQUEST, OPERATION) else draw.randrange(2**32)

    def forge(self) -> None:
        kind = self.draw.choice(TAKEN)
        number = NUMBERS[kind]
        senders = [f"c{it}" for it in range(1, 9)] * (number not in OF_SERVERS) + [f"s{it}" for it in range(8)] * (number not in OF_CLIENTS)
        sender = self.draw.choice(senders)
        client = sender if number in OF_CLIENTS else ""
        self.send(sender, kind, *(self.value(it, client) for it in FIELDS[kind]))

    # ---- whole sessions

    MOVES = (
        (begin, 6), (open, 9), (operate, 24), (end, 8), (abort, 1), (thank, 4), (prepare, 5), (decide, 5), (vote, 6), (tell_done, 3), (inquire, 1), (signal, 2),
        (repeat, 3),
    )

    def play(self, count: int, forged: int) -> None:
        """Makes so many moves, of which so many in a hundred are forged."""
        moves, weights = zip(*self.MOVES)
        for _ in range(count):
            if self.draw.randrange(100) < forged:
                self.forge()
            else:
                self.draw.choices(moves, weights)[0](self)

    def crowd(self) -> None:
        """Fills the tables: transactions that commit and wait for another server, and works of many transactions."""
        other = self.foreign[0]
        for at in range(70):
            client = at % 8 + 1
            self.requests[client] += 1
            self.send(f"c{client}", "begin", client, self.requests[client])
            for it in self.transactions("open"):
                self.send(f"c{it.client}", "end", it.client, self.requests[it.client], it.tid, (other,))
                self.send(f"s{other.server}", "vote", it.tid, other, ("ready",))
            self.send("c1", "open", 1, self.requests[1], Name(other.server, other.epoch, at))

    def settle(self) -> None:
        """Ends what others wait for: each prepared work is dropped or carried out, and each commit is thanked for and done everywhere."""
        for _ in range(20):
            for it in self.works("ready"):
                self.send(f"s{it.tid.server}", self.draw.choice(("commit", "drop")), it.tid, it.name)
            for it in self.transactions("committed"):
                self.send(f"c{it.client}", "thanks", it.client, it.tid)
                for work in list(it.works):
                    self.send(f"s{work.server}", "done", it.tid, work)


def spoiled(draw: random.Random, data: bytes) -> bytes:
    """Changes bytes of a stream, so that mostly it is one no more."""
    at = draw.randrange(len(data) + 1)
    return draw.choice((
        data[:at],
        data[: -draw.randrange(1, 12)],
        data[:at] + draw.randbytes(1) + data[at + 1 :],
        data[:at] + data[at + 1 :],
        data[:at] + draw.randbytes(draw.randrange(1, 4)) + data[at:],
        data + draw.randbytes(draw.randrange(1, 20)),
    ))
