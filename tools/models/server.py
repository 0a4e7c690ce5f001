"""A plain model of one server: what its memory and its files are, and what each message does to them. Its disk is counted, not kept.

It is written by docs/ and not by the sources, so that a test of the tools or of the program has something to hold them against. A message is
its receiver, its kind and its fields, as in tools/wire.py.
"""

from dataclasses import dataclass, field, replace
from typing import Dict, List, Optional, Set, Tuple

from images import HEAD_BLOCKS
from wire import BLOCK_BYTES, Name, Unit

MOST_WORKS = MOST_TRANSACTIONS = 64
MOST_READS, MOST_INTENTIONS = 40, 24
READ, INTEND, COMMIT = "read", "intend", "commit"
TOGETHER = {(READ, READ), (READ, INTEND), (INTEND, READ)}
Message = Tuple[str, str, tuple]


@dataclass
class Disk:
    """The files of a server, their map pages, and how many records, heads and data pages it has."""

    counts: Tuple[int, int, int]
    epoch: int
    files: Dict[int, Dict[int, bytes]]
    maps: Dict[int, Set[int]]
    # Records of intentions that nothing names any more.
    rubbish: int = 0

    def carry_out(self, what: str, file: int, block: int, data: bytes) -> int:
        """Carries out an intention, and returns how many of the work's data pages are the file's now."""
        had = len(self.maps.get(file, ()))
        if what == "fresh":
            self.files[file], self.maps[file] = {}, set()
        elif what == "gone":
            self.files.pop(file, None)
            self.maps.pop(file, None)
        elif what == "cut":
            self.files[file] = {at: it for at, it in self.files[file].items() if at < block}
            self.maps[file] = maps_after(self.maps[file], what, block)
        else:
            self.files[file][block] = data
            self.maps[file] = maps_after(self.maps[file], what, block)
            return 1 + len(self.maps[file]) - had
        return 0


def maps_after(maps: Set[int], what: str, block: int) -> Set[int]:
    """Returns the map pages of a file after an intention. The first blocks have none, since their addresses are in the head."""
    if what == "put":
        return maps | {block // HEAD_BLOCKS - 1} - {-1}
    return {it for it in maps if what == "cut" and HEAD_BLOCKS * (it + 1) < block}


@dataclass
class Net:
    """What a work does to a file: an intention that comes first, if there is one, and the blocks that are put."""

    first: Optional[Tuple[str, int]] = None
    puts: Dict[int, bytes] = field(default_factory=dict)

    def add(self, op: tuple) -> None:
        word, _, *rest = op
        if word in ("create", "remove"):
            self.first, self.puts = ("fresh" if word == "create" else "gone", 0), {}
        elif word == "cut":
            if self.first is None or self.first[0] == "cut":
                self.first = ("cut", min(rest[0], self.first[1] if self.first else rest[0]))
            self.puts = {at: it for at, it in self.puts.items() if at < rest[0]}
        elif word == "write":
            self.puts = {**self.puts, rest[0]: rest[1]}

    def intentions(self, file: int) -> List[tuple]:
        first = [(self.first[0], file, self.first[1], b"")] if self.first else []
        return first + [("put", file, at, it) for at, it in sorted(self.puts.items())]


@dataclass
class Work:
    """A part of a transaction at this server."""

    name: Name
    tid: Name
    phase: str = "active"
    nets: Dict[int, Net] = field(default_factory=dict)
    reads: Set[Unit] = field(default_factory=set)
    writes: Set[Unit] = field(default_factory=set)
    last: int = 0
    kept: Optional[tuple] = None
    vulnerable: bool = False
    # Where it was broken, and by whom.
    broken: tuple = ()
    # Of a prepared work: its intentions, how many of them have been carried out, and its data pages.
    intentions: List[tuple] = field(default_factory=list)
    next: int = 0
    pages: int = 0

    def is_prepared(self) -> bool:
        return self.phase in ("ready", "going")

    def gives_way(self) -> bool:
        return self.phase == "active" and self.vulnerable

    def holds(self, unit: Unit) -> Set[str]:
        """Returns the modes in which it holds a unit."""
        if self.phase == "broken":
            return set()
        written = COMMIT if self.is_prepared() else INTEND
        return {mode for mode, units in ((READ, self.reads), (written, self.writes)) if unit in units}

    def collides(self, unit: Unit, modes: Set[str]) -> bool:
        return any((held, it) not in TOGETHER for held in self.holds(unit) for it in modes)

    def nets_with(self, op: tuple) -> Dict[int, Net]:
        """Returns what it does with one more operation."""
        nets = dict(self.nets)
        if op[0] != "read":
            net = nets[op[1]] = replace(nets.get(op[1], Net()))
            net.add(op)
        return nets


def intentions_of(nets: Dict[int, Net]) -> List[tuple]:
    return [it for file, net in sorted(nets.items()) for it in net.intentions(file)]


@dataclass
class Transaction:
    """A transaction that this server coordinates."""

    tid: Name
    client: int
    begun: int
    stage: str = "open"
    works: List[Name] = field(default_factory=list)
    # The works that have voted ready, and of a committed transaction those that are done.
    noted: List[Name] = field(default_factory=list)
    thanked: bool = False
    outcome: tuple = ()

    def tell(self) -> Message:
        return f"c{self.client}", "outcome", (self.client, self.tid, self.outcome)

    def waits_for(self, work: Name) -> bool:
        """Tells whether a work of a committed transaction isn't done."""
        return self.stage == "committed" and work in self.works and work not in self.noted

    def is_over(self) -> bool:
        return self.thanked and all(it in self.noted for it in self.works)


def to_works(kind: str, tid: Name, works) -> List[Message]:
    return [(f"s{it.server}", kind, (tid, it)) for it in works]


class Server:
    """One server that is up."""

    def __init__(self, number: int, disk: Disk):
        self.number, self.disk, self.epoch = number, disk, disk.epoch
        self.ticket = 0
        self.works: Dict[Name, Work] = {}
        self.transactions: Dict[Name, Transaction] = {}
        self.seen: Dict[int, int] = {}

    # ---- what is asked of it

    def handle(self, kind: str, fields: tuple) -> List[Message]:
        """Does what a message asks for, and returns what it sends."""
        return getattr(self, "take_" + kind)(*fields)

    def step(self) -> Optional[List[Message]]:
        """Makes a background step, and returns what it sends, or None where there is nothing to do."""
        work = next((it for it in self.works.values() if it.phase == "going"), None)
        if work is None:
            had, self.disk.rubbish = self.disk.rubbish, max(self.disk.rubbish - 1, 0)
            return [] if had else None
        if work.next < len(work.intentions):
            work.pages -= self.disk.carry_out(*work.intentions[work.next])
            work.next += 1
            return []
        self.forget(work)
        return [(f"s{work.tid.server}", "done", (work.tid, work.name))]

    def take_nudge(self) -> List[Message]:
        """Returns what it sends again."""
        sent = [(f"s{it.tid.server}", "inquire", (it.tid, it.name)) for it in self.works.values() if it.phase != "going"]
        for it in self.transactions.values():
            if it.stage == "committed":
                sent += to_works("commit", it.tid, [work for work in it.works if work not in it.noted])
            if it.stage == "aborted" or it.stage == "committed" and not it.thanked:
                sent.append(it.tell())
        return sent

    def take_timeout(self, tid: Name) -> List[Message]:
        for work in [it for it in self.works.values() if it.tid == tid][:1]:
            work.vulnerable = True
        return []

    def is_settled(self) -> bool:
        is_flagged = any(it.stage == "committed" for it in self.transactions.values())
        return not is_flagged and not any(it.is_prepared() for it in self.works.values())

    def draw(self) -> Name:
        self.ticket += 1
        return Name(self.number, self.epoch, self.ticket - 1)

    # ---- as a worker

    def take_open(self, client: int, request: int, tid: Name) -> List[Message]:
        work = next((it for it in self.works.values() if it.tid == tid), None)
        if work is None and len(self.works) < MOST_WORKS:
            name = self.draw()
            work = self.works[name] = Work(name, tid)
        return [(f"c{client}", "opened", (client, request, tid, ("", work.name) if work else ("refused 22",)))]

    def take_op(self, client: int, request: int, name: Name, number: int, op: tuple) -> List[Message]:
        work = self.works.get(name)
        if work is None:
            answer: Optional[tuple] = ("refused 17", name.epoch, self.epoch)
        elif work.phase == "broken":
            answer = ("refused 16", *work.broken)
        elif work.is_prepared():
            answer = ("refused 18",)
        else:
            answer = self.by_number(work, number, op)
        return [] if answer is None else [(f"c{client}", "answer", (client, request, answer))]

    def by_number(self, work: Work, number: int, op: tuple) -> Optional[tuple]:
        if number == work.last + 1:
            work.kept = self.perform(work, op)
            work.last = number
        return work.kept if number == work.last else None

    def perform(self, work: Work, op: tuple) -> tuple:
        """Does a work's next operation, and returns its answer."""
        answer = self.answer_to(work, op)
        is_fit = answer[0] in ("did", "read")
        wants = wants_of(op, is_fit)
        reads = work.reads | {unit for unit, modes in wants if READ in modes}
        nets = work.nets_with(op) if is_fit else work.nets
        if len(reads) > MOST_READS:
            return ("refused 14",)
        if len(intentions_of(nets)) > MOST_INTENTIONS:
            return ("refused 15",)
        held = self.conflict(work, wants)
        if held:
            return ("refused 13", *held)
        work.nets, work.reads = nets, reads
        work.writes |= {unit for unit, modes in wants if INTEND in modes}
        self.grant(work, wants)
        return answer

    def answer_to(self, work: Work, op: tuple) -> tuple:
        """Returns what the files answer, as the work sees them."""
        word, file, *rest = op
        net = work.nets.get(file, Net())
        first = net.first or ("", 0)
        is_there = first[0] == "fresh" or first[0] != "gone" and file in self.disk.files
        if (word == "create") == is_there:
            return ("refused 12",) if is_there else ("refused 11",)
        if word != "read":
            return ("did",)
        is_kept = first[0] == "" or first[0] == "cut" and rest[0] < first[1]
        stored = self.disk.files.get(file, {}).get(rest[0]) if is_kept else None
        return ("read", net.puts.get(rest[0]) or stored or bytes(BLOCK_BYTES))

    def conflict(self, work: Work, wants) -> Optional[tuple]:
        """Returns the first wanted unit that another work holds and won't let go of, and that work's transaction."""
        for unit, modes in wants:
            for other in self.works.values():
                if other is not work and other.collides(unit, modes) and not other.gives_way():
                    return unit, other.tid
        return None

    def grant(self, work: Work, wants) -> None:
        """Breaks the works that give way."""
        for other in self.works.values():
            if other is not work and other.gives_way():
                unit = next((unit for unit, modes in wants if other.collides(unit, modes)), None)
                if unit is not None:
                    other.phase, other.broken = "broken", (unit, work.tid)

    def take_prepare(self, tid: Name, client: int, name: Name) -> List[Message]:
        work = self.works.get(name)
        if work is None:
            vote: tuple = ("lost", name.epoch, self.epoch)
        elif work.phase == "broken":
            vote = ("broken", *work.broken)
        elif work.phase == "going":
            return []
        else:
            vote = ("ready",) if work.phase == "ready" else self.prepare(work)
        return [(f"s{tid.server}", "vote", (tid, name, vote))]

    def prepare(self, work: Work) -> tuple:
        """Prepares an active work, and returns its vote."""
        wants = [(unit, {COMMIT}) for unit in sorted(work.writes)]
        held = self.conflict(work, wants)
        if held:
            return ("waiting", *held)
        intentions = intentions_of(work.nets)
        pages = sum(it[0] == "put" for it in intentions) + self.lacking_maps(intentions)
        free = dict(zip((31, 33, 32), self.free()))
        for number, need in ((31, len(intentions) + 1), (32, pages), (33, self.new_heads(intentions))):
            if free[number] < need:
                return ("full", number, free[number], need)
        self.grant(work, wants)
        work.phase, work.intentions, work.pages = "ready", intentions, pages
        return ("ready",)

    def lacking_maps(self, intentions: List[tuple]) -> int:
        """Returns how many map pages are lacking where intentions are carried out."""
        maps, lacking = dict(self.disk.maps), 0
        for what, file, block, _ in intentions:
            there = maps.get(file, set())
            maps[file] = maps_after(there, what, block)
            lacking += len(maps[file] - there)
        return lacking

    def new_heads(self, intentions: List[tuple]) -> int:
        return sum(it[0] == "fresh" and it[1] not in self.disk.files for it in intentions)

    def free(self) -> Tuple[int, int, int]:
        """Returns how many records, heads and data pages are free and not promised, as a record is for the flag of who votes."""
        prepared = [it for it in self.works.values() if it.is_prepared()]
        flags = sum(it.stage in ("committed", "voting") for it in self.transactions.values())
        records = sum(len(it.intentions) + 1 for it in prepared) + self.disk.rubbish + flags
        heads = len(self.disk.files) + sum(self.new_heads(it.intentions) for it in prepared)
        pages = sum(map(len, (*self.disk.files.values(), *self.disk.maps.values()))) + sum(it.pages for it in prepared)
        return tuple(count - used for count, used in zip(self.disk.counts, (records, heads, pages)))

    def take_commit(self, tid: Name, name: Name) -> List[Message]:
        work = self.works.get(name)
        if work and work.phase == "ready":
            work.phase = "going"
        return [] if work else [(f"s{tid.server}", "done", (tid, name))]

    def take_drop(self, _tid: Name, name: Name) -> List[Message]:
        work = self.works.get(name)
        if work and work.phase != "going":
            self.forget(work)
        return []

    def forget(self, work: Work) -> None:
        """Drops a work, whose intentions' records are rubbish then."""
        self.disk.rubbish += len(work.intentions)
        del self.works[work.name]

    # ---- as a coordinator

    def take_begin(self, client: int, request: int) -> List[Message]:
        seen = self.seen.get(client, 0)
        if request < seen:
            return []
        if request == seen:
            own = next((it for it in self.transactions.values() if (it.client, it.begun) == (client, request)), None)
            return [] if own is None else [(f"c{client}", "begun", (client, request, ("", own.tid)))]
        self.seen[client] = request
        for it in [it for it in self.transactions.values() if it.client == client]:
            it.thanked = True
            if it.stage != "committed" or it.is_over():
                del self.transactions[it.tid]
        if len(self.transactions) >= MOST_TRANSACTIONS:
            return [(f"c{client}", "begun", (client, request, ("refused 21",)))]
        tid = self.draw()
        self.transactions[tid] = Transaction(tid, client, request)
        return [(f"c{client}", "begun", (client, request, ("", tid)))]

    def commit(self, it: Transaction) -> List[Message]:
        it.stage, it.noted, it.outcome = "committed", [], ("committed",)
        return to_works("commit", it.tid, it.works) + [it.tell()]

    def abort(self, it: Transaction, works: List[Name], *cause) -> List[Message]:
        it.stage, it.outcome = "aborted", cause
        return to_works("drop", it.tid, works) + [it.tell()]

    def take_end(self, client: int, _request: int, tid: Name, works: tuple) -> List[Message]:
        it = self.transactions.get(tid)
        if it is None or it.outcome:
            return self.tell(it, client, tid, works)
        if it.stage == "open":
            if self.free()[0] < 1:
                return self.abort(it, list(works), "aborted full", self.number, 31, self.free()[0], 1)
            it.works = list(works)
            if not works:
                return self.commit(it)
            it.stage = "voting"
        return [(f"s{work.server}", "prepare", (tid, it.client, work)) for work in it.works if work not in it.noted]

    def take_abort(self, client: int, _request: int, tid: Name, works: tuple) -> List[Message]:
        it = self.transactions.get(tid)
        if it is None or it.outcome:
            return self.tell(it, client, tid, works)
        return self.abort(it, it.works + [work for work in works if work not in it.works], "aborted requested")

    def tell(self, it: Optional[Transaction], client: int, tid: Name, works: tuple) -> List[Message]:
        """Tells a transaction's outcome, or that it isn't known."""
        unknown = (f"c{client}", "outcome", (client, tid, ("unknown", self.number, self.epoch)))
        return [it.tell()] if it else [unknown, *to_works("drop", tid, works)]

    def take_vote(self, tid: Name, name: Name, vote: tuple) -> List[Message]:
        it = self.transactions.get(tid)
        if it is None or it.outcome:
            return self.take_inquire(tid, name)
        if it.stage == "open" or name not in it.works:
            return []
        word, *rest = vote
        if word == "ready":
            it.noted += [name] if name not in it.noted else []
            return self.commit(it) if all(work in it.noted for work in it.works) else []
        if word == "waiting":
            waits = (f"c{it.client}", "outcome", (it.client, tid, ("waiting", name.server, *rest)))
            return [] if name in it.noted else [waits]
        if word == "lost":
            return self.abort(it, [work for work in it.works if work != name], "aborted lost", name.server)
        return self.abort(it, it.works, f"aborted {word}", name.server, *rest)

    def take_inquire(self, tid: Name, name: Name) -> List[Message]:
        it = self.transactions.get(tid)
        if it and not it.outcome:
            return []
        return to_works("commit" if it and it.waits_for(name) else "drop", tid, [name])

    def take_done(self, tid: Name, name: Name) -> List[Message]:
        it = self.transactions.get(tid)
        if it and it.waits_for(name):
            it.noted.append(name)
            self.close(it)
        return []

    def take_thanks(self, _client: int, tid: Name) -> List[Message]:
        it = self.transactions.get(tid)
        if it and it.stage == "aborted":
            del self.transactions[tid]
        elif it and it.stage == "committed":
            it.thanked = True
            self.close(it)
        return []

    def close(self, it: Transaction) -> None:
        if it.is_over():
            del self.transactions[it.tid]


def wants_of(op: tuple, is_fit: bool) -> List[Tuple[Unit, Set[str]]]:
    """Returns the units that an operation locks, in their order, each with its modes."""
    word, file, *rest = op
    if not is_fit:
        return [(Unit(file), {READ})]
    if word in ("read", "write"):
        return [(Unit(file), {READ}), (Unit(file, rest[0]), {READ if word == "read" else INTEND})]
    return [(Unit(file), {READ, INTEND})]
