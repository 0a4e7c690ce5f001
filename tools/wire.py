"""Frames: the messages between clients and servers as bytes and as words. docs/FRAMES.md has the bytes.

In words a frame is `A>B KIND` and its fields, in the order of the bytes: `c1>s0 begin 1`, `s0>c1 begun 1 0.3.0`, `c1>s0 op 3 0.3.1 1 create 7`.
A, B and KIND are as in the message lines of a report. An operation is as in a schedule, an answer or an outcome as in a report. The client is
named where it isn't the one who sends the message or who gets it.
"""

import re
from typing import Dict, List, NamedTuple, Optional, Tuple

from forms import BLOCK, MOST_HEX, NUMBER, PARTS, RESOURCES

BLOCK_BYTES = MOST_HEX // 2
MOST_WORKS = 8
FILE_ITSELF = 0xFFFF
# The numbers of faults.
CUT, LENGTH, PARTY, UNKNOWN_KIND, RANGE = 1, 2, 3, 4, 5


class Wrong(Exception):
    """A whole frame isn't one of the format: its number."""

    def __init__(self, number: int):
        super().__init__(number)
        self.number = number


class StreamFault(NamedTuple):
    """The first bytes of a stream that are no frame: the place of the frame's first byte, and the fault's number."""

    at: int
    number: int

    def __str__(self) -> str:
        return f"fault at {self.at} number {self.number}"


class NoFrame(Exception):
    """A line is no frame in words."""


class Name(NamedTuple):
    """The name of a transaction or of a work."""

    server: int
    epoch: int
    ticket: int

    def __str__(self) -> str:
        return f"{self.server}.{self.epoch}.{self.ticket}"


class Unit(NamedTuple):
    """A file, whose block is -1, or a block of it. A file comes before its blocks."""

    file: int
    block: int = -1

    def __str__(self) -> str:
        return f"{self.file}" if self.block < 0 else f"{self.file}/{self.block}"


class Frame(NamedTuple):
    """A message with its sender and its receiver, as `c1` and `s0`, or a signal to a server."""

    sender: str
    receiver: str
    kind: str
    fields: tuple = ()

    def __str__(self) -> str:
        return " ".join([f"{self.sender}>{self.receiver}", self.kind, *words_of(self)])


# ---- fields

class Reader:
    """The bytes of a frame, read from the left."""

    def __init__(self, data: bytes):
        self.data = data
        self.at = 0

    def take(self, size: int) -> bytes:
        if self.at + size > len(self.data):
            raise Wrong(LENGTH)
        self.at += size
        return self.data[self.at - size : self.at]

    def number(self, size: int) -> int:
        return int.from_bytes(self.take(size), "big")


class Words:
    """The words of a line, read from the left."""

    def __init__(self, words: List[str]):
        self.words = words

    def next(self) -> str:
        return self.words[0] if self.words else ""

    def take(self) -> str:
        if not self.words:
            raise NoFrame("a word is missing")
        return self.words.pop(0)

    def take_all(self, wanted: List[str]) -> bool:
        """Takes these words, where they stand here."""
        if self.words[: len(wanted)] != wanted:
            return False
        del self.words[: len(wanted)]
        return True


class Field:
    """A field of fixed size: the sizes of the numbers in it, the values that these may have, and its words.

    `value` makes the field's value of its numbers, and `numbers` does the opposite.
    """

    def __init__(self, what, sizes, fits, pattern, value=lambda it: it[0], numbers=lambda it: (it,), text=str, parse=int):
        self.what, self.sizes, self.fits, self.pattern = what, sizes, fits, re.compile(pattern)
        self.value, self.numbers, self.text, self.parse = value, numbers, text, parse

    def read(self, reader: Reader):
        parts = Reader(reader.take(sum(self.sizes)))
        value = self.value(tuple(parts.number(it) for it in self.sizes))
        if not self.fits(value):
            raise Wrong(RANGE)
        return value

    def pieces(self, value) -> List[bytes]:
        return [number.to_bytes(size, "big") for number, size in zip(self.numbers(value), self.sizes)]

    def words(self, value) -> List[str]:
        return [self.text(value)]

    def parsed(self, words: Words):
        word = words.take()
        value = self.parse(word) if self.pattern.fullmatch(word) else None
        if value is None or not self.fits(value):
            raise NoFrame(f"{word!r} is no {self.what}")
        return value


def is_u32(value: int) -> bool:
    return value < 2**32


def is_block(value: int) -> bool:
    return value <= BLOCK.most


def number_field(what: str) -> Field:
    return Field(what, (4,), is_u32, NUMBER)


def name_field(what: str) -> Field:
    def parse(word: str) -> Name:
        return Name(*map(int, word.split(".")))

    return Field(what, (1, 4, 4), lambda it: it.server <= 7 and max(it) < 2**32, PARTS["T"].pattern, lambda it: Name(*it), tuple, str, parse)


def unit_of_numbers(numbers: Tuple[int, int]) -> Unit:
    return Unit(numbers[0], -1 if numbers[1] == FILE_ITSELF else numbers[1])


def unit_of_word(word: str) -> Unit:
    return Unit(*map(int, word.split("/")))


CLIENT = Field("client", (1,), lambda it: 1 <= it <= 8, "c[1-8]", text=lambda it: f"c{it}", parse=lambda it: int(it[1:]))
SERVER = Field("server", (1,), lambda it: it <= 7, "s[0-7]", text=lambda it: f"s{it}", parse=lambda it: int(it[1:]))
REQUEST, OPERATION, FILE, EPOCH, COUNT = map(number_field, ("request", "operation's number", "file", "epoch", "count"))
TRANSACTION, WORK = map(name_field, ("transaction", "work"))
PLACE = Field("block", (2,), is_block, NUMBER)
UNIT = Field(
    "unit", (4, 2), lambda it: is_u32(it.file) and is_block(it.block), PARTS["UNIT"].pattern, unit_of_numbers,
    lambda it: (it.file, FILE_ITSELF if it.block < 0 else it.block), str, unit_of_word,
)
RESOURCE = Field("resource", (1,), lambda it: it in RESOURCES, NUMBER)


class Content:
    """The bytes of a block. Their words are as in a report, without the zeros at the end."""

    def read(self, reader: Reader) -> bytes:
        return reader.take(BLOCK_BYTES)

    def pieces(self, value: bytes) -> List[bytes]:
        return [value]

    def words(self, value: bytes) -> List[str]:
        return [value.rstrip(b"\0").hex() or "-"]

    def parsed(self, words: Words) -> bytes:
        word = words.take()
        if not re.fullmatch(PARTS["HEX"].pattern, word):
            raise NoFrame(f"{word[:20]!r} isn't the bytes of a block")
        return (b"" if word == "-" else bytes.fromhex(word)).ljust(BLOCK_BYTES, b"\0")


class Works:
    """At most 8 works behind their count. They stand last in a frame."""

    def read(self, reader: Reader) -> tuple:
        count = reader.number(1)
        if count > MOST_WORKS:
            raise Wrong(RANGE)
        return tuple(WORK.read(reader) for _ in range(count))

    def pieces(self, value: tuple) -> List[bytes]:
        return [bytes([len(value)])] + [piece for it in value for piece in WORK.pieces(it)]

    def words(self, value: tuple) -> List[str]:
        return [str(it) for it in value]

    def parsed(self, words: Words) -> tuple:
        works = []
        while words.words:
            works.append(WORK.parsed(words))
        if len(works) > MOST_WORKS:
            raise NoFrame(f"there are at most {MOST_WORKS} works")
        return tuple(works)


class Choice:
    """A code with what stands behind it. Its value is the code's words, and then the values of its fields."""

    def __init__(self, *rows):
        self.by_code: Dict[int, Tuple[str, tuple]] = {code: (head, fields) for code, head, *fields in rows}
        # The longest words first, since `refused 11` may stand in the place of a name.
        self.rows = sorted(((head, code, fields) for code, head, *fields in rows), key=lambda it: -len(it[0].split()))

    def row(self, head: str):
        return next((code, fields) for it, code, fields in self.rows if it == head)

    def read(self, reader: Reader) -> tuple:
        code = reader.number(1)
        if code not in self.by_code:
            raise Wrong(RANGE)
        head, fields = self.by_code[code]
        return (head, *(it.read(reader) for it in fields))

    def pieces(self, value: tuple) -> List[bytes]:
        code, fields = self.row(value[0])
        return [bytes([code])] + [piece for field, it in zip(fields, value[1:]) for piece in field.pieces(it)]

    def words(self, value: tuple) -> List[str]:
        _, fields = self.row(value[0])
        words = value[0].split()
        for field, it in zip(fields, value[1:]):
            words += (["by"] if isinstance(field, By) else []) + field.words(it)
        return words

    def parsed(self, words: Words) -> tuple:
        for head, _, fields in self.rows:
            if words.take_all(head.split()):
                return (head, *(it.parsed(words) for it in fields))
        raise NoFrame(f"{words.next()!r} can't stand here" if words.next() else "a word is missing")


class By:
    """The transaction that holds or broke a unit, which the word `by` precedes."""

    def read(self, reader: Reader) -> Name:
        return TRANSACTION.read(reader)

    def pieces(self, value: Name) -> List[bytes]:
        return TRANSACTION.pieces(value)

    def words(self, value: Name) -> List[str]:
        return TRANSACTION.words(value)

    def parsed(self, words: Words) -> Name:
        if not words.take_all(["by"]):
            raise NoFrame("the word `by` is missing")
        return TRANSACTION.parsed(words)


HELD = (UNIT, By())
OP = Choice(
    (1, "create", FILE), (2, "remove", FILE), (3, "cut", FILE, PLACE), (4, "read", FILE, PLACE), (5, "write", FILE, PLACE, Content()),
)
VOTE = Choice(
    (0, "ready"), (1, "waiting", *HELD), (2, "broken", *HELD), (3, "lost", EPOCH, EPOCH), (4, "full", RESOURCE, COUNT, COUNT),
)
ANSWER = Choice(
    (0, "did"), (1, "read", Content()), *((it, f"refused {it}") for it in (11, 12, 14, 15, 18)), *((it, f"refused {it}", *HELD) for it in (13, 16)),
    (17, "refused 17", EPOCH, EPOCH),
)
OUTCOME = Choice(
    (0, "committed"), (1, "aborted requested"), (2, "aborted broken", SERVER, *HELD), (3, "aborted lost", SERVER),
    (4, "aborted full", SERVER, RESOURCE, COUNT, COUNT), (5, "waiting", SERVER, *HELD), (6, "unknown", SERVER, EPOCH),
)
BEGUN = Choice((0, "", TRANSACTION), (21, "refused 21"))
OPENED = Choice((0, "", WORK), (22, "refused 22"))

# The fields of each kind of a frame, whose place in this list and 1 is the kind's number.
KINDS = (
    ("begin", (CLIENT, REQUEST)),
    ("open", (CLIENT, REQUEST, TRANSACTION)),
    ("op", (CLIENT, REQUEST, WORK, OPERATION, OP)),
    ("end", (CLIENT, REQUEST, TRANSACTION, Works())),
    ("abort", (CLIENT, REQUEST, TRANSACTION, Works())),
    ("thanks", (CLIENT, TRANSACTION)),
    ("begun", (CLIENT, REQUEST, BEGUN)),
    ("opened", (CLIENT, REQUEST, TRANSACTION, OPENED)),
    ("answer", (CLIENT, REQUEST, ANSWER)),
    ("outcome", (CLIENT, TRANSACTION, OUTCOME)),
    ("prepare", (TRANSACTION, CLIENT, WORK)),
    ("commit", (TRANSACTION, WORK)),
    ("drop", (TRANSACTION, WORK)),
    ("vote", (TRANSACTION, WORK, VOTE)),
    ("done", (TRANSACTION, WORK)),
    ("inquire", (TRANSACTION, WORK)),
    ("nudge", ()),
    ("timeout", (TRANSACTION,)),
)
NUMBERS = {kind: number for number, (kind, _) in enumerate(KINDS, 1)}
FIELDS = dict(KINDS)
OF_CLIENTS, TO_CLIENTS, OF_SERVERS = range(1, 7), range(7, 11), range(11, 17)
PARTY_WORD = re.compile(PARTS["A"].pattern)


# ---- bytes

def party_of(data: bytes) -> Optional[str]:
    """Returns the party that two bytes name, where it exists."""
    kind, number = data
    if kind == 1 and 1 <= number <= 8:
        return f"c{number}"
    return f"s{number}" if kind == 2 and number <= 7 else None


def party_bytes(party: str) -> bytes:
    return bytes([1 if party[0] == "c" else 2, int(party[1:])])


def may_pass(kind: int, sender: Optional[str], receiver: Optional[str], server: Optional[int]) -> bool:
    """Tells whether a message of this kind may go from this party to that one: to this server, or to anyone where none is given."""
    if sender is None or receiver is None or server is not None and receiver != f"s{server}":
        return False
    if kind in TO_CLIENTS:
        return sender[0] == "s" and receiver[0] == "c"
    return receiver[0] == "s" and (kind not in OF_CLIENTS or sender[0] == "c") and (kind not in OF_SERVERS or sender[0] == "s")


def decode(body: bytes, server: Optional[int] = None) -> Frame:
    """Returns the frame whose bytes behind its length these are, as this server reads it.

    Without a server messages to any server are read, and those to clients too.
    """
    if len(body) < 5:
        raise Wrong(LENGTH)
    number = body[4]
    if not 1 <= number <= len(KINDS) or server is not None and number in TO_CLIENTS:
        raise Wrong(UNKNOWN_KIND)
    sender, receiver = party_of(body[:2]), party_of(body[2:4])
    if not may_pass(number, sender, receiver, server):
        raise Wrong(PARTY)
    kind, fields = KINDS[number - 1]
    reader, values = Reader(body[5:]), []
    for field in fields:
        values.append(field.read(reader))
        if field is CLIENT and number in OF_CLIENTS and f"c{values[-1]}" != sender:
            raise Wrong(RANGE)
    if reader.at < len(reader.data):
        raise Wrong(LENGTH)
    return Frame(sender, receiver, kind, tuple(values))


def pieces_of(frame: Frame) -> List[bytes]:
    """Returns the bytes of a frame, piece by piece: its length, its parties, its kind, and each number in its fields."""
    pieces = [party_bytes(frame.sender), party_bytes(frame.receiver), bytes([NUMBERS[frame.kind]])]
    for field, value in zip(FIELDS[frame.kind], frame.fields):
        pieces += field.pieces(value)
    return [sum(map(len, pieces)).to_bytes(2, "big")] + pieces


def encode(frame: Frame) -> bytes:
    return b"".join(pieces_of(frame))


class Stream:
    """Reads a stream of frames in pieces, as this server reads it, or as `decode` does without one."""

    def __init__(self, server: Optional[int] = None):
        self.server = server
        self.at = 0
        self.held = b""
        self.fault: Optional[StreamFault] = None

    def feed(self, piece: bytes) -> List[Frame]:
        """Returns the frames whose last bytes are in the next piece. Behind a fault nothing is read."""
        frames, data, start = [], self.held + piece, 0
        while self.fault is None and len(data) - start >= 2:
            end = start + 2 + int.from_bytes(data[start : start + 2], "big")
            if end > len(data):
                break
            try:
                frames.append(decode(data[start + 2 : end], self.server))
            except Wrong as wrong:
                self.fault = StreamFault(self.at, wrong.number)
                break
            self.at += end - start
            start = end
        self.held = data[start:]
        return frames

    def end(self) -> Optional[StreamFault]:
        """Returns the fault of the stream that ends here, if it has one."""
        if self.fault is None and self.held:
            self.fault = StreamFault(self.at, CUT)
        return self.fault


# ---- words

def implied_client(kind: str, sender: str, receiver: str) -> Optional[int]:
    """Returns the client whom a message's parties name already."""
    number = NUMBERS[kind]
    party = sender if number in OF_CLIENTS else receiver if number in TO_CLIENTS else ""
    return int(party[1:]) if party.startswith("c") else None


def words_of(frame: Frame) -> List[str]:
    """Returns the words of a frame's fields."""
    words, implied = [], implied_client(frame.kind, frame.sender, frame.receiver)
    for field, value in zip(FIELDS[frame.kind], frame.fields):
        if field is not CLIENT or value != implied:
            words += field.words(value)
    return words


def frame_of(line: str) -> Frame:
    """Returns the frame that a line tells. Whether it may be sent isn't asked."""
    first, *words = line.split()
    sender, arrow, receiver = first.partition(">")
    if not arrow or not PARTY_WORD.fullmatch(sender) or not PARTY_WORD.fullmatch(receiver):
        raise NoFrame(f"{first!r} doesn't say who sends to whom, as `c1>s0` does")
    rest = Words(words)
    kind = rest.take()
    if kind not in FIELDS:
        raise NoFrame(f"no message is called {kind!r}")
    values, implied = [], implied_client(kind, sender, receiver)
    for field in FIELDS[kind]:
        is_left_out = field is CLIENT and implied is not None and not CLIENT.pattern.fullmatch(rest.next())
        values.append(implied if is_left_out else field.parsed(rest))
    if rest.words:
        raise NoFrame(f"{rest.next()!r} is left over")
    return Frame(sender, receiver, kind, tuple(values))
