"""The forms of lines of a report and of events of a schedule, and the words for their parts.

docs/REPORT.md and docs/SCHEDULE.md describe the same forms; `tools/test_report` compares them. `FORMS` has one row for each form of a
line, and `COMMANDS` and `OTHERS` one for each form of an event. A new form is one more row. The statuses are those of bin/words.txt.
"""

import os
import re
from typing import Dict, List, NamedTuple, Optional, Tuple

TOP = os.path.dirname(os.path.dirname(os.path.realpath(__file__)))

# No number of a report or a schedule has more than 20 digits.
NUMBER = r"(?:0|[1-9][0-9]{0,19})"
TRANSACTION = rf"[0-7]\.{NUMBER}\.{NUMBER}"
UNIT = rf"{NUMBER}(?:/{NUMBER})?"

# What each message asks for or tells.
MESSAGES = {
    "begin": "asks for a new transaction",
    "open": "asks to open the server in the transaction",
    "op": "asks for an operation",
    "end": "asks to commit the transaction",
    "abort": "asks to abort the transaction",
    "thanks": "says that the outcome has arrived",
    "begun": "answers `begin`",
    "opened": "answers `open`",
    "answer": "answers `op`",
    "outcome": "tells the outcome of the transaction, or what it waits for",
    "prepare": "asks the server to prepare its part of the transaction",
    "vote": "tells whether the server prepared its part",
    "commit": "tells the server to carry out its part",
    "drop": "tells the server to drop its part",
    "done": "says that the server has carried out its part",
    "inquire": "asks the coordinator what became of the transaction",
}

# What each fault of a device does. The test compares its words with docs/SCHEDULE.md.
FAULTS = {
    "soft": "one read finds a good page bad",
    "null": "one write changes nothing",
    "bad": "one write leaves its page bad",
    "decay": "a page goes bad",
    "revive": "a bad page is good again, with the bytes that it kept",
    "stop-before": "the server stops before the call takes effect",
    "stop-torn": "the server stops within a write, which leaves the page bad",
    "stop-after": "the server stops after the call took effect",
}

# What happens in place of a fault that wasn't allowed.
IN_PLACE_OF = {
    "soft": "the call was done without a fault",
    "null": "the call was done without a fault",
    "bad": "the call was done without a fault",
    "decay": "the page stays good",
    "stop-torn": "the page isn't torn, and the server stops before the call",
}


class Part(NamedTuple):
    """A part of a form: the pattern of its text, and whether it is a number."""

    pattern: str
    is_number: bool = False


# The parts of forms, named as in docs/REPORT.md.
PARTS = {
    "cN": Part("c[1-8]"),
    "sS": Part("s[0-7]"),
    "A": Part("c[1-8]|s[0-7]"),
    "B": Part("c[1-8]|s[0-7]"),
    "T": Part(TRANSACTION),
    "UNIT": Part(UNIT),
    "HEX": Part("(?:-|(?:[0-9a-f]{2}){1,448})"),
    "FAULT": Part("|".join(FAULTS)),
    "WORD": Part("|".join(MESSAGES)),
    "CAUSE": Part(".+"),
}
for _name in ("J", "K", "E", "F", "P", "N", "NUMBER", "THEN", "NOW", "FREE", "NEED"):
    PARTS[_name] = Part(NUMBER, True)


class Form:
    """A form of text: its kind, its text with parts in capitals, and a field's name for each part."""

    def __init__(self, kind: str, text: str, names: str = ""):
        self.kind = kind
        self.text = text
        self.names = names.split()
        pieces = re.split(r"([ >])", text)
        self.parts = [it for it in pieces if it in PARTS]
        if len(self.parts) != len(self.names):
            raise ValueError(f"the form {text} needs {len(self.parts)} names of fields")
        self.pattern = re.compile("".join(f"({PARTS[it].pattern})" if it in PARTS else re.escape(it) for it in pieces))

    def key(self) -> str:
        """Returns the word by which lines of this form are told apart: the first that isn't a client or a server."""
        return next(it for it in self.text.split(" ") if it not in ("cN", "sS"))

    def read(self, text: str) -> Optional[dict]:
        """Returns the fields of a text of this form, or None where it has another form."""
        found = self.pattern.fullmatch(text)
        if found is None:
            return None
        fields = {}
        for part, name, value in zip(self.parts, self.names, found.groups()):
            if part == "CAUSE":
                value = read_cause(value)
                if value is None:
                    return None
            fields[name] = int(value) if PARTS[part].is_number else value
        return fields


# The forms of a line's text. A form whose text only adds parts to another one's has the same kind.
FORMS = (
    Form("begun", "cN begun J T", "client command transaction"),
    Form("opened", "cN opened J sS", "client command server"),
    Form("did", "cN did J", "client command"),
    Form("read", "cN read J HEX", "client command hex"),
    Form("refused", "cN refused J NUMBER", "client command number"),
    Form("refused", "cN refused J NUMBER UNIT by T", "client command number unit by"),
    Form("refused", "cN refused J NUMBER THEN NOW", "client command number then now"),
    Form("waiting", "cN waiting J sS UNIT by T", "client command server unit by"),
    Form("committed", "cN committed J T", "client command transaction"),
    Form("aborted", "cN aborted J T CAUSE", "client command transaction cause"),
    Form("up", "up sS epoch E", "server epoch"),
    Form("down", "down sS", "server"),
    Form("stopped", "stopped sS", "server"),
    Form("commit", "commit T", "transaction"),
    Form("broke", "broke sS T UNIT by T", "server transaction unit by"),
    Form("ignored", "ignored K", "number"),
    Form("lost", "lost K", "number"),
    Form("outside", "outside sS FAULT P", "server fault page"),
    Form("event-refused", "refused NUMBER", "number"),
    Form("file", "sS file F", "server file"),
    Form("page", "sS page F P HEX", "server file block hex"),
    Form("locked", "sS locked UNIT by T", "server unit by"),
    Form("message", "msg K A>B WORD", "number sender receiver word"),
    Form("commits", "commits N", "number"),
)
CAUSES = (
    Form("requested", "requested"),
    Form("broken", "broken sS UNIT by T", "server unit by"),
    Form("lost", "lost sS", "server"),
    Form("full", "full sS NUMBER FREE NEED", "server number free need"),
)
WHOLE_REFUSALS = (
    Form("words", "refused: words"),
    Form("schedule", "refused: schedule line N number NUMBER", "line number"),
    Form("image-missing", "refused: image N missing", "server"),
    Form("image-bad", "refused: image N bad NUMBER", "server number"),
    Form("image-unsound", "refused: image N unsound NUMBER", "server number"),
    Form("image-unsound", "refused: image N unsound NUMBER P", "server number argument"),
)
TRIAL = re.compile(
    rf"trial (?P<seed>{NUMBER}) (?P<events>{NUMBER}) commits (?P<commits>{NUMBER}) aborted (?P<aborted>{NUMBER}) "
    rf"refused (?P<refused>{NUMBER}) stopped (?P<stopped>{NUMBER}) outside (?P<outside>{NUMBER}) sha256 (?P<sha256>[0-9a-f]{{64}})"
)


def read_by(forms, text: str) -> Optional[Tuple[str, dict]]:
    """Returns the kind and the fields of a text that has one of these forms."""
    for form in forms:
        fields = form.read(text)
        if fields is not None:
            return form.kind, fields
    return None


def read_cause(text: str) -> Optional[dict]:
    """Returns the cause of an abort, whose `word` says which one it is."""
    found = read_by(CAUSES, text)
    return {"word": found[0], **found[1]} if found else None


def forms_by_key() -> Dict[str, List[Form]]:
    found: Dict[str, List[Form]] = {}
    for form in FORMS:
        found.setdefault(form.key(), []).append(form)
    return found


FORMS_BY_KEY = forms_by_key()


# Why a command is refused: in general, and with the fields of the line and of its event where these are known.
REFUSALS = {
    1: ("the client still has an outstanding command", ""),
    2: ("the client has no transaction", ""),
    3: ("the client already has a transaction", ""),
    4: ("the server isn't open in the transaction", "{server} isn't open in the transaction"),
    5: ("the server is already open in the transaction", "{server} is already open in the transaction"),
    6: ("there is no such server", "there is no server {server}"),
    11: ("the file isn't there", "file {file} isn't there"),
    12: ("the file is already there", "file {file} is already there"),
    13: ("another transaction holds the unit", "{unit} is locked by {by}"),
    14: ("the transaction's part at the server would have a 41st read unit", ""),
    15: ("the transaction's part at the server would have a 25th intention", ""),
    16: (
        "the transaction's part at the server was broken by another transaction",
        "the transaction's part at the server was broken at {unit} by {by}",
    ),
    17: (
        "the transaction's part at the server is gone",
        "the transaction's part at the server is gone: it was of epoch {then}, and the epoch is now {now}",
    ),
    18: ("the transaction's part at the server is prepared", ""),
    21: ("64 transactions are live at the server", ""),
    22: ("64 parts of transactions are live at the server", ""),
}
EVENT_REFUSALS = {
    6: "there is no such server",
    41: "the server is down",
    42: "the server is up",
    43: "no message has that number yet",
    44: "no live part of that transaction is at the server",
    45: "the server has used its last epoch",
    46: "16 faults wait there already, or one for that very call",
    47: "there is no such physical page",
}


def counted(count: int, what: str) -> str:
    """Returns a count with what it counts, as `1 event` or `2 events`."""
    return f"{count} {what}{'' if count == 1 else 's'}"


def words_but(wanted: str, count: int) -> str:
    """Says how many words are wanted, and how many are there."""
    return f"{wanted} word{'' if wanted == '1' else 's'}, and here {'is' if count == 1 else 'are'} {count}"


RESOURCES = {31: "records of the pool", 32: "data pages", 33: "heads of files"}


def rows_of(kind: str) -> List[List[str]]:
    """Returns the rows of bin/words.txt of a kind, each as the parts behind it."""
    with open(os.path.join(TOP, "bin", "words.txt"), encoding="utf-8") as file:
        rows = [it.rstrip("\n").split("|") for it in file]
    return [row[1:] for row in rows if row[0] == kind]


STATUSES = {int(row[0]): row[1] for row in rows_of("status")}


class Place(NamedTuple):
    """What a word of an event has to be: a number from `least` to `most`, a name or bytes."""

    field: str
    least: int = 0
    most: int = 0
    form: str = "number"


SERVER = Place("server", 0, 7)
FILE = Place("file", 0, 4_294_967_295)
BLOCK = Place("block", 0, 2519)
PAGE = Place("page", 0, 20_001)
BYTES = Place("hex", form="hex")
NAME = Place("transaction", form="transaction")

# What follows each word of a client, each kind of a fault, and each other word. `arm` has words of its own.
COMMANDS = {
    "begin": (SERVER,),
    "open": (SERVER,),
    "create": (SERVER, FILE),
    "remove": (SERVER, FILE),
    "cut": (SERVER, FILE, BLOCK),
    "read": (SERVER, FILE, BLOCK),
    "write": (SERVER, FILE, BLOCK, BYTES),
    "end": (),
    "abort": (),
    "again": (),
}
OTHERS = {
    "settle": (),
    "deliver": (Place("message", 0, 999_999),),
    "step": (SERVER,),
    "nudge": (SERVER,),
    "timeout": (SERVER, NAME),
    "scrub": (SERVER,),
    "decay": (SERVER, PAGE),
    "revive": (SERVER, PAGE),
    "crash": (SERVER,),
    "restart": (SERVER,),
    "show": (SERVER,),
}
CALL = Place("call", 1, 1_000_000)
KINDS = {it: (PAGE,) if it in ("decay", "revive") else () for it in FAULTS}

MOST_BYTES = 4_194_304
MOST_EVENTS = 100_000
MOST_HEX = 2 * 448
CLIENT = re.compile("c[1-8]")
