"""Loads of bench/whole-file, bench/frames and bench/node: schedules as lists of lines, and frames of which clients and servers send a stream to server 0."""

import os
import sys
from itertools import count, zip_longest

sys.path.insert(0, os.path.join(os.path.dirname(os.path.dirname(os.path.realpath(__file__))), "tools"))
from forms import MOST_BYTES
from wire import BLOCK_BYTES, Frame, Name, Unit, encode

BLOCKS, INTENTIONS = 2520, 24

# To clear 2,048 bytes and more the C library takes one instruction that repeats, which callgrind counts once for each byte. So it isn't let.
COUNTED = {"GLIBC_TUNABLES": "glibc.cpu.x86_rep_stosb_threshold=1073741824"}


def transaction(commands):
    """Returns a transaction of the first client, each command of which is followed by a settle."""
    return [line for it in ("begin 0", "open 0", *commands, "end") for line in (f"c1 {it}", "settle")]


def transactions(commands, most=INTENTIONS):
    """Returns transactions of so many commands each, the last with those that are left."""
    return [line for at in range(0, len(commands), most) for line in transaction(commands[at : at + most])]


def file_of(blocks, size, file=7, times=1):
    """Returns what makes a file of so many blocks, each of so many bytes, all of which are written so many times."""
    puts = [f"write 0 {file} {it} {f'{1 + it % 255:02x}' * size}" for it in range(blocks)]
    return transactions([f"create 0 {file}", *puts * times])


def drawing(seed):
    """Returns what draws a number below the one that it is given, and what draws up to so many bytes that aren't zero, as hex."""

    def draw(bound):
        nonlocal seed
        seed = (seed * 6364136223846793005 + 1442695040888963407) % 2**64
        return (seed >> 33) % bound

    return draw, lambda most: bytes(1 + draw(255) for _ in range(1 + draw(most))).hex()


def one_client(events):
    """Returns so many events of the load of bench/one-client."""
    out = []
    for k in range(events // 16 + 1):
        file = k % 8
        commands = [f"create 0 {file}" if k < 8 else f"read 0 {file} {k * 5 % 8}"]
        for i in range(4):
            data = bytes(1 + (k * 31 + i * 17 + b * 13) % 255 for b in range(1 + (k * 7 + i * 11) % 24))
            commands.append(f"write 0 {file} {(k + i * 3) % 8} {data.hex()}")
        out += transaction(commands)
    return out[:events]


def commands_of(draw, draw_hex):
    """Returns the commands of a transaction at one to three servers, with three to eight operations on three files of eight blocks."""
    servers = [draw(3)]
    servers += [it for it in range(3) if it not in servers and draw(3) == 0]
    out = [f"begin {draw(3)}", *(f"open {it}" for it in servers)]
    for _ in range(3 + draw(6)):
        place = f"{servers[draw(len(servers))]} {draw(3)}"
        block, kind = draw(8), draw(20)
        if kind < 2:
            out.append(f"create {place}")
        elif kind < 10:
            out.append(f"read {place} {block}")
        elif kind < 18:
            out.append(f"write {place} {block} {draw_hex(16)}")
        else:
            out.append(f"cut {place} {block}" if kind < 19 else f"remove {place}")
    return [*out, "end"]


def three_servers(events):
    """Returns so many events of eight clients at three servers, with faults, stops, crashes and restarts.

    In each round every client gives its next command, and all settle. In each fourth one, clients that begin a transaction abort the one before.
    """
    draw, draw_hex = drawing(99)
    waiting, out, rounds = {client: [] for client in range(1, 9)}, [], 0
    while len(out) < events:
        rounds += 1
        for client, commands in waiting.items():
            if not commands:
                commands += commands_of(draw, draw_hex)
                if rounds % 4 == 0:
                    out.append(f"c{client} abort")
            out.append(f"c{client} {commands.pop(0)}")
        out.append("settle")
        if draw(50) == 0:
            server, kind = draw(3), draw(6)
            stop = f"arm {server} {1 + draw(60)} {('stop-before', 'stop-torn', 'stop-after')[draw(3)]}"
            fault = f"arm {server} {1 + draw(60)} {('soft', 'null', 'bad')[draw(3)]}"
            out.append([stop, fault, f"decay {server} {draw(354)}", f"crash {server}", f"scrub {server}", f"show {server}"][kind])
        if rounds % 20 == 0:
            out += [f"restart {it}" for it in range(3)]
    return out[:events]


def whole_file(rounds):
    """Returns rounds over a file of all its blocks. In each the file is written, shown, read back by a restart and shown again. Then it is cut in 23 steps,
    with a show behind each eighth, and the server starts again.
    """
    _, draw_hex = drawing(BLOCKS)
    out = []

    def put(first, last):
        return [f"write 0 7 {it} {draw_hex(24)}" for it in range(first, last)]

    out += transaction(["create 0 7", *put(0, INTENTIONS - 1)])
    for _ in range(rounds):
        out += transactions(put(0, BLOCKS))
        out += ["show 0", "crash 0", "restart 0", "show 0"]
        for step, length in enumerate(range(BLOCKS - 105, 0, -105), 1):
            out += transaction([f"cut 0 7 {length}"])
            out += ["show 0"] * (step % 8 == 0)
        out += ["crash 0", "restart 0"]
    return out


def many_files(files):
    """Returns what makes so many files of one block at a server, writes eight blocks of each fifth, and starts the server again."""
    out = transactions([it for file in range(files) for it in (f"create 0 {file}", f"write 0 {file} 0 {file:04x}")])
    for file in range(0, files, 5):
        out += transaction([f"write 0 {file} {it} {it + 1:02x}" for it in range(8)])
    return [*out, "show 0", "crash 0", "restart 0", "scrub 0", "show 0"]


# ---- sessions, which are a schedule or frames

CLIENTS = 8


def session(client, transactions):
    """Gives the commands of a client that does so many transactions, each of 1 to 24 writes to 12 blocks of a file of its own."""
    draw, _ = drawing(client)
    for number in range(transactions):
        yield from ("begin 0", "open 0", *[f"create 0 {client}"] * (number == 0))
        for _ in range(1 + draw(INTENTIONS)):
            yield f"write 0 {client} {draw(12)} {1 + draw(255):02x}"
        yield "end"


def turns(transactions):
    """Gives turns of eight clients that do so many transactions each: a command of each client that has one, behind its number."""
    for turn in zip_longest(*(session(it, transactions) for it in range(1, CLIENTS + 1))):
        yield [(client, command) for client, command in enumerate(turn, 1) if command]


def lines_of(turns):
    """Returns such turns as events. All is settled behind each turn, and behind each end, so that the next one finds records and pages."""
    out = []
    for turn in turns:
        for client, command in turn:
            out += [f"c{client} {command}"] + ["settle"] * (command == "end")
        out.append("settle")
    return out


class Sender:
    """A client that knows beforehand what server 0 answers."""

    def __init__(self, client):
        self.client = client
        self.request = self.last = 0
        self.tid = self.work = None

    def frame(self, kind, *fields):
        return Frame(f"c{self.client}", "s0", kind, (self.client, *fields))

    def frames(self, command, names):
        """Returns the frames of a command. Names of transactions and of works are given in the order in which they are asked for."""
        kind, *words = command.split()
        self.request += 1
        if kind == "begin":
            self.tid = next(names)
            return [self.frame("begin", self.request)]
        if kind == "open":
            self.work, self.last = next(names), 0
            return [self.frame("open", self.request, self.tid)]
        if kind == "end":
            return [self.frame("end", self.request, self.tid, (self.work,)), self.frame("thanks", self.tid)]
        self.last += 1
        _, file, *block = words
        data = (int(block[0]), bytes.fromhex(block[1]).ljust(BLOCK_BYTES, b"\0")) if kind == "write" else ()
        return [self.frame("op", self.request, self.work, self.last, (kind, int(file), *data))]


def frames_of(turns, epoch):
    """Gives such turns as frames to server 0, which is in this epoch and has given no name. An outcome is thanked for at once."""
    names, senders = (Name(0, epoch, it) for it in count()), [Sender(it) for it in range(CLIENTS + 1)]
    for turn in turns:
        for client, command in turn:
            yield from senders[client].frames(command, names)


# ---- frames

def stream_of(frames):
    """Returns as many bytes of frames as a stream may have."""
    out, size = [], 0
    for it in frames:
        data = encode(it)
        size += len(data)
        if size > MOST_BYTES:
            break
        out.append(data)
    return b"".join(out)


def any_frames():
    """Gives frames of each kind to server 0, in turn, that bring no block."""
    draw, _ = drawing(15)

    def name():
        return Name(draw(8), draw(9), draw(2**16))

    while True:
        client, request, server = 1 + draw(8), draw(2**20), f"s{draw(8)}"
        for op in (("create", draw(99)), ("remove", draw(99)), ("cut", draw(99), draw(BLOCKS)), ("read", draw(99), draw(BLOCKS))):
            yield Frame(f"c{client}", "s0", "op", (client, request, name(), draw(99), op))
        yield Frame(f"c{client}", "s0", "begin", (client, request))
        yield Frame(f"c{client}", "s0", "open", (client, request, name()))
        for kind in ("end", "abort"):
            yield Frame(f"c{client}", "s0", kind, (client, request, name(), tuple(name() for _ in range(draw(3)))))
        yield Frame(f"c{client}", "s0", "thanks", (client, name()))
        yield Frame(server, "s0", "prepare", (name(), client, name()))
        for kind in ("commit", "drop", "done", "inquire"):
            yield Frame(server, "s0", kind, (name(), name()))
        for vote in (("ready",), ("waiting", Unit(draw(99)), name()), ("broken", Unit(draw(99), draw(BLOCKS)), name()), ("lost", 2, 3), ("full", 31, 0, 1)):
            yield Frame(server, "s0", "vote", (name(), name(), vote))
        yield Frame(server, "s0", "nudge")
        yield Frame(server, "s0", "timeout", (name(),))


def writing_frames():
    """Gives frames to server 0, three of four of which bring a block."""
    draw, _ = drawing(16)
    frames = any_frames()
    while True:
        yield next(frames)
        for _ in range(3):
            client = 1 + draw(8)
            op = ("write", draw(99), draw(BLOCKS), bytes([1 + draw(255)]) * BLOCK_BYTES)
            yield Frame(f"c{client}", "s0", "op", (client, draw(2**20), Name(0, 3, draw(99)), draw(99), op))
