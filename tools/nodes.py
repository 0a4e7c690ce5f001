"""Processes of `juniper node`: each serves one image over its standard input and output."""

import os
import select
import subprocess
from typing import List, Optional

from forms import MOST_BYTES
from wire import Frame, Name, Stream, encode

LAST = 2**32 - 1
# A node that is silent for so long is ended.
SECONDS = 600


def echo_of(server: int) -> Frame:
    """Returns a message that a server answers at once: another one asks for the outcome of a transaction that can't be."""
    other = (server + 1) % 8
    return Frame(f"s{other}", f"s{server}", "inquire", (Name(server, LAST, LAST), Name(other, LAST, LAST)))


def reply_to(echo: Frame) -> Frame:
    return Frame(echo.receiver, echo.sender, "drop", echo.fields)


class Node:
    """A process that serves the image of one server, and what it saves under the name `closing`.

    Behind each frame it is given an echo. Once the answer to that is read, the frame has been done, and all its answers have been read.
    """

    def __init__(self, program: str, server: int, opening: str, closing: str):
        self.program, self.server = program, server
        self.name = f"s{server}"
        self.echo = echo_of(server)
        self.names = (closing, closing + ".other")
        self.start(opening, closing)

    def start(self, opening: str, closing: str) -> None:
        self.closing = closing
        words = ["juniper", "node", str(self.server), "--in", opening, "--out", closing]
        self.child = subprocess.Popen(words, executable=self.program, stdin=subprocess.PIPE, stdout=subprocess.PIPE, bufsize=0)
        self.stream = Stream()
        self.given = 0
        self.status: Optional[int] = None

    @property
    def is_up(self) -> bool:
        return self.status is None

    def take(self, frame: Optional[Frame] = None) -> List[Frame]:
        """Gives a frame to the node, and returns its answers. One that ends, as it would of too many bytes, is down from then on."""
        data = (encode(frame) if frame else b"") + encode(self.echo)
        self.given += len(data)
        if self.given > MOST_BYTES:
            self.close()
            return []
        try:
            self.child.stdin.write(data)
        except BrokenPipeError:
            pass
        return self.answers()

    def answers(self) -> List[Frame]:
        """Reads the frames in front of the answer to the echo."""
        found: List[Frame] = []
        reply = reply_to(self.echo)
        while reply not in found:
            ready, _, _ = select.select([self.child.stdout], [], [], SECONDS)
            piece = os.read(self.child.stdout.fileno(), 65_536) if ready else b""
            found += self.stream.feed(piece)
            if not piece or self.stream.fault:
                self.close()
                return found
        return found[: found.index(reply)]

    def close(self) -> None:
        """Ends the node's input, and waits for its end. Without status 0 it saved nothing."""
        if self.is_up:
            try:
                rest, _ = self.child.communicate(timeout=SECONDS)
            except subprocess.TimeoutExpired:
                self.child.kill()
                rest, _ = self.child.communicate()
            self.stream.feed(rest)
            self.status = self.child.returncode

    def renew(self) -> None:
        """Ends the node, and begins it anew with the image that it saved, since it takes so many bytes alone."""
        self.close()
        if self.status == 0:
            self.start(self.closing, self.names[1 - self.names.index(self.closing)])

    def leave(self) -> None:
        """Leaves the image that the node saved last under its first name."""
        first, other = (f"{it}.{self.server}" for it in self.names)
        if self.closing == self.names[1] and self.status == 0:
            os.replace(other, first)
        elif os.path.exists(other):
            os.remove(other)

    def end_words(self) -> str:
        """Says what the node wrote that is no answer, as why it refused its image."""
        said = self.stream.held.decode("utf-8", "backslashreplace").strip()
        return str(self.stream.fault or said)
