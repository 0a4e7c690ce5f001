"""Finds by the lines of a report which client waits for which."""

from typing import Dict, List, NamedTuple

from reading import Line, Report


class Wait(NamedTuple):
    """A client's `end` waits at a server for a unit that another transaction holds."""

    client: str
    server: str
    unit: str
    by: str


class Waits:
    """Who waits for whom, by the lines that were taken so far.

    A wait is as a `waiting` line tells it, until the client is answered or the other transaction ends.
    """

    def __init__(self, report: Report):
        self.clients = report.clients
        # The transaction in which each client is now.
        self.own: Dict[str, str] = {}
        self.now: List[Wait] = []

    def take(self, line: Line) -> None:
        """Goes on by a line."""
        fields = line.fields
        if line.kind == "waiting":
            self.now = [it for it in self.now if (it.client, it.server) != (fields["client"], fields["server"])]
            self.now.append(Wait(fields["client"], fields["server"], fields["unit"], fields["by"]))
        elif line.kind in ("committed", "aborted", "begun"):
            self.own[fields["client"]] = fields["transaction"] if line.kind == "begun" else ""
            self.now = [it for it in self.now if it.client != fields["client"] and it.by != fields["transaction"]]
        elif line.kind in ("commit", "broke"):
            self.now = [it for it in self.now if it.by != fields["transaction"]]

    def cycle(self) -> List[Wait]:
        """Returns waits that lead in a circle from client to client, or none."""
        for start in sorted({it.client for it in self.now}):
            found = self.path_back(start, start, [])
            if found:
                return found
        return []

    def path_back(self, client: str, start: str, path: List[Wait]) -> List[Wait]:
        for wait in (it for it in self.now if it.client == client):
            # A part that a client left behind in an earlier transaction waits for nobody.
            holder = self.clients.get(wait.by)
            if holder and self.own.get(holder) != wait.by:
                continue
            if holder == start:
                return path + [wait]
            if holder and holder not in [it.client for it in path + [wait]]:
                found = self.path_back(holder, start, path + [wait])
                if found:
                    return found
        return []
