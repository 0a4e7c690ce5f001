"""What the tests of the tools share: counting tries, running a tool, and the words and files that each tool has to refuse."""

import glob
import importlib.machinery
import importlib.util
import os
import re
import subprocess
import sys
from typing import Iterator, List, NamedTuple, Optional, Tuple

TOP = os.path.dirname(os.path.dirname(os.path.realpath(__file__)))
FOLDERS = ("examples", "examples/images", "rows")


class Tries:
    """Counts what holds, and keeps a line for what doesn't."""

    def __init__(self, name: str):
        self.name = name
        self.passed = 0
        self.failed: List[str] = []

    def require(self, holds: bool, what: str) -> None:
        if holds:
            self.passed += 1
        else:
            self.failed.append(what)

    def compare(self, what: str, found: object, wanted: object) -> None:
        self.require(found == wanted, f"{what}: {found!r:.300} in place of {wanted!r:.300}")

    def end(self) -> None:
        """Prints the faults and the counts, and ends the test."""
        for it in self.failed:
            print(f"{self.name}: {it}")
        print(f"{self.name}: {self.passed} passed, {len(self.failed)} failed")
        sys.exit(1 if self.failed else 0)


class Ended(NamedTuple):
    """How a tool ended: its status, and what it wrote and said."""

    status: int
    output: str
    said: str


def run_tool(name: str, *words: str, given: bytes = b"") -> Ended:
    """Runs a tool from `tools/` on these words and this standard input."""
    done = subprocess.run([os.path.join(TOP, "tools", name), *words], input=given, capture_output=True, check=False, cwd=TOP)
    return Ended(done.returncode, done.stdout.decode("utf-8", "replace"), done.stderr.decode("utf-8", "replace"))


def run_shown(text: str, program: str, room: str) -> Ended:
    """Runs lines that a page shows, with this program in place of bin/juniper, and with files of this folder in place of those in /tmp."""
    script = 'set -o pipefail\njuniper() { (exec -a juniper "$program" "$@"); }\n' + text.replace("bin/juniper", "juniper").replace("/tmp/", '"$room"/')
    given = {**os.environ, "program": program, "room": os.path.abspath(room)}
    done = subprocess.run(["bash", "-c", script], capture_output=True, check=False, cwd=TOP, env=given)
    return Ended(done.returncode, done.stdout.decode("utf-8", "replace"), done.stderr.decode("utf-8", "replace"))


def load_script(path: str):
    """Loads a script that has no ending as a module; the path is from the top."""
    loader = importlib.machinery.SourceFileLoader(os.path.basename(path), os.path.join(TOP, path))
    module = importlib.util.module_from_spec(importlib.util.spec_from_loader(loader.name, loader))
    loader.exec_module(module)
    return module


def read_bytes(path: str) -> bytes:
    with open(os.path.join(TOP, path), "rb") as file:
        return file.read()


def read_text(path: str) -> str:
    return read_bytes(path).decode("utf-8")


def write_bytes(path: str, data: bytes) -> str:
    """Writes a file, and returns its path."""
    with open(path, "wb") as file:
        file.write(data)
    return path


def examples() -> Iterator[Tuple[str, str]]:
    """Yields the paths of each report of the repository and of its schedule."""
    for folder in FOLDERS:
        for schedule in sorted(glob.glob(os.path.join(TOP, folder, "*.jn"))):
            yield schedule[:-len(".jn")] + ".report", schedule


def runs() -> Iterator[Tuple[str, str]]:
    """Yields the paths of each report of a run and of its schedule."""
    for report, schedule in examples():
        if not read_bytes(report).startswith(b"refused: "):
            yield report, schedule


def try_streams(tries: Tries, name: str, words: List[str], by_input: List[str]) -> None:
    """Requires that a tool says in one line that a stream is closed or full, and nothing where its reader goes away."""
    cases = {"a closed input": (by_input, "<&-"), "a closed output": (words, ">&-")}
    cases.update({"a full disk": (words, ">/dev/full"), "a reader that goes": (words, "| true")})
    for what, (given, stream) in cases.items():
        script = f'"$0" "$@" {stream}'
        done = subprocess.run(["sh", "-c", script, os.path.join(TOP, "tools", name), *given], capture_output=True, check=False, cwd=TOP)
        wanted = (0, 0) if stream == "| true" else (2, 1)
        tries.compare(f"{what}: {done.stderr!r:.200}", (done.returncode, done.stderr.count(b"\n")), wanted)


def try_words(tries: Tries, name: str, fewest: int, most: int) -> None:
    """Requires that a tool prints usage for `--help`, and refuses wrong words with one line, usage and 2."""
    helped = run_tool(name, "--help")
    tries.require(helped.status == 0 and helped.output.startswith("usage:") and not helped.said, f"--help: {helped}")
    report, schedule = next(runs())
    wrong = [["--unknown"], ["--hel"], ["-x"], [report, "--unknown"], [report] * (most + 1)]
    wrong += [[report] * count for count in range(fewest)]
    for words in wrong:
        ended = run_tool(name, *words)
        fits = ended.status == 2 and not ended.output and "usage:" in ended.said and "Traceback" not in ended.said
        tries.require(fits, f"words {words}: {ended}")


def try_refused_file(tries: Tries, name: str, what: str, *words: str, given: bytes = b"") -> Optional[str]:
    """Requires that a tool says in one line what is wrong with its files, and ends with 2; returns that line."""
    ended = run_tool(name, *words, given=given)
    fits = ended.status == 2 and not ended.output and ended.said.count("\n") == 1 and ended.said.startswith(name + ": ")
    tries.require(fits, f"{what}: {ended!r:.400}")
    return ended.said


def try_page(tries: Tries, name: str, count: int) -> None:
    """Requires that docs/LOOKING.md has so many commands of a tool with what they print, which is fenced below each."""
    section = read_text("docs/LOOKING.md").split(f"\n## tools/{name}\n", 1)[1].split("\n## ", 1)[0]
    shown = re.findall(r"^    tools/(\S+) (.*)$(?s:.*?)^```\n((?s:.*?))^```$", section, re.M)
    tries.compare(f"docs/LOOKING.md shows {name}", [it[0] for it in shown], [name] * count)
    for tool, words, output in shown:
        tries.require(output in run_tool(tool, *words.split()).output, f"docs/LOOKING.md: tools/{tool} {words} prints other lines")
