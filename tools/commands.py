"""What the tools share that take plain words: their help, counts of words, numbers, files, and the rows of bin/words.txt."""

import os
import re
import sys

from calling import run_tool
from files import Unusable, load_bytes
from forms import TOP, rows_of, words_but  # noqa: F401
from wording import visible


class Stop(Unusable):
    """Ends a tool with status 2, and says why in one line."""


def number(name, text, least, most):
    """Reads a number in decimal digits, without a sign or a leading zero."""
    if not re.fullmatch("0|[1-9][0-9]{0,19}", text) or not least <= int(text) <= most:
        raise Stop(f"{name} is a number from {least} to {most}, and not {text!r}")
    return int(text)


def load(path):
    """Returns the bytes of a file, or of standard input for `-`."""
    return load_bytes(path)


def save(path, data):
    with open(path, "wb") as file:
        file.write(data)


def split(words):
    """Returns the words before a `--`, and those behind it, or None where there is no `--`."""
    if "--" not in words:
        return words, None
    at = words.index("--")
    return words[:at], words[at + 1 :]


def usage_of(name, text):
    """Returns the line of a help text that says how a tool is called, and the rest of the text."""
    usage = next((it for it in text.splitlines() if it.startswith("Usage: ")), f"Usage: {name}")
    return "usage: " + usage.removeprefix("Usage: "), text.replace(usage + "\n\n", "").strip()


def fault_of(words, options, least, most, takes_options):
    """Returns what is wrong with a tool's words, or None."""
    unknown = [it for it in words if it.startswith("-") and it != "-"]
    if unknown:
        return f"there is no option {unknown[0]!r}"
    if options is not None and not takes_options:
        return "it takes no options of a run"
    if not least <= len(words) <= most:
        wanted = str(least) if least == most else f"{least} to {most}" if most < 1_000 else f"{least} or more"
        return f"it takes {words_but(wanted, len(words))}"
    return None


def call(name, text, work, least, most, takes_options=False):
    """Calls a tool with the words of the command line, and ends with its status.

    The text is its help, in which a line begins with `Usage: `. The words behind `--` are options of a run.
    """
    usage, rest = usage_of(name, text)

    def main(words):
        words, options = split(words)
        if "--help" in words or "-h" in words:
            print(f"{usage}\n\n{rest}" if rest else usage)
            return 0
        fault = fault_of(words, options, least, most, takes_options)
        if fault:
            print(f"{name}: {visible(fault)}\n{usage}", file=sys.stderr)
            return 2
        try:
            return (work(words, options) if takes_options else work(words)) or 0
        except OSError as fault:
            # Of standard output no file is named.
            if fault.filename is None:
                raise
            raise Stop(f"{os.fsdecode(fault.filename)}: {fault.strerror}") from fault

    run_tool(name, main)
