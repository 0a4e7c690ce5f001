"""How a tool is called: the words that it takes, and how it ends."""

import argparse
import os
import sys
from typing import Callable, List

from files import Unusable
from reading import ReportFault
from wording import visible


def parser_of(name: str, usage: str, text: str) -> argparse.ArgumentParser:
    """Makes a parser of a tool's words that takes no abbreviations and keeps the text of its help as it is."""
    return argparse.ArgumentParser(
        prog=f"tools/{name}", usage=usage, description=text, allow_abbrev=False, formatter_class=argparse.RawDescriptionHelpFormatter
    )


def run_tool(name: str, main: Callable[[List[str]], int]) -> None:
    """Runs a tool and ends with its status; what is wrong with its files is said in one line, with 2."""
    for stream in (sys.stdout, sys.stderr):
        if stream is not None:
            stream.reconfigure(encoding="utf-8", errors="backslashreplace")
    try:
        if sys.stdout is None:
            raise Unusable("standard output is closed")
        status = main(sys.argv[1:])
        sys.stdout.flush()
    except (Unusable, ReportFault) as fault:
        print(f"{name}: {visible(str(fault))}", file=sys.stderr)
        status = 2
    except BrokenPipeError:
        # Whoever reads the output wants no more of it.
        drop_output()
        status = 0
    except OSError as fault:
        print(f"{name}: the output can't be written: {fault.strerror}", file=sys.stderr)
        drop_output()
        status = 2
    except KeyboardInterrupt:
        status = 130
    sys.exit(status)


def drop_output() -> None:
    """Gives what is left of the output another place to go, so that the end of the program doesn't fail by it."""
    os.dup2(os.open(os.devnull, os.O_WRONLY), sys.stdout.fileno())
