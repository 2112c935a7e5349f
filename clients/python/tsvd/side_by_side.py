"""Scripts with the reply beside each line."""

from __future__ import annotations

import argparse
import pathlib
import subprocess
from typing import Iterator, List, Sequence, Tuple

from .lines import has_reply
from .output import write_lines
from .program import program_path

WIDEST = 100


def script_lines(script: bytes) -> List[bytes]:
    """Returns the lines of a script; only line feeds end a line."""
    lines = script.split(b"\n")
    return lines[:-1] if lines[-1] == b"" else lines


def take_reply(replies: List[str]) -> List[str]:
    """Removes the lines of one reply from the start of a list."""
    if not replies:
        return []
    head = replies.pop(0)
    count = int(head[5:]) if head.startswith("rows ") and head[5:].isdecimal() else 0
    rows, replies[:count] = replies[:count], []
    return [head, *rows]


def paired(lines: Sequence[bytes], replies: List[str]) -> Iterator[Tuple[str, List[str]]]:
    """Yields each line with the lines of its reply."""
    for line in lines:
        text = line.decode("utf-8", "replace").rstrip("\r").replace("\t", " ")
        yield text, take_reply(replies) if has_reply(line) else []


def columns(pairs: Sequence[Tuple[str, List[str]]]) -> Iterator[str]:
    """Yields the lines of two columns."""
    width = max([len(line) for line, reply in pairs if reply and len(line) <= WIDEST] or [0])
    for line, reply in pairs:
        first = reply[0] if reply else ""
        yield f"{line.ljust(width)}  {first}".rstrip()
        for row in reply[1:]:
            yield " " * (width + 2) + row


def side_by_side(script: bytes, output: str, loads: bool) -> Iterator[str]:
    """Yields the report of a load, then lines with replies, then the rest of the output."""
    replies = script_lines_of(output)
    if loads and replies:
        yield replies.pop(0)
    yield from columns(list(paired(script_lines(script), replies)))
    yield from replies


def script_lines_of(output: str) -> List[str]:
    """Returns the lines of the program's output."""
    lines = output.split("\n")
    return lines[:-1] if lines[-1] == "" else lines


def main(words: Sequence[str]) -> int:
    """Runs `side-by-side SCRIPT [OPTIONS OF tsvd]`."""
    parser = argparse.ArgumentParser(prog="python3 -m tsvd side-by-side", usage="%(prog)s SCRIPT [OPTIONS OF tsvd]")
    parser.add_argument("script", help="a file of lines")
    given, options = parser.parse_known_args(words)
    options = [word for word in options if word != "--"]
    script = pathlib.Path(given.script).read_bytes()
    ran = subprocess.run([program_path(), "--script", given.script, *options], stdin=subprocess.DEVNULL,
                         stdout=subprocess.PIPE, check=False)
    loads = any(word.split("=")[0] == "--load" for word in options)
    output = ran.stdout.decode("utf-8", "replace")
    write_lines(side_by_side(script, output, loads))
    return ran.returncode
