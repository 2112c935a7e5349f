"""Sends the lines of standard input to a server, and prints each reply before reading on."""

from __future__ import annotations

import argparse
import sys
from typing import BinaryIO, Iterator, Optional, Sequence

from .limits import LONGEST_LINE
from .lines import has_reply
from .output import write_lines
from .protocol import Session
from .transcript import Transcript

TOO_LONG = "E12 line too long"


def replies(session: Session, lines: BinaryIO) -> Iterator[str]:
    """Yields the lines of the replies; blank lines, comments and lines too long are not sent."""
    for line in lines:
        body = line[:-1] if line.endswith(b"\n") else line
        if len(body) > LONGEST_LINE:
            yield TOO_LONG
        elif has_reply(body):
            yield from session.ask(body)


def send(port: int, lines: BinaryIO, keep: Optional[str] = None) -> None:
    """Sends lines and writes each reply as it arrives, also into a transcript where one is to be kept."""
    with Session(port, transcript=Transcript(keep, port) if keep else None) as session:
        write_lines(replies(session, lines))


def main(words: Sequence[str]) -> int:
    """Runs `send PORT [--keep FILE]`."""
    parser = argparse.ArgumentParser(prog="python3 -m tsvd send", usage="%(prog)s PORT [--keep FILE] < STATEMENTS")
    parser.add_argument("port", type=int)
    parser.add_argument("--keep", metavar="FILE", help="a file to be made for a transcript of the session: see check-run")
    given = parser.parse_args(words)
    send(given.port, sys.stdin.buffer, given.keep)
    return 0
