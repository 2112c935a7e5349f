"""A transcript: the lines that a session sent and the replies that it read, with their times, as they come."""

from __future__ import annotations

import itertools
import os
import re
import time
from typing import Optional, Sequence

from .errors import OperationalError

FORM = "tsvd transcript 1"

# The first character of a line says what it is: sent, sent as hexadecimal digits, a reply, a row of it, what came in the
# place of a reply, the session's end.
SENT, SENT_HEX, REPLY, ROW, BROKEN, ENDED = "> ", ">x ", "< ", "  ", "! ", ". "

# A line with one of these is written as digits, so that an editor or a terminal leaves it as it is.
UNPRINTED = re.compile(rb"[\x00-\x08\x0a-\x1f\x7f]")

FLAGS = os.O_WRONLY | os.O_CREAT | os.O_EXCL | os.O_APPEND | getattr(os, "O_CLOEXEC", 0)


def now() -> int:
    """Returns the time by the client's clock, in microseconds since 1970."""
    return time.time_ns() // 1000


def is_plain(line: bytes) -> bool:
    """Returns whether a line can be written as it is."""
    try:
        line.decode("utf-8")
    except UnicodeDecodeError:
        return False
    return UNPRINTED.search(line) is None


class Transcript:
    """Writes a file of its own for one session, each entry at once, so that a killed client leaves all but the last one.

    A fault in writing never loses a reply: it is raised before the next line is sent, or at the end.
    Nothing is written behind it, so what was written stays a transcript.
    """

    def __init__(self, path: str, port: int) -> None:
        self.path = path
        self.fault: Optional[OSError] = None
        try:
            self.file = os.open(path, FLAGS, 0o666)
        except FileExistsError:
            raise OperationalError(f"the transcript {path} exists; each session has a file of its own") from None
        except OSError as fault:
            raise OperationalError(f"the transcript {path} cannot be made: {fault.strerror}") from None
        self.write(f"{FORM} port {port}\n".encode("ascii"))

    def write(self, entry: bytes) -> None:
        """Writes an entry, unless there was a fault before."""
        try:
            while entry and not self.fault:
                entry = entry[os.write(self.file, entry):]
        except OSError as fault:
            self.fault = fault

    def check(self) -> None:
        """Raises where the transcript could not be written."""
        if self.fault:
            raise OperationalError(f"the transcript {self.path} cannot be written: {self.fault.strerror}; the session "
                                   "sends no more lines")

    def sent(self, line: bytes) -> None:
        """Writes a line that is about to be sent; where that fails it raises, and the line is not to be sent."""
        if is_plain(line):
            self.write(f"{SENT}{now()} ".encode("ascii") + line + b"\n")
        else:
            self.write(f"{SENT_HEX}{now()} {line.hex()}\n".encode("ascii"))
        self.check()

    def received(self, reply: Sequence[str]) -> None:
        """Writes the lines of a reply that was read."""
        rows = "".join(f"{ROW}{row}\n" for row in reply[1:])
        self.write(f"{REPLY}{now()} {reply[0]}\n{rows}".encode("utf-8"))

    def broken(self, what: str) -> None:
        """Writes what came in the place of a reply."""
        self.write(f"{BROKEN}{now()} {what}\n".encode("utf-8"))

    def close(self) -> None:
        """Writes that the session ended, and closes the file."""
        if self.file >= 0:
            self.write(f"{ENDED}{now()}\n".encode("ascii"))
            os.close(self.file)
            self.file = -1

    def discard(self) -> None:
        """Removes the file of a session that was not opened."""
        os.close(self.file)
        self.file = -1
        os.unlink(self.path)


def numbered(path: str, port: int) -> Transcript:
    """Makes a transcript with the first name of PATH.1, PATH.2 and so on that is free."""
    for number in itertools.count(1):
        name = f"{path}.{number}"
        try:
            if not os.path.lexists(name):
                return Transcript(name, port)
        except OperationalError:
            # Another process may have taken the name meanwhile; any other fault stays.
            if not os.path.lexists(name):
                raise
    raise AssertionError("an endless count")
