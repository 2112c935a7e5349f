"""Reads transcripts, and refuses what is none, by name."""

from __future__ import annotations

import os
import re
from typing import Dict, Iterator, List, NamedTuple, Optional, Sequence, Tuple

from .errors import DataError
from .limits import LONGEST_LINE
from .lines import has_reply
from .transcript import BROKEN, ENDED, FORM, REPLY, ROW, SENT, SENT_HEX

HEAD = re.compile(rb"%s port ([0-9]+)" % FORM.encode("ascii"))
TIMED = re.compile(rb"([0-9]+) (.*)", re.S)
ROWS = re.compile(rb"rows ([0-9]+)")
SHOWN = 60


class Exchange:
    """Holds a line that was sent, by its number in the file, and its reply: one line, and the rows behind it."""

    def __init__(self, path: str, number: int, line: bytes, sent: int) -> None:
        self.path, self.number, self.line, self.sent = path, number, line, sent
        self.reply: List[bytes] = []
        self.received = 0
        # The first line of the reply; what came in the place of one.
        self.head = ""
        self.broken: Optional[str] = None

    def place(self) -> str:
        """Returns where it is, for a message."""
        return f"{self.path}, line {self.number}"


class Kept(NamedTuple):
    """Holds what a transcript says: the port, the lines with their replies, and whether its end was written."""

    path: str
    port: int
    exchanges: Sequence[Exchange]
    has_end: bool


def shown(line: bytes) -> str:
    """Returns the beginning of a line, for a message."""
    return repr(line.decode("utf-8", "replace")[:SHOWN])


class Reader:
    """Reads the lines of one file."""

    def __init__(self, path: str, data: bytes) -> None:
        self.path = path
        self.lines = data.split(b"\n")[:-1]
        self.at = 1
        self.time = 0
        self.exchanges: List[Exchange] = []
        self.has_end = False

    def fault(self, number: int, why: str) -> DataError:
        """Makes the refusal for a line of the file."""
        return DataError(f"{self.path}, line {number}: {why}")

    def read(self) -> None:
        """Reads all entries behind the first line."""
        while self.at < len(self.lines):
            entry = self.lines[self.at]
            if self.has_end:
                raise self.fault(self.at + 1, "there is more behind the end of the session")
            self.at += 1
            self.take(entry[:2].decode("ascii", "replace"), entry)

    def take(self, mark: str, entry: bytes) -> None:
        """Takes one entry."""
        if mark == SENT:
            self.add(self.timed(entry[2:])[1])
        elif entry.startswith(SENT_HEX.encode("ascii")):
            self.add(self.unhexed(self.timed(entry[3:])[1]))
        elif mark == REPLY:
            self.answer(self.timed(entry[2:])[1])
        elif mark == BROKEN:
            self.unanswered().broken = self.timed(entry[2:])[1].decode("utf-8")
        elif mark == ENDED:
            self.timed(entry[2:] + b" ")
            self.has_end = True
        else:
            raise self.fault(self.at, f"not an entry of a transcript: {shown(entry)}")

    def timed(self, text: bytes) -> Tuple[int, bytes]:
        """Splits an entry into its time and the rest; time does not run back."""
        found = TIMED.fullmatch(text)
        if not found:
            raise self.fault(self.at, f"an entry without a time: {shown(text)}")
        time = int(found.group(1))
        if time < self.time:
            raise self.fault(self.at, f"its time is {self.time - time} microseconds before that of the entry above: the "
                             "clock was set back, so what came first is not known")
        self.time = time
        return time, found.group(2)

    def unhexed(self, digits: bytes) -> bytes:
        """Reads a line that is written as digits."""
        try:
            return bytes.fromhex(digits.decode("ascii"))
        except ValueError:
            raise self.fault(self.at, f"not hexadecimal digits: {shown(digits)}") from None

    def add(self, line: bytes) -> None:
        """Takes a line that was sent; only the last one may be without a reply."""
        if self.exchanges and not self.exchanges[-1].reply:
            raise self.fault(self.at, "the line above it has no reply, and is not the last one")
        if b"\n" in line or len(line) > LONGEST_LINE or not has_reply(line):
            raise self.fault(self.at, "no session sends such a line: it does not have one reply")
        self.exchanges.append(Exchange(self.path, self.at, line, self.time))

    def unanswered(self) -> Exchange:
        """Returns the line that waits for its reply."""
        if not self.exchanges or self.exchanges[-1].reply or self.exchanges[-1].broken:
            raise self.fault(self.at, "a reply without a line")
        return self.exchanges[-1]

    def answer(self, head: bytes) -> None:
        """Takes a reply and its rows."""
        exchange = self.unanswered()
        counted = ROWS.fullmatch(head)
        count = int(counted.group(1)) if counted else 0
        rows = self.lines[self.at:self.at + count]
        mark = ROW.encode("ascii")
        if len(rows) < count or not all(row.startswith(mark) for row in rows):
            raise self.fault(self.at, f"it is cut off: there are not {count} rows below it")
        exchange.reply = [head, *(row[len(mark):] for row in rows)]
        exchange.head = head.decode("utf-8")
        exchange.received = self.time
        self.at += count


def read_bytes(path: str) -> bytes:
    """Returns the bytes of a file that is text and whole."""
    with open(path, "rb") as file:
        data = file.read()
    if not data:
        raise DataError(f"{path} is empty: a transcript begins with a line '{FORM} port P'")
    try:
        data.decode("utf-8")
    except UnicodeDecodeError as fault:
        raise DataError(f"{path} is not UTF-8, from byte {fault.start} on, and so not a transcript") from None
    return data


def read_transcript(path: str, data: bytes) -> Kept:
    """Reads a transcript."""
    reader = Reader(path, data)
    head = data.split(b"\n", 1)[0]
    found = HEAD.fullmatch(head)
    if not found:
        raise DataError(f"{path} is not a transcript of this form: its first line is {shown(head)}, and not "
                        f"'{FORM} port P'")
    if not data.endswith(b"\n"):
        raise DataError(f"{path} is cut off: its last line, {len(reader.lines) + 1}, has no line feed")
    reader.read()
    return Kept(path, int(found.group(1)), reader.exchanges, reader.has_end)


def told_apart(paths: Sequence[str]) -> Iterator[Tuple[str, bytes]]:
    """Yields the files with their bytes; the same one twice is refused, also under two names."""
    names: Dict[str, str] = {}
    contents: Dict[bytes, str] = {}
    for path in paths:
        data = read_bytes(path)
        name = os.path.realpath(path)
        other = names.get(name) or (contents.get(data) if data.count(b"\n") > 1 else None)
        if other is not None:
            raise DataError(f"{other} and {path} are the same transcript")
        names[name] = contents[data] = path
        yield path, data


def read_transcripts(paths: Sequence[str]) -> List[Kept]:
    """Reads the transcripts of one run."""
    found = [read_transcript(path, data) for path, data in told_apart(paths)]
    for kept in found:
        if kept.port != found[0].port:
            raise DataError(f"{found[0].path} is of a server at port {found[0].port} and {kept.path} of one at port "
                            f"{kept.port}: these are transcripts of two runs")
    return found
