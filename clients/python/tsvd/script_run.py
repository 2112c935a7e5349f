"""A run of the program over lines that are handed to it as they are wanted, and what a served line is in a script."""

from __future__ import annotations

import re
import subprocess
from typing import Iterator, List, NamedTuple, Optional, Sequence

from .errors import DataError, OperationalError
from .limits import LONGEST_LINE
from .replies import first_word
from .texts import map_outside_texts
from .transcript_reading import Exchange

# So many bytes are in a pipe at most when the program writes: it never waits for more room than there is.
MOST_BYTES = 32768
SYNTAX = "E1 syntax at "
BLANKS = re.compile(r"[ \t]*([(),;=<>])[ \t]*")


class ScriptLine(NamedTuple):
    """Holds a line of a script, and how many bytes it has before the line that was served."""

    text: bytes
    shift: int


def squeezed(line: bytes) -> bytes:
    """Returns a line without the blanks beside its signs."""
    text = map_outside_texts(lambda part: BLANKS.sub(r"\1", part), line.decode("utf-8", "surrogateescape"))
    return text.encode("utf-8", "surrogateescape")


def script_line(exchange: Exchange, session: int) -> Optional[ScriptLine]:
    """Returns the line of a script for a line that was served, or None where there is none.

    A script has ALTER, which is of no served line; SPLIT and MIGRATE stand without a session there.
    """
    line = exchange.line
    word = first_word(line.decode("utf-8", "replace"))
    if word == "ALTER":
        return None
    if word in ("SPLIT", "MIGRATE"):
        return ScriptLine(line, 0)
    for begin in (f"{session}: ", f"{session}:"):
        if len(begin) + len(line) <= LONGEST_LINE:
            return ScriptLine(begin.encode("ascii") + line, len(begin))
    if exchange.head.startswith(SYNTAX):
        return None
    text = f"{session}:".encode("ascii") + squeezed(line)
    if len(text) > LONGEST_LINE:
        raise DataError(f"{exchange.place()}: a line of {len(line)} bytes is too long for a script, which has the session's "
                        "number before it, so this run cannot be checked")
    return ScriptLine(text, 0)


def own_refusal(line: bytes) -> Optional[bytes]:
    """Returns the reply to a line that no script has, or None where it is not known without the program."""
    text = line.decode("utf-8", "replace")
    if first_word(text) != "ALTER":
        return None
    return f"{SYNTAX}{len(text) - len(text.lstrip(' ' + chr(9)))}".encode("ascii")


def in_script(reply: Sequence[bytes], shift: int) -> List[bytes]:
    """Returns a reply as a script has it, where E1 counts the bytes before the line too."""
    head = reply[0].decode("utf-8")
    if shift and head.startswith(SYNTAX) and head[len(SYNTAX):].isdecimal():
        return [f"{SYNTAX}{int(head[len(SYNTAX):]) + shift}".encode("ascii")]
    return list(reply)


def served(reply: Sequence[bytes], shift: int) -> List[bytes]:
    """Returns a reply of a script as the session would have been sent it."""
    return in_script(reply, -shift)


class ScriptRun:
    """Runs the program over its standard input; each line is answered before the next ones are chosen."""

    def __init__(self, words: Sequence[str], loads: int) -> None:
        self.process = subprocess.Popen(list(words), stdin=subprocess.PIPE, stdout=subprocess.PIPE, stderr=subprocess.PIPE)
        for _ in range(loads):
            self.read_line()

    def __enter__(self) -> "ScriptRun":
        return self

    def __exit__(self, *_: object) -> None:
        """Ends the run."""
        assert self.process.stdin and self.process.stdout and self.process.stderr
        self.process.kill()
        self.process.wait()
        for stream in (self.process.stdin, self.process.stdout, self.process.stderr):
            try:
                stream.close()
            except OSError:
                pass

    def ask(self, lines: Sequence[bytes]) -> List[List[bytes]]:
        """Returns the replies to lines, each of which has one."""
        assert self.process.stdin
        replies: List[List[bytes]] = []
        for part in parts(lines):
            try:
                self.process.stdin.write(b"".join(line + b"\n" for line in part))
                self.process.stdin.flush()
            except OSError:
                raise self.ended() from None
            replies.extend(self.read_reply() for _ in part)
        return replies

    def read_reply(self) -> List[bytes]:
        """Reads one reply."""
        head = self.read_line()
        count = int(head[len(b"rows "):]) if head.startswith(b"rows ") else 0
        return [head, *(self.read_line() for _ in range(count))]

    def read_line(self) -> bytes:
        """Reads up to a line feed."""
        assert self.process.stdout
        line = self.process.stdout.readline()
        if not line.endswith(b"\n"):
            raise self.ended()
        return line[:-1]

    def ended(self) -> OperationalError:
        """Makes the exception for a program that has ended."""
        _, told = self.process.communicate()
        words = told.decode("utf-8", "replace").strip()
        return OperationalError(f"the program ended with status {self.process.returncode}" + (f": {words}" if words else ""))


def parts(lines: Sequence[bytes]) -> Iterator[List[bytes]]:
    """Yields lines by as many as fit into a pipe."""
    part: List[bytes] = []
    size = 0
    for line in lines:
        if part and size + len(line) >= MOST_BYTES:
            yield part
            part, size = [], 0
        part.append(line)
        size += len(line) + 1
    if part:
        yield part
