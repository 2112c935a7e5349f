"""The check of a line before it is sent: it must have exactly one reply."""

from __future__ import annotations

from typing import Union

from .errors import DataError, ProgrammingError
from .limits import LONGEST_LINE

BLANKS = b" \t"


def has_reply(line: bytes) -> bool:
    """Returns whether a line, without its line feed, is neither blank nor a comment."""
    if len(line) > LONGEST_LINE:
        return True
    body = (line[:-1] if line.endswith(b"\r") else line).lstrip(BLANKS)
    return body != b"" and not body.startswith(b"--")


def encoded(line: Union[str, bytes]) -> bytes:
    """Returns the bytes of a line in UTF-8."""
    if isinstance(line, bytes):
        return line
    try:
        return line.encode("utf-8")
    except UnicodeEncodeError:
        raise DataError("a line contains a lone surrogate") from None


def checked(line: Union[str, bytes]) -> bytes:
    """Returns the bytes of a line, or raises if it does not have exactly one reply."""
    data = encoded(line)
    if b"\n" in data:
        raise DataError("a line cannot have a line feed")
    if len(data) > LONGEST_LINE:
        raise DataError(f"a line has at most {LONGEST_LINE} bytes; this one has {len(data)}")
    if not has_reply(data):
        raise ProgrammingError("a blank line or a comment has no reply")
    return data


def checked_text(line: str) -> str:
    """Returns a line as it is, or raises if it does not have exactly one reply."""
    checked(line)
    return line
