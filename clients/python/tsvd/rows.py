"""Rows of replies, read into Python values."""

from __future__ import annotations

import re
from typing import List, Optional, Tuple

from .errors import InterfaceError, Key, Value

Period = Tuple[int, Optional[int]]

VALUE = re.compile(r"(-?[0-9]+)|'((?:[^']|'')*)'|(true|false|null)")
PERIOD = re.compile(r" from ([0-9]+) to ([0-9]+|forever)")
WORDS = {"true": True, "false": False, "null": None}


def value_of(found: "re.Match[str]") -> Value:
    """Returns the value of a match of VALUE."""
    number, text, word = found.groups()
    if number is not None:
        return int(number)
    return text.replace("''", "'") if text is not None else WORDS[word]


def read_values(text: str, at: int) -> Tuple[Key, int]:
    """Reads values in parentheses, and returns them with the offset after them."""
    values: List[Value] = []
    mark = "("
    while text.startswith(mark, at):
        found = VALUE.match(text, at + len(mark))
        if not found:
            break
        values.append(value_of(found))
        at, mark = found.end(), ", "
        if text.startswith(")", at):
            return tuple(values), at + 1
    raise InterfaceError(f"invalid row: {text!r}")


def read_period(text: str, at: int) -> Optional[Period]:
    """Reads the period after a row, if there is one; its end is None for `forever`."""
    if at == len(text):
        return None
    found = PERIOD.fullmatch(text, at)
    if not found:
        raise InterfaceError(f"invalid row: {text!r}")
    start, end = found.groups()
    return int(start), None if end == "forever" else int(end)


def read_row(text: str) -> Tuple[Key, Optional[Period]]:
    """Reads a row of a reply, and its period, if it has one."""
    values, at = read_values(text, 0)
    return values, read_period(text, at)
