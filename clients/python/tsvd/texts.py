"""Texts in single quotes, and the parts of a line between them."""

from __future__ import annotations

from typing import Callable, Iterator, Tuple


def text_end(line: str, at: int) -> int:
    """Returns the end of the text that starts at a quote; the line's end if it is not closed."""
    at += 1
    while True:
        at = line.find("'", at)
        if at < 0:
            return len(line)
        if not line.startswith("''", at):
            return at + 1
        at += 2


def split_texts(line: str) -> Iterator[Tuple[str, bool]]:
    """Yields the parts of a line, each with whether it is a text."""
    at = 0
    while at < len(line):
        quote = line.find("'", at)
        if quote != at:
            yield line[at:quote if quote > 0 else len(line)], False
        if quote < 0:
            return
        at = text_end(line, quote)
        yield line[quote:at], True


def map_outside_texts(change: Callable[[str], str], line: str) -> str:
    """Changes the parts of a line outside texts."""
    return "".join(part if is_text else change(part) for part, is_text in split_texts(line))
