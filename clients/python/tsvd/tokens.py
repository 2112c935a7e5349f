"""Tokens of a statement, as far as a client looks at them."""

from __future__ import annotations

import re
from typing import Iterator, NamedTuple

from .instants import DATE
from .texts import map_outside_texts, split_texts

TEXT, WORD, NUMBER, MARK, DAY, SIGN = "text", "word", "number", "mark", "date", "sign"
TOKEN = re.compile(rf"(?P<date>{DATE.pattern})|(?P<word>[A-Za-z_][A-Za-z0-9_]*)|(?P<number>[0-9]+)"
                   r"|(?P<mark>\?)|(?P<sign>[^\s])")
QUOTED_NAME = re.compile(r'"([A-Za-z_][A-Za-z0-9_]*)"')


class Token(NamedTuple):
    """Holds a token: its kind, its text and its offset in the statement."""

    kind: str
    text: str
    at: int


def tokens_of(statement: str) -> Iterator[Token]:
    """Yields the tokens of a statement; a date such as 2026-04-01 outside a text is one token."""
    at = 0
    for part, is_text in split_texts(statement):
        if is_text:
            yield Token(TEXT, part, at)
        else:
            for found in TOKEN.finditer(part):
                yield Token(str(found.lastgroup), found.group(), at + found.start())
        at += len(part)


def plain_names(statement: str) -> str:
    """Removes the double quotes around names, which other programs write and the grammar does not have."""
    if '"' not in statement:
        return statement
    return map_outside_texts(lambda part: QUOTED_NAME.sub(r"\1", part), statement)
