"""Literals of the grammar, and statements with values for their question marks."""

from __future__ import annotations

import datetime
import decimal
import operator
import uuid
from numbers import Number
from typing import Any, List, Sequence, Tuple

from .days import NO_DAYS, Days
from .errors import DataError, ProgrammingError
from .instants import read_moment
from .limits import GREATEST_INTEGER, LEAST_INTEGER
from .meanings import Meaning, mark_meanings, meanings_of
from .texts import split_texts
from .tokens import DAY, plain_names

# A literal may touch these characters; otherwise a blank separates it.
APART = " \t(),;=<>"

# What to write for values that have no literal, by their type.
CURES: Sequence[Tuple[type, str]] = (
    (decimal.Decimal, "there are no decimals: keep the amount in its smallest unit, such as int(value * 100)"),
    (Number, "only whole numbers are kept: give int(value), or the amount in its smallest unit"),
    (uuid.UUID, "give str(value), for a TEXT column"),
    (bytes, "give value.decode() or value.hex(), for a TEXT column"),
    (datetime.time, "give value.isoformat(), for a TEXT column"),
    (datetime.timedelta, "give a whole number of the unit of your choice, such as value.days"),
)


def integer_literal(value: int) -> str:
    """Returns the literal of a whole number of 64 bits."""
    if not LEAST_INTEGER <= value <= GREATEST_INTEGER:
        raise DataError(f"{value:d} is not in the range of 64 bits")
    return f"{int(value)}"


def text_literal(value: str) -> str:
    """Returns the literal of a text, which must be one line."""
    if "\n" in value or "\r" in value:
        raise DataError("a text cannot have a line feed or a carriage return")
    return "'" + value.replace("'", "''") + "'"


def is_truth(value: Any) -> bool:
    """Returns whether a value is a bool, or numpy's."""
    kind = type(value)
    return isinstance(value, bool) or (kind.__module__ == "numpy" and kind.__name__ in ("bool", "bool_"))


def literal(value: Any) -> str:
    """Returns the literal of None, a truth value, a whole number of any kind or a text."""
    if value is None:
        return "NULL"
    if is_truth(value):
        return "TRUE" if value else "FALSE"
    if isinstance(value, str):
        return text_literal(value)
    try:
        return integer_literal(operator.index(value))
    except TypeError:
        raise DataError(why_refused(value)) from None


def why_refused(value: Any) -> str:
    """Says why a value has no literal, and what to write."""
    name = type(value).__name__
    if name in ("NAType", "NaTType") or (isinstance(value, Number) and value != value):
        return f"{value} is not a value; give None, which is NULL"
    if isinstance(value, datetime.date):
        return f"a {name} has no literal by itself, only in the place of a question mark"
    cures = [cure for kind, cure in CURES if isinstance(value, kind)]
    return f"no literal for a value of type {name}" + (f"; {cures[0]}" if cures else "")


def is_date(value: Any) -> bool:
    """Returns whether a value is a date or datetime; the missing one of pandas is none."""
    return isinstance(value, datetime.date) and type(value).__name__ != "NaTType"


def one_line(part: str, is_text: bool) -> str:
    """Returns a part of a statement as one line; line ends outside texts become blanks."""
    if is_text and ("\n" in part or "\r" in part):
        raise DataError("a text cannot have a line feed or a carriage return")
    return part.replace("\r", " ").replace("\n", " ")


def places(statement: str) -> List[str]:
    """Splits a statement at the question marks outside texts."""
    pieces = [""]
    for part, is_text in split_texts(statement):
        first, *others = [part] if is_text else part.split("?")
        pieces[-1] += one_line(first, is_text)
        pieces += [one_line(piece, False) for piece in others]
    return pieces


class Statement:
    """Holds a statement with question marks, to be bound to values once or many times."""

    def __init__(self, text: str, days: Days = NO_DAYS) -> None:
        self.days = days
        self.head, *self.pieces = places(plain_names(text).strip(" \t\r\n"))
        self.text = "?".join([self.head, *self.pieces])
        self.known: List[Meaning] = []

    def check(self, values: Any) -> None:
        """Raises unless there is one value for each question mark."""
        if isinstance(values, (str, bytes)) or not hasattr(values, "__len__") or hasattr(values, "keys"):
            raise ProgrammingError("values must be a sequence, with one for each question mark")
        if len(self.pieces) != len(values):
            raise ProgrammingError(f"{len(self.pieces)} question marks and {len(values)} values")

    def literals(self, values: Sequence[Any]) -> List[str]:
        """Returns the literals of the values; what a date is written as depends on its place."""
        self.check(values)
        if any(map(is_date, values)):
            values = [self.days.value_of(value, meaning) if is_date(value) else value
                      for value, meaning in zip(values, self.meanings())]
        return [literal(value) for value in values]

    def meanings(self) -> List[Meaning]:
        """Returns what the value of each question mark stands for."""
        self.known = self.known or mark_meanings(self.text, self.days.schema)
        return self.known

    def bound(self, values: Sequence[Any]) -> str:
        """Returns the statement as one line, with a literal for each question mark."""
        line = self.head
        for written, piece in zip(self.literals(values), self.pieces):
            before = "" if not line or line[-1] in APART else " "
            behind = "" if not piece or piece[0] in APART else " "
            line += before + written + behind + piece
        return line.strip(" \t")


def bind(statement: str, values: Sequence[Any] = (), days: Days = NO_DAYS) -> str:
    """Replaces question marks by literals, and returns the statement as one line."""
    return Statement(statement, days).bound(values)


def replace_dates(line: str, days: Days = NO_DAYS) -> str:
    """Replaces dates outside texts, such as 2026-04-01, by what they mean in their places."""
    made, end = "", 0
    for token, meaning in meanings_of(line, days.schema):
        if token.kind == DAY:
            made += line[end:token.at] + literal(days.value_of(read_moment(token.text), meaning))
            end = token.at + len(token.text)
    return made + line[end:]
