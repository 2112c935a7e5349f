"""The types and constructors of PEP 249."""

from __future__ import annotations

import datetime
from typing import FrozenSet


class TypeObject:
    """Compares equal to the type codes that it stands for."""

    def __init__(self, *codes: str) -> None:
        self.codes: FrozenSet[str] = frozenset(codes)

    def __eq__(self, other: object) -> bool:
        return other in self.codes if isinstance(other, str) else self is other

    def __hash__(self) -> int:
        return hash(self.codes)


STRING = TypeObject("TEXT")
NUMBER = TypeObject("INT", "BOOLEAN")
BINARY = TypeObject()
DATETIME = TypeObject("DATE", "TIMESTAMP")
ROWID = TypeObject()

Date = datetime.date
Time = datetime.time
Timestamp = datetime.datetime
Binary = bytes


def DateFromTicks(ticks: float) -> datetime.date:  # noqa: N802  the name is that of PEP 249
    """Returns the day of seconds since 1970, in local time."""
    return datetime.date.fromtimestamp(ticks)


def TimeFromTicks(ticks: float) -> datetime.time:  # noqa: N802
    """Returns the time of day of seconds since 1970, in local time."""
    return datetime.datetime.fromtimestamp(ticks).time()


def TimestampFromTicks(ticks: float) -> datetime.datetime:  # noqa: N802
    """Returns the moment of seconds since 1970, in local time."""
    return datetime.datetime.fromtimestamp(ticks)
