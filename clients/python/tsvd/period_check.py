"""Checks that versions are a history: no overlaps, no gaps, and in each entity one row for a day."""

from __future__ import annotations

import bisect
from typing import Dict, Iterator, List, NamedTuple, Optional, Sequence, Tuple

from .csv_check import key_text
from .csv_records import Record
from .errors import Key
from .history import Version, instant_text
from .row_lines import entity_of, key_of
from .schema import Period, Table

Span = Tuple[int, int, int]


class Placed(NamedTuple):
    """Holds a version and the record that it was read from."""

    record: Record
    version: Version

    def place(self) -> str:
        """Returns the place of the version in its file."""
        return f"record {self.record.number} (line {self.record.line})"


def period_text(version: Version) -> str:
    """Returns the period of a version for a message."""
    return f"from {instant_text(version.start)} to {'forever' if version.end is None else instant_text(version.end)}"


def by_key(table: Table, placed: Sequence[Placed]) -> Dict[Key, List[Placed]]:
    """Returns the versions of each key, in the order of their starts."""
    found: Dict[Key, List[Placed]] = {}
    for one in sorted(placed, key=lambda one: one.version.start):
        found.setdefault(key_of(table, one.version.row), []).append(one)
    return found


def neighbour_fault(key: Key, before: Placed, after: Placed, gaps: bool) -> Optional[str]:
    """Returns the fault between two versions of a key that follow each other, if there is one."""
    end, start = before.version.end, after.version.start
    if end is None or end > start:
        return (f"{after.place()}: key {key_text(key)}: the period {period_text(after.version)} overlaps that of "
                f"record {before.record.number}, {period_text(before.version)}")
    if end < start and not gaps:
        return (f"{after.place()}: key {key_text(key)}: a gap from {instant_text(end)} to {instant_text(start)}, behind "
                f"record {before.record.number}; --gaps takes it for a deletion")
    return None


def key_faults(table: Table, placed: Sequence[Placed], gaps: bool) -> Iterator[str]:
    """Yields the overlaps and gaps in the versions of each key."""
    for key, versions in by_key(table, placed).items():
        for before, after in zip(versions, versions[1:]):
            fault = neighbour_fault(key, before, after, gaps)
            if fault:
                yield fault


class Spans:
    """Holds the periods of application time of an entity that are on record at an instant."""

    def __init__(self) -> None:
        self.spans: List[Span] = []

    def near(self, span: Span) -> Optional[Span]:
        """Returns a span that overlaps another, if there is one."""
        at = bisect.bisect_left(self.spans, span)
        return next((other for other in self.spans[max(at - 1, 0):at + 1] if other[0] < span[1] and span[0] < other[1]), None)

    def add(self, span: Span) -> None:
        """Adds a span."""
        bisect.insort(self.spans, span)

    def remove(self, span: Span) -> None:
        """Removes a span, if it was added."""
        if span in self.spans:
            self.spans.remove(span)


def span_of(table: Table, period: Period, one: Placed) -> Span:
    """Returns the period of application time of a version, and the number of its record."""
    row = one.version.row
    start, end = (row[place] if place is not None else None for place in (table.place(period.start), table.place(period.end)))
    return (start if isinstance(start, int) else 0, end if isinstance(end, int) else 0, one.record.number)


def entity_faults(table: Table, period: Period, placed: Sequence[Placed]) -> Iterator[str]:
    """Yields the rows of entities that overlap in application time while both are on record, and those with empty periods."""
    events = sorted([(one.version.start, True, at) for at, one in enumerate(placed)]
                    + [(one.version.end, False, at) for at, one in enumerate(placed) if one.version.end is not None])
    held: Dict[Key, Spans] = {}
    for instant, begins, at in events:
        one = placed[at]
        span = span_of(table, period, one)
        spans = held.setdefault(entity_of(table, one.version.row), Spans())
        if not begins:
            spans.remove(span)
            continue
        if span[0] >= span[1]:
            yield f"{one.place()}: {period.name} from {span[0]} to {span[1]} does not end after its start"
        other = spans.near(span)
        if other:
            yield (f"{one.place()}: {period.name} from {span[0]} to {span[1]} overlaps that of record {other[2]}, "
                   f"which is on record too at {instant_text(instant)}")
        spans.add(span)


def faults_of(table: Table, placed: Sequence[Placed], gaps: bool) -> Iterator[str]:
    """Yields why versions are no history of a table."""
    yield from key_faults(table, placed, gaps)
    if table.period:
        yield from entity_faults(table, table.period, placed)
