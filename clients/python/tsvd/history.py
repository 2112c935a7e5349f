"""Histories of tables, written as a script that leaves them."""

from __future__ import annotations

from typing import Dict, Iterator, List, NamedTuple, Optional, Sequence, Set, Tuple

from .errors import DataError, Key, Value
from .instants import iso_text
from .limits import LEAST_DATE, MOST_WRITTEN
from .row_lines import delete_line, insert_lines, key_of
from .schema import Table

SESSION = "1: "


class Version(NamedTuple):
    """Holds a version of a row: its values, its start, and its end, None for `forever`."""

    row: Tuple[Value, ...]
    start: int
    end: Optional[int]


class History(NamedTuple):
    """Holds a table and its versions, in any order."""

    table: Table
    versions: Sequence[Version]


class Change:
    """Holds what one transaction changed in a table: the rows that ended, and those that began."""

    def __init__(self, table: Table) -> None:
        self.table = table
        self.ended: List[Tuple[Value, ...]] = []
        self.began: List[Tuple[Value, ...]] = []

    def keys(self) -> Set[Key]:
        """Returns the keys that were written."""
        return {key_of(self.table, row) for row in (*self.ended, *self.began)}

    def deletions(self) -> Iterator[str]:
        """Yields the lines that delete what ended."""
        return (delete_line(self.table, row, SESSION) for row in self.ended)

    def insertions(self) -> Iterator[str]:
        """Yields the lines that insert what began."""
        return insert_lines(self.table, self.began, SESSION)


Changes = Dict[int, Dict[str, Change]]


def instant_text(instant: int) -> str:
    """Returns an instant for a message, with its date if it is one."""
    return f"{instant} ({iso_text(instant)})" if instant >= LEAST_DATE else str(instant)


def changes_of(histories: Sequence[History]) -> Changes:
    """Returns what was changed at each instant, by table."""
    found: Changes = {}
    for table, versions in histories:
        for version in versions:
            begun = found.setdefault(version.start, {})
            begun.setdefault(table.name, Change(table)).began.append(version.row)
            if version.end is not None:
                ended = found.setdefault(version.end, {})
                ended.setdefault(table.name, Change(table)).ended.append(version.row)
    return found


def check_size(instant: int, changes: Dict[str, Change]) -> None:
    """Raises where an instant has more keys than one transaction writes."""
    count = sum(len(change.keys()) for change in changes.values())
    if count > MOST_WRITTEN:
        raise DataError(f"{count} keys changed at {instant_text(instant)}, and a transaction writes at most {MOST_WRITTEN}; "
                        "give some of them other instants")


def script_lines(histories: Sequence[History]) -> Iterator[str]:
    """Yields a script of one transaction for each instant; raises before the first line if an instant is too large."""
    changes = changes_of(histories)
    for instant in sorted(changes):
        check_size(instant, changes[instant])
    return lines_of(changes)


def lines_of(changes: Changes) -> Iterator[str]:
    """Yields the lines of changes, deletions before insertions."""
    for instant in sorted(changes):
        yield f"clock: {instant}"
        yield f"{SESSION}BEGIN"
        for change in changes[instant].values():
            yield from change.deletions()
        for change in changes[instant].values():
            yield from change.insertions()
        yield f"{SESSION}COMMIT"
