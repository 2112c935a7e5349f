"""Exports read back: the versions, and the columns of their key."""

from __future__ import annotations

import itertools
import re
from typing import Dict, Iterator, List, NamedTuple, Optional, Sequence, Tuple, Union

from .csv_records import read_fields
from .errors import DataError

MOST_KEY_COLUMNS = 4
INSTANT = re.compile(r"[0-9]+")
NUMBER = re.compile(r"-?[0-9]+")
NAME = re.compile(r"[A-Za-z_][A-Za-z0-9_]*")


class Version(NamedTuple):
    """Holds a version: the fields of its row, its start, and its end, None for `forever`."""

    fields: Tuple[str, ...]
    start: int
    end: Optional[int]


class Export(NamedTuple):
    """Holds the names of the user columns and of the period, and the versions in order."""

    names: Tuple[str, ...]
    period: Tuple[str, str]
    versions: List[Version]


def fields_of(line: str) -> List[str]:
    """Splits a line into fields; no field of an export contains a line end."""
    if '"' not in line:
        return line.split(",")
    fields, _ = read_fields(line.encode("utf-8"), 0)
    return [field.decode("utf-8") for field in fields]


def is_version(fields: Sequence[str], width: int) -> bool:
    """Returns whether fields end in a period."""
    return (len(fields) == width and width > 2 and bool(INSTANT.fullmatch(fields[-2]))
            and (fields[-1] == "forever" or bool(INSTANT.fullmatch(fields[-1]))))


def is_header(fields: Sequence[str]) -> bool:
    """Returns whether the fields can be a header."""
    return len(fields) > 2 and all(NAME.fullmatch(field) for field in fields)


def version_of(fields: Sequence[str]) -> Version:
    """Makes a version from a record."""
    return Version(tuple(fields[:-2]), int(fields[-2]), None if fields[-1] == "forever" else int(fields[-1]))


def read_export(text: str) -> Export:
    """Reads the export at the end of the program's output; replies may come before it."""
    records = [fields_of(line) for line in text.split("\n") if line]
    at = len(records) - 1
    while at > 0 and is_version(records[at], len(records[-1])):
        at -= 1
    if at < 0 or not is_header(records[at]) or len(records[at]) != len(records[-1]):
        raise DataError("not an export: it needs a header, and records that end in a start and an end")
    *names, row_start, row_end = records[at]
    return Export(tuple(names), (row_start, row_end), [version_of(fields) for fields in records[at + 1:]])


def key_of(version: Version, places: Sequence[int]) -> Tuple[str, ...]:
    """Returns the fields of a version in some columns."""
    return tuple(version.fields[place] for place in places)


def may_be_key(export: Export, places: Sequence[int]) -> bool:
    """Returns whether versions with equal fields in these columns are adjacent and do not overlap."""
    seen = set()
    before: Optional[Version] = None
    for version in export.versions:
        key = key_of(version, places)
        if before and key == key_of(before, places):
            if before.end is None or before.end > version.start:
                return False
        elif key in seen:
            return False
        seen.add(key)
        before = version
    return True


def candidates(width: int) -> Iterator[Tuple[int, ...]]:
    """Yields the possible columns of a key: fewer columns first, then from the left."""
    for count in range(1, min(width, MOST_KEY_COLUMNS) + 1):
        yield from itertools.combinations(range(width), count)


def sort_values(export: Export, place: int) -> List[Union[int, bytes]]:
    """Returns the fields of a column as keys are ordered: by size if all are numbers, else by bytes."""
    fields = [version.fields[place] for version in export.versions]
    if all(NUMBER.fullmatch(field) for field in fields):
        return [int(field) for field in fields]
    return [field.encode("utf-8", "surrogateescape") for field in fields]


def is_in_order(export: Export, places: Sequence[int]) -> bool:
    """Returns whether the versions are in order by these columns, as an export is by its key."""
    keys = list(zip(*(sort_values(export, place) for place in places)))
    return all(one <= other for one, other in zip(keys, keys[1:]))


def guess_key(export: Export) -> Tuple[int, ...]:
    """Guesses the key columns, since an export does not name them."""
    first: Optional[Tuple[int, ...]] = None
    for places in candidates(len(export.names)):
        if may_be_key(export, places):
            if is_in_order(export, places):
                return places
            first = first or places
    return first or (0,)


def places_of(export: Export, names: Sequence[str]) -> Tuple[int, ...]:
    """Returns the positions of columns by name."""
    lower = [name.lower() for name in export.names]
    missing = [name for name in names if name.lower() not in lower]
    if missing:
        raise DataError(f"no column {missing[0]}; the columns are {', '.join(export.names)}")
    return tuple(lower.index(name.lower()) for name in names)


def by_key(export: Export, places: Sequence[int]) -> Dict[Tuple[str, ...], List[Version]]:
    """Returns the versions of each key, in the file's order."""
    found: Dict[Tuple[str, ...], List[Version]] = {}
    for version in export.versions:
        found.setdefault(key_of(version, places), []).append(version)
    return found
