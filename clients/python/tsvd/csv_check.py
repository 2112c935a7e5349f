"""Checks what a load would refuse in a CSV file, and why."""

from __future__ import annotations

import argparse
import bisect
import pathlib
import re
import sys
from typing import Dict, Iterator, List, NamedTuple, Optional, Sequence, Set, TextIO, Tuple

from .csv_records import Record, read_records
from .errors import Key, ProgrammingError, Value
from .limits import GREATEST_INTEGER, LEAST_INTEGER, LONGEST_KEY_TEXT, LONGEST_TEXT, MOST_WRITTEN
from .literals import literal
from .schema import Column, Period, Schema, Table, schema_file

DIGITS = re.compile(rb"-?[0-9]+")
TRUTHS = {b"true": True, b"false": False}
MOST_SHOWN = 20


class CsvFault(NamedTuple):
    """Describes a fault: its place, its cause, and the refusal that a load reports for it."""

    record: Optional[Record]
    field: Optional[int]
    why: str
    reply: str

    def text(self) -> str:
        """Returns the fault as a message."""
        if not self.record:
            return self.why
        field = f", field {self.field}" if self.field else ""
        return f"record {self.record.number} (line {self.record.line}){field}: {self.why}"


class Checked(NamedTuple):
    """Holds the number of rows of a file, its faults, and the values of the rows without one."""

    rows: int
    faults: List[CsvFault]
    values: List[List[Value]]


class Refused(Exception):
    """Says why a field is not a value of its column."""


def bad_row(record: Optional[Record], field: Optional[int], why: str, column: int) -> CsvFault:
    """Makes a fault of a row or of the header."""
    return CsvFault(record, field, why, f"E3 bad row at column {column}")


def integer_of(field: bytes) -> Value:
    """Reads a field of an INT column."""
    if not DIGITS.fullmatch(field):
        blanks = "; fields are not trimmed" if field != field.strip() else ""
        raise Refused(f"{shown(field)} is not a whole number such as -12{blanks}")
    digits = field.lstrip(b"-").lstrip(b"0")
    number = int(digits or b"0") if len(digits) < 20 else GREATEST_INTEGER + 2
    number = -number if field.startswith(b"-") else number
    if not LEAST_INTEGER <= number <= GREATEST_INTEGER:
        raise Refused(f"{shown(field)} is not in the range of 64 bits")
    return number


def truth_of(field: bytes) -> Value:
    """Reads a field of a BOOLEAN column."""
    if field.lower() not in TRUTHS:
        raise Refused(f"{shown(field)} is neither true nor false")
    return TRUTHS[field.lower()]


def text_of(column: Column, in_key: bool, field: bytes) -> Value:
    """Reads a field of a TEXT or VARCHAR column."""
    try:
        text = field.decode("utf-8")
    except UnicodeDecodeError:
        raise Refused("the text is not UTF-8") from None
    longest = LONGEST_KEY_TEXT if in_key else LONGEST_TEXT
    if len(field) > longest:
        where = " of the key" if in_key else ""
        raise Refused(f"a text{where} has at most {longest} bytes; this one has {len(field)}")
    if "\n" in text or "\r" in text:
        raise Refused("a text has one line: no line feed and no carriage return")
    most = column.characters
    if most is not None and len(text) > most:
        raise Refused(f"a VARCHAR({most}) has at most {most} characters; this text has {len(text)}")
    return text


def value_of(table: Table, column: Column, field: bytes) -> Value:
    """Reads a field of a column, or raises why it is not a value of the column."""
    if column.type == "TEXT":
        return text_of(column, table.is_key(column), field)
    if field == b"":
        return null_of(table, column, "an empty field is NULL")
    return integer_of(field) if column.type == "INT" else truth_of(field)


def null_of(table: Table, column: Column, why: str) -> Value:
    """Returns NULL, or raises that the column cannot be NULL."""
    if column.not_null or table.is_key(column):
        what = "is a key column" if table.is_key(column) else "is NOT NULL"
        raise Refused(f"{why}, and {column.name} {what}")
    return None


def shown(field: bytes) -> str:
    """Returns a field for a message, shortened if it is long."""
    text = field.decode("utf-8", "replace")
    return repr(text if len(text) <= 40 else text[:40] + "...")


def header_places(table: Table, header: Record) -> Tuple[Dict[int, int], List[CsvFault]]:
    """Returns the position of each column in the header, and the header's faults."""
    found: Dict[int, int] = {}
    faults: List[CsvFault] = []
    for at, field in enumerate(header.fields):
        place = table.place(field.decode("ascii", "replace"))
        if place is None:
            faults.append(bad_row(header, at + 1, no_column(table, field), 0))
        elif place in found:
            faults.append(bad_row(header, at + 1, f"the column {table.columns[place].name} is named twice", 0))
        else:
            found[place] = at
    return found, faults


def no_column(table: Table, field: bytes) -> str:
    """Explains why a field of the header is not the name of a user column."""
    names = ", ".join(column.name for column in table.columns)
    if field.decode("ascii", "replace").lower() in (table.row_start.lower(), table.row_end.lower()):
        return f"{shown(field)} is a period column, which a load cannot set"
    hint = "; fields are separated by commas" if b";" in field or b"\t" in field else ""
    return f"{shown(field)} is not a column of {table.name} ({names}){hint}"


def row_of(table: Table, places: Dict[int, int], record: Record, width: int,
           faults: List[CsvFault]) -> Optional[List[Value]]:
    """Reads the row of a record, or adds its faults to the list."""
    if len(record.fields) != width:
        why = f"the record has {len(record.fields)} fields, and the header {width}"
        faults.append(bad_row(record, None, why, 0))
        return None
    values: List[Value] = []
    for place, column in enumerate(table.columns):
        at = places.get(place)
        try:
            values.append(null_of(table, column, "the header leaves it out") if at is None
                          else value_of(table, column, record.fields[at]))
        except Refused as why:
            faults.append(bad_row(record, None if at is None else at + 1, f"{column.name}: {why}", place + 1))
    return values if len(values) == len(table.columns) else None


def key_text(key: Key) -> str:
    """Writes a key as replies do."""
    return "(" + ", ".join(value.lower() if value in ("TRUE", "FALSE") else value
                           for value in map(literal, key)) + ")"


def duplicate(table: Table, record: Record, row: Sequence[Value], seen: Dict[Key, int]) -> Iterator[CsvFault]:
    """Yields the fault of a row whose key occurred before, and notes the key."""
    key = tuple(row[place] for place in (table.place(name) for name in table.key) if place is not None)
    if key in seen:
        yield CsvFault(record, None, f"the key {key_text(key)} is also the key of record {seen[key]}",
                       f"E6 duplicate key {key_text(key)}")
    seen.setdefault(key, record.number)


class Spans:
    """Holds the periods of the rows that came, by entity; no two of an entity overlap."""

    def __init__(self, table: Table, period: Period) -> None:
        places = [table.place(period.start), table.place(period.end)]
        self.start, self.end = [0 if place is None else place for place in places]
        self.key = [place for place in (table.place(name) for name in table.key) if place is not None]
        self.known: Dict[Key, List[Tuple[int, int, int]]] = {}

    def span(self, row: Sequence[Value]) -> Tuple[int, int]:
        """Returns the start and the end of a row."""
        start, end = row[self.start], row[self.end]
        return (start, end) if isinstance(start, int) and isinstance(end, int) else (0, 0)

    def bad(self, record: Record, row: Sequence[Value]) -> Iterator[CsvFault]:
        """Yields the fault of a row whose period does not end after its start."""
        start, end = self.span(row)
        if start >= end:
            yield CsvFault(record, None, f"the period from {start} to {end} does not end after its start", "E15 bad period")

    def overlap(self, record: Record, row: Sequence[Value]) -> Iterator[CsvFault]:
        """Yields the fault of a row that overlaps an earlier one, and notes a row that does not."""
        start, end = self.span(row)
        key = tuple(row[place] for place in self.key)
        spans = self.known.setdefault(key[:-1], [])
        at = bisect.bisect_left(spans, (start, end, 0))
        near = [span for span in spans[max(at - 1, 0):at + 1] if span[0] < end and start < span[1]]
        if near:
            yield CsvFault(record, None, f"the period from {start} to {end} overlaps that of record {near[0][2]}",
                           f"E14 overlap {key_text(key)}")
        elif start < end:
            spans.insert(at, (start, end, record.number))


def check_rows(table: Table, records: Sequence[Record], places: Dict[int, int], most: Optional[int]) -> Checked:
    """Checks the records after the header; faults are in the order in which a load reports them."""
    faults: List[CsvFault] = []
    empty: List[CsvFault] = []
    doubles: List[CsvFault] = []
    overlaps: List[CsvFault] = []
    values: List[List[Value]] = []
    seen: Dict[Key, int] = {}
    spans = Spans(table, table.period) if table.period else None
    width = len(records[0].fields)
    for record in records[1:]:
        row = row_of(table, places, record, width, faults)
        if row is None:
            continue
        if spans:
            empty += spans.bad(record, row)
            overlaps += spans.overlap(record, row)
        doubles += duplicate(table, record, row, seen)
        values.append(row)
    many = len(records) - 1
    if most is not None and many > most:
        overlaps.append(CsvFault(None, None, f"the file has {many} rows; a load takes at most {most}: "
                                 "python3 -m tsvd load takes any number, in parts", "E9 too many writes"))
    return Checked(many, faults + empty + doubles + overlaps, values)


def check_csv(table: Table, data: bytes, most: Optional[int] = MOST_WRITTEN) -> Checked:
    """Checks the bytes of a file as a load of a table reads them; `most` is the greatest number of rows."""
    records = list(read_records(data))
    if not records:
        return Checked(0, [bad_row(None, None, "the file has no header", 0)], [])
    places, faults = header_places(table, records[0])
    if faults:
        return Checked(len(records) - 1, faults, [])
    return check_rows(table, records, places, most)


def chosen_table(schema: Schema, name: Optional[str]) -> Table:
    """Returns the table of a name, or the only one."""
    if name is None and len(schema.tables) == 1:
        return next(iter(schema.tables.values()))
    names: Set[str] = {table.name for table in schema.tables.values()}
    if name is None:
        raise ProgrammingError(f"the schema has several tables; give --table: {', '.join(sorted(names))}")
    table = schema.table(name)
    if not table:
        raise ProgrammingError(f"E2 no table: {name}; the tables are {', '.join(sorted(names))}")
    return table


def report(path: str, checked: Checked, stream: TextIO) -> int:
    """Prints the result and returns the exit status, 1 if a load would be refused."""
    for fault in checked.faults[:MOST_SHOWN]:
        print(f"{path}: {fault.text()}", file=stream)
    if len(checked.faults) > MOST_SHOWN:
        print(f"{path}: and {len(checked.faults) - MOST_SHOWN} more faults", file=stream)
    if checked.faults:
        print(f"a load fails with: load: {checked.faults[0].reply}", file=stream)
        return 1
    print(f"{path}: {checked.rows} row{'' if checked.rows == 1 else 's'}, ready to load", file=stream)
    return 0


def main(words: Sequence[str]) -> int:
    """Runs `check-csv FILE [--schema FILE] [--table NAME]`."""
    parser = argparse.ArgumentParser(prog="python3 -m tsvd check-csv")
    parser.add_argument("file", help="a CSV file to be loaded")
    parser.add_argument("--schema", help="the schema file; without it the sample table emp (no, name)")
    parser.add_argument("--table", help="the table, if the schema has several")
    given = parser.parse_args(words)
    table = chosen_table(schema_file(given.schema), given.table)
    return report(given.file, check_csv(table, pathlib.Path(given.file).read_bytes()), sys.stdout)
