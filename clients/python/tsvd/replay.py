"""Turns CSV files of versions with their periods into a script that leaves that history."""

from __future__ import annotations

import argparse
import pathlib
import sys
from typing import Dict, Iterator, List, NamedTuple, Optional, Sequence, Tuple

from .csv_check import Refused, chosen_table, header_places, value_of
from .csv_records import Quoted, Record, read_records
from .errors import DataError, ProgrammingError, Value
from .history import History, Version, script_lines
from .output import write_lines
from .period_check import Placed, faults_of
from .period_times import Times
from .schema import Column, Schema, Table, schema_file

TRUTHS = {b"0": b"false", b"1": b"true"}
# The names of a period's columns in MariaDB, in SQL Server, and in exports.
PERIODS = (("row_start", "row_end"), ("ValidFrom", "ValidTo"), ("SysStartTime", "SysEndTime"), ("sys_start", "sys_end"))
MOST_SHOWN = 20


class Words(NamedTuple):
    """Holds how a file writes its periods and NULL: column names, the text of NULL, and what an empty text means."""

    start: Optional[str] = None
    end: Optional[str] = None
    null: Optional[str] = None
    empty: Optional[str] = None
    gaps: bool = False


class Reader:
    """Reads the records of one file as versions of a table."""

    def __init__(self, table: Table, header: Record, words: Words) -> None:
        self.table = table
        self.words = words
        self.times = Times()
        self.width = len(header.fields)
        self.start, self.end = period_places(table, header, words)
        others = tuple(field for at, field in enumerate(header.fields) if at not in (self.start, self.end))
        self.sources = [at for at in range(self.width) if at not in (self.start, self.end)]
        self.places, faults = header_places(table, header._replace(fields=others))
        if faults:
            raise DataError(faults[0].text())

    def version(self, record: Record) -> Version:
        """Returns the version of a record, or raises Refused."""
        if len(record.fields) != self.width:
            raise Refused(f"the record has {len(record.fields)} fields, and the header {self.width}")
        start = self.times.start(record.fields[self.start])
        end = self.times.end(record.fields[self.end], self.words.null)
        if end is not None and end <= start:
            raise Refused(f"the period from {start} to {end} does not end after its start")
        return Version(tuple(self.values(record)), start, end)

    def values(self, record: Record) -> Iterator[Value]:
        """Yields the values of a record, in the table's order."""
        for place, column in enumerate(self.table.columns):
            at = self.places.get(place)
            yield self.absent(column) if at is None else self.value(column, record.fields[self.sources[at]])

    def absent(self, column: Column) -> Value:
        """Returns NULL for a column that the header leaves out, or raises Refused."""
        if column.not_null or self.table.is_key(column):
            raise Refused(f"{column.name}: the header leaves it out, and it cannot be NULL")
        return None

    def value(self, column: Column, field: bytes) -> Value:
        """Returns the value of a field, or raises Refused."""
        is_quoted = isinstance(field, Quoted)
        can_be_null = not (column.not_null or self.table.is_key(column))
        if not is_quoted and self.words.null is not None and field == self.words.null.encode("utf-8"):
            return self.absent(column)
        if column.type == "TEXT" and field == b"" and not is_quoted and can_be_null:
            return self.empty(column)
        try:
            plain = TRUTHS.get(field, field) if column.type == "BOOLEAN" else field
            return value_of(self.table, column, plain)
        except Refused as why:
            raise Refused(f"{column.name}: {why}") from None

    def empty(self, column: Column) -> Value:
        """Returns what an empty field without quotes is in a TEXT column that may be NULL, or raises Refused."""
        if self.words.empty is None and self.words.null is None:
            raise Refused(f"{column.name}: an empty field may be NULL or the empty text; say --empty null or --empty text, "
                          "or --null TEXT if NULL is written in another way")
        return None if self.words.empty == "null" else ""


def period_places(table: Table, header: Record, words: Words) -> Tuple[int, int]:
    """Returns the positions of the period's columns in the header."""
    names = [field.decode("ascii", "replace").lower() for field in header.fields]
    if bool(words.start) != bool(words.end):
        raise ProgrammingError("give --start and --end together")
    known = [(words.start, words.end)] if words.start and words.end else [(table.row_start, table.row_end), *PERIODS]
    for start, end in known:
        if start.lower() in names and end.lower() in names:
            return names.index(start.lower()), names.index(end.lower())
    tried = "; ".join(f"{start}, {end}" for start, end in known)
    raise ProgrammingError(f"{table.name}: the header has no period columns ({tried}); name them with --start and --end")


def read_file(table: Table, data: bytes, words: Words) -> Tuple[List[Placed], List[str]]:
    """Returns the versions of a file with their records, and the faults of records."""
    records = list(read_records(data))
    if not records:
        raise DataError(f"{table.name}: the file has no header")
    reader = Reader(table, records[0], words)
    placed: List[Placed] = []
    faults: List[str] = []
    for record in records[1:]:
        try:
            placed.append(Placed(record, reader.version(record)))
        except (Refused, DataError) as why:
            faults.append(f"record {record.number} (line {record.line}): {why}")
    return placed, faults


def split_files(schema: Schema, files: Sequence[str]) -> Dict[str, Tuple[Table, str]]:
    """Returns the table and the path of each TABLE=FILE."""
    found: Dict[str, Tuple[Table, str]] = {}
    for word in files:
        name, equals, path = word.partition("=")
        if not (name and equals and path):
            raise ProgrammingError(f"{word}: write TABLE=FILE")
        table = chosen_table(schema, name)
        if table.name in found:
            raise ProgrammingError(f"{word}: the table has a file already")
        found[table.name] = (table, path)
    return found


def read_histories(schema: Schema, files: Sequence[str], words: Words) -> Optional[List[History]]:
    """Reads the files, or prints their faults to standard error and returns None."""
    histories: List[History] = []
    told: List[str] = []
    for table, path in split_files(schema, files).values():
        placed, faults = read_file(table, pathlib.Path(path).read_bytes(), words)
        faults = faults or list(faults_of(table, placed, words.gaps))
        told += [f"{path}: {fault}" for fault in faults]
        histories.append(History(table, [one.version for one in placed]))
    for line in told[:MOST_SHOWN]:
        print(line, file=sys.stderr)
    if len(told) > MOST_SHOWN:
        print(f"and {len(told) - MOST_SHOWN} more faults", file=sys.stderr)
    return None if told else histories


def main(words: Sequence[str]) -> int:
    """Runs `replay TABLE=FILE.. [options]`, and writes the script to standard output."""
    parser = argparse.ArgumentParser(prog="python3 -m tsvd replay", usage="%(prog)s TABLE=FILE.. [options] > SCRIPT",
                                     epilog="Dates without a zone are in local time: set TZ to the zone of the file.")
    parser.add_argument("files", nargs="+", metavar="TABLE=FILE", help="a table, and a CSV file of its versions")
    parser.add_argument("--schema", help="the schema file; without it the sample table emp (no, name)")
    parser.add_argument("--start", metavar="NAME", help="the column of the start of a version's period")
    parser.add_argument("--end", metavar="NAME", help="the column of its end")
    parser.add_argument("--null", metavar="TEXT", help="the field that is NULL, such as NULL or \\N")
    parser.add_argument("--empty", choices=("null", "text"), help="what an empty field of a TEXT column is")
    parser.add_argument("--gaps", action="store_true", help="a gap between versions of a key is a deletion")
    given = parser.parse_args(words)
    options = Words(given.start, given.end, given.null, given.empty, given.gaps)
    histories = read_histories(schema_file(given.schema), given.files, options)
    if histories is None:
        return 1
    write_lines(script_lines(histories))
    return 0
