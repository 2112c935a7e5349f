"""What a table had on record as of an instant, as CSV or JSON with dates."""

from __future__ import annotations

import argparse
import datetime
import json
import re
from typing import Any, Dict, Iterator, List, NamedTuple, Optional, Sequence, Tuple

from .connection import Connection, connect
from .csv_check import chosen_table
from .cursor import typed_row
from .days import Days, Field, read_days
from .errors import DataError, ProgrammingError, Value
from .instants import iso_text, read_instant, read_moment
from .limits import GREATEST_INSTANT
from .literals import literal, replace_dates
from .meanings import Meaning
from .output import write_lines
from .schema import Table, schema_file

NUMBER = re.compile(r"-?[0-9]+")
QUOTED = re.compile(r'[",\r\n]')
NOT_FINAL = "no: a commit at or before t may still come"


class Extract(NamedTuple):
    """Holds what was on record as of an instant: the last commit instant that was seen, the column names and the rows."""

    table: str
    instant: int
    last_commit: int
    names: List[str]
    rows: List[List[Field]]

    def is_final(self) -> bool:
        """Returns whether no later commit can change what was on record as of the instant."""
        return self.instant <= self.last_commit


def about_value(table: Table, days: Days, about: str) -> int:
    """Returns a day or number of a table's application time as its columns hold it."""
    if not table.period:
        raise ProgrammingError(f"--about {about}: {table.name} has no period of application time")
    if NUMBER.fullmatch(about):
        return int(about)
    value = days.value_of(read_moment(about), Meaning(False, table.name, table.period.start))
    return value if isinstance(value, int) else 0


def conditions(table: Table, where: Optional[str], about: Optional[int]) -> str:
    """Returns the comparisons of a query; a row that is about a day starts on it or before it."""
    parts = [where] if where else []
    if about is not None and table.period:
        parts.append(f"{table.period.start} <= {literal(about)}")
    return " WHERE " + " AND ".join(parts) if parts else ""


def is_about(table: Table, row: Sequence[Value], about: Optional[int]) -> bool:
    """Returns whether the period of application time of a row ends after a day."""
    place = table.place(table.period.end) if table.period else None
    end = row[place] if place is not None else None
    return about is None or (isinstance(end, int) and end > about)


def ask(connection: Connection, line: str) -> Tuple[int, List[Tuple[Value, ...]]]:
    """Returns the last commit instant that a transaction sees, and the rows of its query."""
    last = connection.begin()
    try:
        return last, [typed_row(text, True) for text in connection.ask(line)[1:]]
    finally:
        if connection.in_transaction:
            connection.rollback()


def extract(connection: Connection, table: Table, instant: int, where: Optional[str] = None,
            about: Optional[int] = None) -> Extract:
    """Returns the rows of a table as of an instant, with the periods in which they are on record."""
    if instant > GREATEST_INSTANT:
        raise DataError(f"--as-of {instant}: the greatest instant is {GREATEST_INSTANT}")
    form = f"FOR SYSTEM_TIME BETWEEN {instant} AND {instant}"
    line = f"SELECT * FROM {table.name} {form}{conditions(table, where, about)}"
    last, rows = ask(connection, replace_dates(line, connection.days))
    readers = connection.days.readers(table)
    kept = [dated(row, readers) for row in rows if is_about(table, row, about)]
    names = [column.name for column in table.columns] + [table.row_start, table.row_end]
    return Extract(table.name, instant, last, names, kept)


def dated(row: Sequence[Value], readers: Sequence[Any]) -> List[Field]:
    """Returns a row with dates in the columns that have readers, and its period in ISO form."""
    fields: List[Field] = [reads.read(value) if reads else value for reads, value in zip(readers, row)]
    return fields + [iso_text(bound) if isinstance(bound, int) else None for bound in row[-2:]]


def csv_field(value: Field) -> str:
    """Returns a field of a CSV file: NULL is empty, and the empty text is in quotes."""
    if value is None:
        return ""
    if isinstance(value, bool):
        return "true" if value else "false"
    text = value.isoformat() if isinstance(value, datetime.date) else str(value)
    return '"' + text.replace('"', '""') + '"' if text == "" or QUOTED.search(text) else text


def csv_lines(found: Extract) -> Iterator[str]:
    """Yields an extract as CSV, below a line that begins with a number sign."""
    yield (f"# {found.table} as of {iso_text(found.instant)} (t = {found.instant}); last commit "
           f"{iso_text(found.last_commit)} (S = {found.last_commit}); final: {'yes' if found.is_final() else NOT_FINAL}")
    yield ",".join(found.names)
    for row in found.rows:
        yield ",".join(map(csv_field, row))


def dated_instant(instant: int) -> Dict[str, Any]:
    """Returns an instant for JSON."""
    return {"instant": instant, "date": iso_text(instant)}


def json_lines(found: Extract) -> Iterator[str]:
    """Yields an extract as one JSON object, with a line for each row."""
    head = {"table": found.table, "as_of": dated_instant(found.instant),
            "last_commit": dated_instant(found.last_commit), "final": found.is_final()}
    yield json.dumps(head)[:-1] + ', "rows": ['
    for turn, row in enumerate(found.rows):
        values = [value.isoformat() if isinstance(value, datetime.date) else value for value in row]
        yield json.dumps(dict(zip(found.names, values))) + ("," if turn + 1 < len(found.rows) else "")
    yield "]}"


FORMATS = {"csv": csv_lines, "json": json_lines}


def main(words: Sequence[str]) -> int:
    """Runs `extract PORT TABLE --as-of DATE [--about DAY] [--where ..] [--format csv|json]`."""
    parser = argparse.ArgumentParser(prog="python3 -m tsvd extract")
    parser.add_argument("port", type=int, help="the port of a running server")
    parser.add_argument("table", help="the table")
    parser.add_argument("--as-of", required=True, metavar="DATE", help="the instant, or a date such as 2026-04-01T09:30")
    parser.add_argument("--about", metavar="DAY", help="only rows whose period of application time has that day")
    parser.add_argument("--where", metavar="TEXT", help="comparisons of key columns, as behind WHERE")
    parser.add_argument("--format", choices=sorted(FORMATS), default="csv")
    parser.add_argument("--schema", help="the schema file of the server; without it the sample table emp (no, name)")
    parser.add_argument("--days", action="append", metavar="NAME=FORM", help="how a table or a column holds dates")
    given = parser.parse_args(words)
    schema = schema_file(given.schema)
    table = chosen_table(schema, given.table)
    days = Days(read_days(given.days), schema)
    about = about_value(table, days, given.about) if given.about is not None else None
    instant = read_instant(given.as_of)
    connection = connect(given.port, schema, days=read_days(given.days))
    try:
        found = extract(connection, table, instant, given.where, about)
    finally:
        connection.close()
    write_lines(FORMATS[given.format](found))
    return 0
