"""Loads a CSV file of any length into a server, or makes a script of it."""

from __future__ import annotations

import argparse
import pathlib
import sys
from typing import Iterator, List, Sequence, TextIO

from .connection import Connection, connect
from .csv_check import check_csv, chosen_table, report
from .errors import Error, ProgrammingError, Value
from .inserts import parts
from .instants import read_instant
from .limits import MOST_WRITTEN
from .output import write_lines
from .row_lines import insert_lines
from .schema import Schema, Table, schema_file

SESSION = "1: "
Rows = List[List[Value]]


class Progress:
    """Counts the rows that are committed, and at a terminal shows them on a line that is written over."""

    def __init__(self, total: int, stream: TextIO) -> None:
        self.total = total
        self.done = 0
        self.stream = stream if stream.isatty() else None

    def add(self, rows: int) -> None:
        """Counts rows, and shows how many there are."""
        self.done += rows
        if self.stream:
            self.stream.write(f"\r{self.done} of {self.total} rows")
            self.stream.flush()

    def end(self) -> None:
        """Ends the line."""
        if self.stream and self.done:
            self.stream.write("\n")


def send_rows(connection: Connection, table: Table, rows: Rows, progress: Progress) -> None:
    """Inserts rows in transactions of 1,000."""
    for part in parts(rows):
        lines = list(insert_lines(table, part))
        with connection:
            connection.cursor().write(lines)
        progress.add(len(part))


def load_served(port: int, schema: Schema, table: Table, rows: Rows) -> int:
    """Loads rows into a server, and returns the exit status."""
    progress = Progress(len(rows), sys.stderr)
    connection = connect(port, schema)
    try:
        send_rows(connection, table, rows, progress)
    except (Error, KeyboardInterrupt) as fault:
        progress.end()
        first, last = progress.done + 1, min(progress.done + MOST_WRITTEN, len(rows))
        print(f"load: rows {first} to {last}: {fault or 'interrupted'}; the {progress.done} rows before them are committed",
              file=sys.stderr)
        return 1
    finally:
        connection.close()
    progress.end()
    print(f"loaded {len(rows)} at {connection.last_commit or 0}")
    return 0


def script_lines(table: Table, rows: Rows, at: int) -> Iterator[str]:
    """Yields a script that inserts rows, the last transaction at an instant, or without readings for 0."""
    sizes = -(-len(rows) // MOST_WRITTEN)
    if at and at < sizes:
        raise ProgrammingError(f"--at {at}: {len(rows)} rows are {sizes} transactions, which need as many instants "
                               f"from 1 on; give an instant from {sizes} on")
    for turn, part in enumerate(parts(rows)):
        if at:
            yield f"clock: {at - sizes + 1 + turn}"
        yield f"{SESSION}BEGIN"
        yield from insert_lines(table, part, SESSION)
        yield f"{SESSION}COMMIT"


def main(words: Sequence[str]) -> int:
    """Runs `load FILE [--table T] [--schema FILE] [--port PORT | --at DATE]`; without a port it writes a script."""
    parser = argparse.ArgumentParser(prog="python3 -m tsvd load", epilog="Without --port a script is written to "
                                     "standard output, in transactions of 1,000 rows as at a server.")
    parser.add_argument("file", help="a CSV file, as tsvd --load reads it")
    parser.add_argument("--table", help="the table, if the schema has several")
    parser.add_argument("--schema", help="the schema file; without it the sample table emp (no, name)")
    parser.add_argument("--port", type=int, help="the port of a running server, which takes the instants from its clock")
    parser.add_argument("--at", metavar="DATE", help="the instant or date at which all rows are on record, for a script")
    given = parser.parse_args(words)
    if given.port is not None and given.at is not None:
        parser.error("a server takes instants from its clock: give --at without --port, and run the script")
    schema = schema_file(given.schema)
    table = chosen_table(schema, given.table)
    checked = check_csv(table, pathlib.Path(given.file).read_bytes(), None)
    if checked.faults:
        return report(given.file, checked, sys.stderr)
    if given.port is not None:
        return load_served(given.port, schema, table, checked.values)
    write_lines(script_lines(table, checked.values, read_instant(given.at) if given.at else 0))
    return 0
