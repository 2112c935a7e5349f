"""Writes all versions of all tables of a server as a script that leaves the same history."""

from __future__ import annotations

import argparse
from typing import Iterator, List, Sequence, Tuple

from .connection import Connection, connect
from .errors import InterfaceError
from .history import History, Version, script_lines
from .limits import GREATEST_INSTANT
from .output import write_lines
from .rows import read_row
from .schema import Table, schema_file


def version_of(table: Table, text: str) -> Version:
    """Reads a row with its period."""
    values, period = read_row(text)
    if period is None or len(values) != len(table.columns):
        raise InterfaceError(f"not a row of {table.name}; give the server's own --schema FILE: {text!r}")
    return Version(values, *period)


def read_histories(connection: Connection) -> Tuple[int, List[History]]:
    """Returns the last commit instant that a transaction sees, and all versions of all tables at it."""
    last = connection.begin()
    form = f"FOR SYSTEM_TIME BETWEEN 0 AND {GREATEST_INSTANT}"
    found = [History(table, [version_of(table, text) for text in connection.ask(f"SELECT * FROM {table.name} {form}")[1:]])
             for table in connection.schema.tables.values()]
    connection.rollback()
    return last, found


def backup_lines(last: int, histories: Sequence[History]) -> Iterator[str]:
    """Yields the script, below a comment with its tables."""
    counts = ", ".join(f"{history.table.name} ({len(history.versions)} version{'s' * (len(history.versions) != 1)})"
                       for history in histories)
    yield f"-- backup at the last commit instant {last}: {counts}"
    yield from script_lines(histories)


def main(words: Sequence[str]) -> int:
    """Runs `backup PORT [--schema FILE] [--wait SECONDS]`, and writes the script to standard output."""
    parser = argparse.ArgumentParser(prog="python3 -m tsvd backup",
                                     usage="%(prog)s PORT [--schema FILE] [--wait SECONDS] > SCRIPT",
                                     epilog="Run it with tsvd --schema FILE --script SCRIPT. Only tables of the schema "
                                     "are written.")
    parser.add_argument("port", type=int, help="the port of a running server")
    parser.add_argument("--schema", help="the schema file of the server; without it the sample table emp (no, name)")
    parser.add_argument("--wait", type=float, default=5.0, metavar="SECONDS",
                        help="the longest time until the server serves this session (5)")
    given = parser.parse_args(words)
    connection = connect(given.port, schema_file(given.schema), given.wait)
    try:
        last, histories = read_histories(connection)
    finally:
        connection.close()
    write_lines(backup_lines(last, histories))
    return 0
