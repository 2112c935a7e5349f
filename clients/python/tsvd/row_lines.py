"""Lines that insert and delete rows of a table, of any size that a table holds."""

from __future__ import annotations

from typing import Iterable, Iterator, List, Sequence, Tuple

from .errors import Value
from .inserts import packed
from .limits import LONGEST_LINE
from .literals import literal
from .schema import Column, Table

Row = Sequence[Value]


def size_of(line: str) -> int:
    """Returns the length of a line in bytes."""
    return len(line.encode("utf-8"))


def row_text(row: Row) -> str:
    """Returns a row in parentheses."""
    return "(" + ", ".join(map(literal, row)) + ")"


def insert_prefix(table: Table, session: str) -> str:
    """Returns an INSERT up to its rows."""
    return f"{session}INSERT INTO {table.name} VALUES "


def where_key(table: Table, row: Row) -> str:
    """Returns the comparisons that the key of a row alone meets."""
    return "WHERE " + " AND ".join(f"{name} = {literal(value)}" for name, value in zip(table.key, key_of(table, row)))


def key_of(table: Table, row: Row) -> Tuple[Value, ...]:
    """Returns the key of a row."""
    return tuple(row[place] for place in (table.place(name) for name in table.key) if place is not None)


def entity_of(table: Table, row: Row) -> Tuple[Value, ...]:
    """Returns the values of a row's entity, in a table with a period of application time."""
    return key_of(table, row)[:-1]


def delete_line(table: Table, row: Row, session: str = "") -> str:
    """Returns the line that deletes a row by its key."""
    return f"{session}DELETE FROM {table.name} {where_key(table, row)}"


def can_wait(table: Table, column: Column) -> bool:
    """Returns whether a column may be set by an UPDATE behind the INSERT."""
    return column.type == "TEXT" and not table.is_key(column)


def shortened(table: Table, row: Row) -> List[Value]:
    """Returns a row with the least texts in the columns that an UPDATE sets later."""
    least = ["" if column.not_null else None for column in table.columns]
    return [short if can_wait(table, column) else value for column, value, short in zip(table.columns, row, least)]


def long_row_lines(table: Table, row: Row, session: str) -> Iterator[str]:
    """Yields the lines of a row that is longer than a line: an INSERT, and UPDATEs of its texts."""
    yield insert_prefix(table, session) + row_text(shortened(table, row))
    head, tail = f"{session}UPDATE {table.name} SET ", " " + where_key(table, row)
    held: List[str] = []
    for column, value in zip(table.columns, row):
        if not can_wait(table, column) or value is None:
            continue
        part = f"{column.name} = {literal(value)}"
        if held and size_of(head + ", ".join([*held, part]) + tail) > LONGEST_LINE:
            yield head + ", ".join(held) + tail
            held = []
        held.append(part)
    if held:
        yield head + ", ".join(held) + tail


def insert_lines(table: Table, rows: Iterable[Row], session: str = "") -> Iterator[str]:
    """Yields the lines that insert rows in one transaction; `session` is the `1: ` of a script."""
    prefix = insert_prefix(table, session)
    texts: List[str] = []
    long: List[Row] = []
    for row in rows:
        text = row_text(row)
        if size_of(prefix + text) <= LONGEST_LINE:
            texts.append(text)
        else:
            long.append(row)
    yield from packed(prefix, texts)
    for row in long:
        yield from long_row_lines(table, row, session)
