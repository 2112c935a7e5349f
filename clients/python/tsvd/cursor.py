"""PEP 249 cursors: a statement and the rows of its reply."""

from __future__ import annotations

import re
from typing import TYPE_CHECKING, Any, Iterable, Iterator, List, NamedTuple, Optional, Sequence, Tuple

from .catalogue import tables_named
from .days import BOUND, Field, Reads
from .errors import Error, InterfaceError, NotSupportedError, ProgrammingError, Value
from .inserts import lines_of, lines_of_one, parts, row_start
from .limits import MOST_WRITTEN
from .lines import checked_text
from .literals import Statement, bind
from .replies import first_word
from .rows import read_row
from .schema import Schema, Table

if TYPE_CHECKING:
    from .connection import Connection

Row = Tuple[Field, ...]
Description = Tuple[str, Optional[str], None, None, None, None, Optional[bool]]

WRITES = ("INSERT", "UPDATE", "DELETE")
STATEMENTS = (*WRITES, "SELECT")
DECLARATIONS = ("CREATE", "DROP")
COUNTED = ("inserted", "updated", "deleted")
QUERY = re.compile(r"\s*SELECT\s*\*\s*FROM\s+(\w+)(?:\s+FOR\s+SYSTEM_TIME\s+(\w+))?", re.I)


class Query(NamedTuple):
    """Holds the table of a SELECT, and whether its rows come with their periods."""

    table: str
    has_periods: bool


def query_of(line: str) -> Query:
    """Returns the query of a SELECT that was answered."""
    found = QUERY.match(line)
    if not found:
        raise InterfaceError(f"rows in reply to a line that is not a SELECT: {line!r}")
    table, form = found.groups()
    return Query(table, (form or "").upper() in ("FROM", "BETWEEN"))


def named(name: str, kind: Optional[str], may_be_null: Optional[bool]) -> Description:
    """Makes one column's entry of a description."""
    return (name, kind, None, None, None, None, may_be_null)


def column_descriptions(table: Table) -> List[Description]:
    """Describes the user columns of a table."""
    return [named(column.name, column.type, not (column.not_null or table.is_key(column)))
            for column in table.columns]


def describe(schema: Schema, query: Query, width: int) -> List[Description]:
    """Describes the columns of rows; columns of an unknown table are named by number."""
    table = schema.table(query.table)
    if table:
        columns = column_descriptions(table)
    else:
        columns = [named(str(number), None, None) for number in range(1, width + 1 - 2 * query.has_periods)]
    if query.has_periods:
        columns.append(named(table.row_start if table else "start", "INT", False))
        columns.append(named(table.row_end if table else "end", "INT", True))
    return columns


def typed_row(text: str, has_periods: bool) -> Tuple[Value, ...]:
    """Reads a row. A period adds two values, its start and its end; None means `forever`."""
    values, period = read_row(text)
    if (period is not None) != has_periods:
        raise InterfaceError(f"not a row of this query: {text!r}")
    return values + period if period is not None else values


def dated_rows(rows: Sequence[Tuple[Value, ...]], readers: Sequence[Optional[Reads]]) -> List[Row]:
    """Returns rows with dates in the columns that have readers."""
    if not any(readers):
        return list(rows)
    return [tuple(reads.read(value) if reads else value for reads, value in zip(readers, row)) for row in rows]


class Cursor:
    """Executes statements of a connection, and holds the rows of the last one."""

    arraysize = 1
    lastrowid = None

    def __init__(self, connection: "Connection") -> None:
        self.connection = connection
        self.description: Optional[List[Description]] = None
        self.rowcount = -1
        self.reply = ""
        self.rows: Optional[List[Row]] = None
        self.next = 0
        self.has_periods = False
        self.is_open = True

    def __enter__(self) -> "Cursor":
        return self

    def __exit__(self, *_: Any) -> None:
        """Closes the cursor."""
        self.close()

    def close(self) -> None:
        """Closes the cursor; it takes no more statements."""
        self.is_open, self.rows, self.description = False, None, None

    def execute(self, statement: str, values: Sequence[Any] = ()) -> "Cursor":
        """Executes a statement, with a value for each question mark.

        A statement that reads or writes begins a transaction if none is open; with the connection's
        `autocommit` it is one by itself. Line ends outside texts count as blanks.
        """
        found = tables_named(self.connection.schema, statement, values)
        if found is not None:
            return self.hold(found)
        line = checked_text(bind(statement, values, self.connection.days))
        self.check_open()
        word = first_word(line)
        if word in DECLARATIONS:
            raise NotSupportedError(f"no {word} here: a server's tables are those of its --schema FILE")
        if self.connection.in_transaction or word not in STATEMENTS:
            return self.ask(line)
        if not self.connection.autocommit:
            self.connection.begin()
        elif word in WRITES:
            return self.ask_alone(line)
        return self.ask(line)

    def ask_alone(self, line: str) -> "Cursor":
        """Sends a line that writes as a transaction by itself."""
        self.connection.begin()
        with self.connection:
            return self.ask(line)

    def ask(self, line: str) -> "Cursor":
        """Sends a line as it is, without beginning a transaction, and keeps its reply."""
        self.reset()
        head, *rows = self.connection.ask(line)
        self.reply = head
        if head.startswith("rows "):
            self.take_rows(query_of(line), rows)
        elif head.split()[0] in COUNTED:
            self.rowcount = int(head.split()[1])
        return self

    def executemany(self, statement: str, many: Iterable[Sequence[Any]]) -> "Cursor":
        """Executes a statement that writes once for each sequence of values.

        Rows of an INSERT are sent in as few lines as they fit into, in one transaction of at most 1,000
        rows. Nothing of it is sent if a value is refused. With the connection's `autocommit` any number of rows
        is inserted, in transactions of 1,000 rows; at a refusal `rows` of the exception, and `rowcount`,
        say how many are committed.
        """
        self.reset()
        prepared = Statement(statement, self.connection.days)
        if first_word(prepared.text) not in WRITES:
            raise ProgrammingError("executemany takes INSERT, UPDATE and DELETE")
        if self.connection.in_transaction or not self.connection.autocommit:
            return self.write(lines_of_one(prepared, many))
        return self.write_parts(prepared, many)

    def write(self, lines: Sequence[str]) -> "Cursor":
        """Sends lines that write in the open transaction, or in one that they begin."""
        if lines and not self.connection.in_transaction:
            self.connection.begin()
        total = 0
        for line in lines:
            self.ask(line)
            total += self.rowcount
        self.rowcount = total
        return self

    def write_parts(self, statement: Statement, many: Iterable[Sequence[Any]]) -> "Cursor":
        """Sends rows of an INSERT in transactions of 1,000 rows, or any other statement in one of its own each time."""
        total = 0
        try:
            for part in parts(many, MOST_WRITTEN if row_start(statement) is not None else 1):
                lines = lines_of(statement, part)
                with self.connection:
                    self.write(lines)
                total += self.rowcount
        except Error as fault:
            fault.rows = total
            raise
        finally:
            self.rowcount = total
        return self

    def hold(self, rows: List[Tuple[str]]) -> "Cursor":
        """Keeps rows that no server was asked for."""
        self.reset()
        self.description = [named("name", "TEXT", False)]
        self.rows, self.rowcount = list(rows), len(rows)
        return self

    def check_open(self) -> None:
        """Raises where the cursor or its connection is closed."""
        if not self.is_open:
            raise InterfaceError("the cursor is closed")
        self.connection.check_open()

    def reset(self) -> None:
        """Clears the result of the last statement."""
        self.check_open()
        self.description, self.rowcount, self.reply, self.rows, self.next = None, -1, "", None, 0
        self.has_periods = False

    def take_rows(self, query: Query, texts: List[str]) -> None:
        """Keeps the rows of a reply as typed values."""
        rows = [typed_row(text, query.has_periods) for text in texts]
        description = describe(self.connection.schema, query, len(rows[0]) if rows else 0)
        if rows and len(description) != len(rows[0]):
            raise InterfaceError(f"rows of {query.table} have {len(rows[0])} values; the schema is not the server's")
        readers = self.readers(query, len(description))
        self.description = [named(entry[0], reads.code if reads else entry[1], entry[6])
                            for entry, reads in zip(description, readers)]
        self.rows, self.rowcount, self.has_periods = dated_rows(rows, readers), len(rows), query.has_periods

    def readers(self, query: Query, width: int) -> List[Optional[Reads]]:
        """Returns for each column of rows what makes dates of its values, None where it holds none."""
        table = self.connection.schema.table(query.table)
        bounds: List[Optional[Reads]] = [BOUND if self.connection.datetimes else None] * 2 if query.has_periods else []
        columns = self.connection.days.readers(table) if table else [None] * (width - len(bounds))
        return columns + bounds

    def held(self) -> List[Row]:
        """Returns all rows of the last SELECT."""
        if self.rows is None:
            raise InterfaceError("the last statement returned no rows")
        return self.rows

    def fetchone(self) -> Optional[Row]:
        """Returns the next row, or None after the last."""
        rows = self.fetchmany(1)
        return rows[0] if rows else None

    def fetchmany(self, size: Optional[int] = None) -> List[Row]:
        """Returns the next rows, `arraysize` of them by default."""
        rows = self.held()[self.next:self.next + (self.arraysize if size is None else size)]
        self.next += len(rows)
        return rows

    def fetchall(self) -> List[Row]:
        """Returns all remaining rows."""
        rows = self.held()[self.next:]
        self.next += len(rows)
        return rows

    def __iter__(self) -> Iterator[Row]:
        """Returns the cursor, which yields the remaining rows."""
        return self

    def __next__(self) -> Row:
        """Returns the next row."""
        row = self.fetchone()
        if row is None:
            raise StopIteration
        return row

    def setinputsizes(self, _: Any) -> None:
        """Does nothing, as PEP 249 allows."""

    def setoutputsize(self, *_: Any) -> None:
        """Does nothing, as PEP 249 allows."""
