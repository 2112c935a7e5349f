"""Tables declared by a schema; replies do not contain column names.

Only the server checks a schema. This reader takes what a client needs and skips entries that it
does not know, so that later grammars can be read too.
"""

from __future__ import annotations

import pathlib
import re
from typing import Dict, List, NamedTuple, Optional, Sequence, Tuple, Union

from .errors import ProgrammingError

TOKEN = re.compile(r"\w+|[^\w\s]")
TYPES = {"INT": "INT", "INTEGER": "INT", "BIGINT": "INT", "TEXT": "TEXT", "VARCHAR": "TEXT", "BOOLEAN": "BOOLEAN"}
SAMPLE_TEXT = """CREATE TABLE emp (
  no INT,
  name TEXT,
  sys_start TIMESTAMP(12) GENERATED ALWAYS AS ROW START,
  sys_end TIMESTAMP(12) GENERATED ALWAYS AS ROW END,
  PERIOD FOR SYSTEM_TIME (sys_start, sys_end),
  PRIMARY KEY (no)
) WITH SYSTEM VERSIONING;
"""


class Column(NamedTuple):
    """Describes a user column; `type` is INT, TEXT or BOOLEAN, `characters` the n of VARCHAR(n)."""

    name: str
    type: str
    characters: Optional[int]
    not_null: bool


class Period(NamedTuple):
    """Describes a period of application time, by its name and the names of its columns."""

    name: str
    start: str
    end: str


class Table(NamedTuple):
    """Describes a table: its user columns, and the names of its key and period columns.

    The key of a table with a period of application time ends with the period's start.
    """

    name: str
    columns: Tuple[Column, ...]
    key: Tuple[str, ...]
    row_start: str
    row_end: str
    period: Optional[Period] = None

    def place(self, name: str) -> Optional[int]:
        """Returns the position of a user column, from 0, or None."""
        names = [column.name.lower() for column in self.columns]
        return names.index(name.lower()) if name.lower() in names else None

    def is_key(self, column: Column) -> bool:
        """Returns whether a column is a key column."""
        return column.name.lower() in (name.lower() for name in self.key)

    def key_columns(self) -> List[Column]:
        """Returns the key columns, in the order of the key."""
        found = {column.name.lower(): column for column in self.columns}
        return [found[name.lower()] for name in self.key if name.lower() in found]


class Schema:
    """Holds the tables of a schema by name."""

    def __init__(self, tables: Sequence[Table]) -> None:
        self.tables: Dict[str, Table] = {table.name.lower(): table for table in tables}

    def table(self, name: str) -> Optional[Table]:
        """Returns the table with a name, in any case, or None."""
        return self.tables.get(name.lower())


class Entries:
    """Collects the entries of one CREATE TABLE statement."""

    def __init__(self) -> None:
        self.columns: List[Column] = []
        self.key: List[str] = []
        self.period = {"START": "sys_start", "END": "sys_end"}
        self.application: Optional[Period] = None

    def add(self, words: List[str]) -> None:
        """Adds an entry, given as tokens."""
        upper = [word.upper() for word in words]
        if upper[:2] == ["PRIMARY", "KEY"]:
            self.key = names_in(words)
        elif upper[0] == "PERIOD":
            self.add_period(words)
        elif upper[1:2] == ["TIMESTAMP"]:
            self.add_generated(words[0], upper)
        elif upper[1:2] and upper[1] in TYPES:
            self.add_column(words[0], upper)

    def add_period(self, words: List[str]) -> None:
        """Adds a period of application time; the period of system time has no columns to set."""
        names = names_in(words)
        if len(words) > 2 and words[2].upper() != "SYSTEM_TIME" and len(names) == 2:
            self.application = Period(words[2], *names)

    def finish(self) -> None:
        """Puts the period's start in the place of its name in the key; its columns are never NULL."""
        period = self.application
        if period:
            own = (period.start.lower(), period.end.lower())
            self.key = [period.start if name.lower() == period.name.lower() else name for name in self.key]
            self.columns = [column._replace(not_null=column.not_null or column.name.lower() in own) for column in self.columns]

    def add_generated(self, name: str, upper: List[str]) -> None:
        """Adds a ROW START or ROW END column."""
        for side in self.period:
            if side in upper:
                self.period[side] = name

    def add_column(self, name: str, upper: List[str]) -> None:
        """Adds a user column."""
        digits = upper[3] if upper[2:3] == ["("] and upper[3:4] and upper[3].isdecimal() else None
        self.columns.append(Column(name, TYPES[upper[1]], int(digits) if digits else None, "NOT" in upper))
        if "PRIMARY" in upper:
            self.key = [name]


def names_in(words: List[str]) -> List[str]:
    """Returns the first name of each part of a list in parentheses."""
    inside = words[words.index("(") + 1:] if "(" in words else []
    return [word for before, word in zip(["("] + inside, inside) if before in ("(", ",") and word != ")"]


def entries_in(tokens: List[str]) -> List[List[str]]:
    """Splits the tokens in a table's parentheses at the commas of the outermost level."""
    entries: List[List[str]] = [[]]
    depth = 0
    for token in tokens:
        depth += {"(": 1, ")": -1}.get(token, 0)
        if depth < 0:
            break
        if token == "," and depth == 0:
            entries.append([])
        else:
            entries[-1].append(token)
    return [entry for entry in entries if entry]


def table_of(tokens: List[str]) -> Table:
    """Reads the tokens of one CREATE TABLE statement."""
    if [token.upper() for token in tokens[:2]] != ["CREATE", "TABLE"] or tokens[3:4] != ["("]:
        raise ProgrammingError("schema: not a CREATE TABLE statement: " + " ".join(tokens[:4]))
    entries = Entries()
    for entry in entries_in(tokens[4:]):
        entries.add(entry)
    entries.finish()
    if not entries.columns:
        raise ProgrammingError(f"schema: table {tokens[2]} has no column")
    return Table(tokens[2], tuple(entries.columns), tuple(entries.key),
                 entries.period["START"], entries.period["END"], entries.application)


def read_schema(text: str) -> Schema:
    """Reads the tables of a schema's text."""
    plain = re.sub(r"--[^\n]*", " ", text)
    statements = [TOKEN.findall(part) for part in plain.split(";")]
    tables = [table_of(tokens) for tokens in statements if tokens]
    if not tables:
        raise ProgrammingError("schema: no CREATE TABLE statement")
    return Schema(tables)


def schema_of(schema: Union[None, str, Schema]) -> Schema:
    """Returns the schema of a text, or the sample schema for None."""
    if isinstance(schema, Schema):
        return schema
    return read_schema(SAMPLE_TEXT if schema is None else schema)


def schema_file(path: Optional[str]) -> Schema:
    """Reads a schema file, or returns the sample schema for None."""
    return schema_of(pathlib.Path(path).read_text(encoding="utf-8") if path else None)
