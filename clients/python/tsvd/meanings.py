"""What each value of a statement stands for: an instant of system time, or a value of a column."""

from __future__ import annotations

from typing import Iterator, List, NamedTuple, Optional, Tuple

from .schema import Schema, Table
from .tokens import DAY, MARK, NUMBER, TEXT, Token, WORD, tokens_of

VALUES = (DAY, MARK, NUMBER, TEXT)
CONSTANTS = ("TRUE", "FALSE", "NULL")
NOTHING, SYSTEM, PORTION, COMPARED, LISTED, SPLITTING = "", "system time", "portion", "compared", "listed", "split"
ZONES = {"SYSTEM_TIME": SYSTEM, "CLOCK": SYSTEM, "PORTION": PORTION, "SET": COMPARED, "WHERE": COMPARED,
         "VALUES": LISTED, "SPLIT": SPLITTING}
BEFORE_TABLE = ("INTO", "UPDATE", "FROM", "KEY", "TIME")


class Meaning(NamedTuple):
    """Says what a value stands for; without a column and system time it is unknown."""

    is_system_time: bool
    table: Optional[str] = None
    column: Optional[str] = None


class Reader:
    """Follows the tokens of a statement from the left."""

    def __init__(self, schema: Schema) -> None:
        self.schema = schema
        self.zone = NOTHING
        self.table_follows = False
        self.table_name: Optional[str] = None
        self.listed: List[str] = []
        self.column: Optional[str] = None
        self.place = 0

    def table(self) -> Optional[Table]:
        """Returns the statement's table, if it is known."""
        return self.schema.table(self.table_name) if self.table_name else None

    def meaning(self) -> Meaning:
        """Returns what a value that comes next stands for."""
        if self.zone == SYSTEM:
            return Meaning(True)
        if self.zone in (LISTED, SPLITTING):
            names = self.names()
            return Meaning(False, self.table_name, names[self.place] if self.place < len(names) else None)
        return Meaning(False, self.table_name, self.column)

    def names(self) -> List[str]:
        """Returns the columns of a row in parentheses."""
        table = self.table()
        if self.zone == SPLITTING:
            return [column.name for column in table.key_columns()] if table else []
        return self.listed or ([column.name for column in table.columns] if table else [])

    def take(self, token: Token) -> None:
        """Notes a token."""
        if token.kind == WORD:
            self.take_word(token.text)
        elif token.text == "(":
            self.place = 0
        elif token.text == ",":
            self.place += 1

    def take_word(self, word: str) -> None:
        """Notes a word: a table, a column, or where in the statement the next values are."""
        upper = word.upper()
        if self.table_follows:
            self.table_name, self.table_follows = word, False
        elif upper in BEFORE_TABLE and self.table_name is None:
            self.table_follows = True
        elif upper in ZONES:
            self.zone, self.column = ZONES[upper], None
        elif self.zone == SPLITTING and upper == "AT":
            self.zone = SYSTEM
        elif self.zone == PORTION and upper in ("FROM", "TO"):
            self.take_bound(upper)
        elif self.zone == COMPARED and upper not in ("AND", *CONSTANTS):
            self.column = word
        elif self.zone == NOTHING and self.table_name is not None:
            self.listed.append(word)

    def take_bound(self, word: str) -> None:
        """Notes that a bound of a portion follows."""
        table = self.table()
        period = table.period if table else None
        self.column = (period.start if word == "FROM" else period.end) if period else None


def meanings_of(statement: str, schema: Schema) -> Iterator[Tuple[Token, Meaning]]:
    """Yields the values of a statement, its question marks among them, with what they stand for."""
    reader = Reader(schema)
    for token in tokens_of(statement):
        if token.kind in VALUES:
            yield token, reader.meaning()
        reader.take(token)


def mark_meanings(statement: str, schema: Schema) -> List[Meaning]:
    """Returns what the value of each question mark stands for."""
    return [meaning for token, meaning in meanings_of(statement, schema) if token.kind == MARK]
