"""PEP 249 connections. Each is one session, with one transaction at a time."""

from __future__ import annotations

import os
from typing import Any, Callable, List, Mapping, Optional, Sequence, Type, TypeVar, Union

from . import errors
from .cursor import Cursor
from .days import Days
from .errors import ConflictError, InterfaceError, ProgrammingError
from .protocol import Session
from .refusals import number_of, refusal_error
from .replies import answers
from .schema import Schema, schema_of
from .transcript import Transcript

Answer = TypeVar("Answer")

# After E7 and E8 the transaction has ended, and at E4 there was none.
ENDING = (4, 7, 8)


class Connection:
    """Represents a session, its tables and its open transaction, if any."""

    Warning = errors.Warning
    Error = errors.Error
    InterfaceError = errors.InterfaceError
    DatabaseError = errors.DatabaseError
    DataError = errors.DataError
    OperationalError = errors.OperationalError
    IntegrityError = errors.IntegrityError
    InternalError = errors.InternalError
    ProgrammingError = errors.ProgrammingError
    NotSupportedError = errors.NotSupportedError

    def __init__(self, session: Session, schema: Union[None, str, Schema] = None, autocommit: bool = False,
                 days: Optional[Mapping[str, str]] = None, datetimes: bool = False) -> None:
        self.session = session
        self.schema = schema_of(schema)
        self.days = Days(days, self.schema)
        self.datetimes = datetimes
        self.in_transaction = False
        self.snapshot: Optional[int] = None
        self.last_commit: Optional[int] = None
        self.commits_alone = autocommit

    @property
    def autocommit(self) -> bool:
        """Whether each statement outside a transaction is one by itself."""
        return self.commits_alone

    @autocommit.setter
    def autocommit(self, alone: bool) -> None:
        """Changes the mode; an open transaction has to be ended first."""
        if self.in_transaction and alone != self.commits_alone:
            raise ProgrammingError("a transaction is open; commit() or rollback() before autocommit is changed")
        self.commits_alone = alone

    def __enter__(self) -> "Connection":
        """Begins a transaction where `autocommit` is set; else the first statement does."""
        self.check_open()
        if self.autocommit and not self.in_transaction:
            self.begin()
        return self

    def __exit__(self, kind: Optional[Type[BaseException]], *_: Any) -> None:
        """Commits, or rolls back after an exception; the connection stays open, as with sqlite3."""
        try:
            if kind is None:
                self.commit()
        finally:
            if self.session.is_open:
                self.rollback()

    def check_open(self) -> None:
        """Raises where the connection was closed or its session has ended."""
        if not self.session.is_open:
            raise InterfaceError("the connection is closed, or its session has ended; connect again")

    def ask(self, line: str) -> List[str]:
        """Sends a line and returns the lines of its reply, or raises the refusal."""
        self.check_open()
        try:
            reply = self.session.ask(line)
        finally:
            self.in_transaction = self.in_transaction and self.session.is_open
        self.note(reply[0])
        if number_of(reply[0]) is not None:
            raise refusal_error(reply[0], line)
        if not answers(line, reply[0]):
            self.close()
            raise InterfaceError(f"not the reply to {line!r}, so the session is ended: {reply[0]!r}")
        return reply

    def note(self, head: str) -> None:
        """Updates the state of the transaction from a reply."""
        word, _, rest = head.partition(" ")
        if word == "begun":
            self.in_transaction, self.snapshot = True, int(rest)
        elif word == "committed":
            self.in_transaction = False
            self.last_commit = int(rest) if rest.isdecimal() else self.last_commit
        elif head == "rolled back" or number_of(head) in ENDING:
            self.in_transaction = False
        elif number_of(head) == 5:
            self.in_transaction = True

    def begin(self) -> int:
        """Begins a transaction and returns its snapshot, the last commit instant."""
        return int(self.ask("BEGIN")[0].split()[1])

    def commit(self) -> Optional[int]:
        """Commits and returns the commit instant, or None if nothing changed or no transaction is open."""
        self.check_open()
        if not self.in_transaction:
            return None
        word = self.ask("COMMIT")[0].split()[1]
        return None if word == "nothing" else int(word)

    def rollback(self) -> None:
        """Rolls back the open transaction, if there is one."""
        self.check_open()
        if self.in_transaction:
            self.ask("ROLLBACK")

    def transact(self, work: Callable[[Cursor], Answer], tries: int = 100) -> Answer:
        """Runs `work(cursor)` in a transaction and commits; after a conflict, runs it again.

        Returns what `work` returned; `last_commit` is the commit instant. Raises the last conflict
        after `tries` attempts. Any other exception rolls back.
        """
        if self.in_transaction:
            raise ProgrammingError("a transaction is open already, perhaps by a SELECT; commit() or rollback() first")
        for left in reversed(range(max(1, tries))):
            try:
                return self.attempt(work)
            except ConflictError:
                if left == 0:
                    raise
        raise AssertionError("a range of at least one turn")

    def attempt(self, work: Callable[[Cursor], Answer]) -> Answer:
        """Runs the work once, in a transaction that is then committed or rolled back."""
        self.begin()
        with self:
            return work(self.cursor())

    def cursor(self) -> Cursor:
        """Makes a cursor over this session."""
        self.check_open()
        return Cursor(self)

    def execute(self, statement: str, values: Sequence[Any] = ()) -> Cursor:
        """Makes a cursor and executes a statement."""
        return self.cursor().execute(statement, values)

    def close(self) -> None:
        """Ends the session; an open transaction is dropped."""
        self.in_transaction = False
        self.session.close()


def connect(port: int, schema: Union[None, str, Schema] = None, wait: float = 5.0,
            timeout: Optional[float] = None, autocommit: bool = False, days: Optional[Mapping[str, str]] = None,
            datetimes: bool = False, keep: Union[None, str, "os.PathLike[str]"] = None) -> Connection:
    """Opens a session with the server at a port of this machine.

    `schema` is the text of the server's schema file; None means the sample table. A server serves 64
    connections at once: waits for its turn at most `wait` seconds in all, or a second where that is
    less. Where nothing listens at the port yet, or the connection is refused or broken off, it is tried
    again meanwhile. A later reply that takes longer than `timeout` seconds ends the session. With
    `autocommit` each statement is a transaction by itself. `days` says how columns hold dates:
    {'table.column': form}, or {'table': form} for its period of application time, with a form of
    'yyyymmdd', 'yyyy-mm-dd' and 'microseconds'. With `datetimes` the periods of FROM .. TO and
    BETWEEN .. AND are datetimes in UTC instead of microseconds since 1970. `keep` is a file that is
    made for a transcript of the session, by which `check-run` tells whether its replies were right.
    """
    tables = schema_of(schema)
    Days(days, tables)
    transcript = Transcript(os.fspath(keep), port) if keep is not None else None
    return Connection(Session(port, wait, timeout, transcript), tables, autocommit, days, datetimes)
