"""A pool of connections for threads: `with pool.connection() as connection:` lends one."""

from __future__ import annotations

import contextlib
import os
import threading
from typing import Any, Iterator, List, Mapping, Optional, Union

from .connection import Connection
from .days import Days
from .errors import DataError, Error, InterfaceError, OperationalError
from .limits import MOST_SESSIONS
from .places import Places
from .protocol import Session
from .schema import Schema, schema_of
from .transcript import numbered


class Pool:
    """Keeps at most `size` sessions open, and lends each to one thread at a time.

    Threads may share a pool. A session that its server has ended is replaced when it is next lent.
    With `keep` each session has a transcript: FILE.1, FILE.2 and so on, by names that are free.
    """

    def __init__(self, port: int, size: int, schema: Union[None, str, Schema] = None, wait: float = 5.0,
                 timeout: Optional[float] = None, autocommit: bool = False, days: Optional[Mapping[str, str]] = None,
                 datetimes: bool = False, keep: Union[None, str, "os.PathLike[str]"] = None) -> None:
        if not 1 <= size <= MOST_SESSIONS:
            raise DataError(f"a pool has 1 to {MOST_SESSIONS} connections, as many as a server serves at once, not {size}")
        self.port, self.wait, self.timeout = port, wait, timeout
        self.schema = schema_of(schema)
        self.autocommit, self.days, self.datetimes = autocommit, days, datetimes
        self.keep = None if keep is None else os.fspath(keep)
        Days(days, self.schema)
        self.places = Places(size)
        self.lock = threading.Lock()
        self.idle: List[Session] = []
        self.is_open = True

    def __enter__(self) -> "Pool":
        return self

    def __exit__(self, *_: Any) -> None:
        """Closes the pool."""
        self.close()

    @contextlib.contextmanager
    def connection(self, timeout: Optional[float] = 30.0) -> Iterator[Connection]:
        """Lends a connection, and takes it back at the end of the block; what was not committed is rolled back.

        Waits for one in the order in which threads ask, and raises OperationalError where none came
        free in `timeout` seconds.
        """
        self.check_open()
        if not self.places.take(timeout):
            raise OperationalError(f"no connection of the pool came free in {timeout:g} seconds")
        try:
            lent = self.lend()
            try:
                yield lent
            finally:
                self.take_back(lent)
        finally:
            self.places.give_back()

    def check_open(self) -> None:
        """Raises where the pool was closed."""
        if not self.is_open:
            raise InterfaceError("the pool is closed")

    def lend(self) -> Connection:
        """Returns a connection over a session that is kept, or over a new one."""
        session = self.kept() or self.opened()
        return Connection(session, self.schema, self.autocommit, self.days, self.datetimes)

    def opened(self) -> Session:
        """Opens a session, with a transcript where these are kept: FILE.1, FILE.2 and so on."""
        transcript = None if self.keep is None else numbered(self.keep, self.port)
        return Session(self.port, self.wait, self.timeout, transcript)

    def kept(self) -> Optional[Session]:
        """Takes the session that was used last of those that have not ended."""
        while True:
            with self.lock:
                self.check_open()
                if not self.idle:
                    return None
                session = self.idle.pop()
            if not session.has_ended():
                return session
            session.close()

    def take_back(self, lent: Connection) -> None:
        """Rolls back what was not committed, and keeps the session, if it goes on."""
        try:
            if lent.session.is_open:
                lent.rollback()
        except Error:
            lent.close()
        except BaseException:
            lent.close()
            raise
        if not lent.session.is_open:
            return
        session = lent.session.handed_on()
        with self.lock:
            if self.is_open:
                self.idle.append(session)
                return
        session.close()

    def close(self) -> None:
        """Closes the sessions that are not lent; the others are closed when they come back."""
        with self.lock:
            self.is_open = False
            idle, self.idle = self.idle, []
        for session in idle:
            session.close()


def pool(port: int, size: int, **words: Any) -> Pool:
    """Makes a pool of at most `size` connections to a port; `words` are those of `connect`."""
    return Pool(port, size, **words)
