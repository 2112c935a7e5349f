"""The exceptions of PEP 249, with the details of a refusal."""

from __future__ import annotations

from typing import Optional, Tuple, Union

Value = Union[None, bool, int, str]
Key = Tuple[Value, ...]


class Warning(Exception):  # noqa: A001  the name is that of PEP 249
    """Exists for PEP 249; never raised."""


class Error(Exception):
    """Covers each refusal of the server and each fault of the client or the connection.

    `number` is the number of the refusal, 1 to 16, or None for a fault of the client; `reply` is
    the text of the refusal and `line` the line that was sent. E1 sets `byte`, E3 `column`, E6, E7
    and E14 `key`, and E7 `instant`. `rows` is the number of rows that were committed before the
    refusal, by an `executemany` with `autocommit`.
    """

    number: Optional[int] = None
    reply: Optional[str] = None
    line: Optional[str] = None
    byte: Optional[int] = None
    column: Optional[int] = None
    key: Optional[Key] = None
    instant: Optional[int] = None
    rows: Optional[int] = None


class InterfaceError(Error):
    """Covers an invalid reply, and the use of a closed connection or cursor."""


class DatabaseError(Error):
    """Covers everything that concerns the server."""


class DataError(DatabaseError):
    """Covers values that do not fit, and lines that cannot be sent."""


class OperationalError(DatabaseError):
    """Covers what is not the statement's fault: conflicts, memory, lost connections."""


class IntegrityError(DatabaseError):
    """Covers duplicate keys and overlapping periods."""


class InternalError(DatabaseError):
    """Exists for PEP 249; never raised."""


class ProgrammingError(DatabaseError):
    """Covers syntax errors, unknown tables and statements at the wrong time."""


class NotSupportedError(DatabaseError):
    """Covers statements that a served store does not have, such as CREATE TABLE."""


class ConflictError(OperationalError):
    """Reports that another transaction changed `key` at `instant` first; this one has ended."""

    def __init__(self, key: Key, instant: int) -> None:
        super().__init__(key, instant)
        self.key = key
        self.instant = instant

    def __str__(self) -> str:
        return f"{self.reply or 'E7 conflict'}: another transaction changed {self.key} at {self.instant} first"


class DisconnectError(OperationalError):
    """Reports that the connection broke or the server ended the session.

    If `line` is a COMMIT, it may have taken effect; a new session can look.
    """
