"""PEP 249 over a served tsvd: `connect(port)` opens a session.

    import tsvd

    connection = tsvd.connect(7411)
    with connection:
        connection.execute("INSERT INTO emp VALUES (?, ?)", (1, "Ann"))
    print(connection.last_commit, connection.execute("SELECT * FROM emp").fetchall())

`pool(port, size)` lends connections to threads.
"""

from .connection import Connection, connect
from .cursor import Cursor
from .errors import (ConflictError, DatabaseError, DataError, DisconnectError, Error, IntegrityError, InterfaceError,
                     InternalError, NotSupportedError, OperationalError, ProgrammingError, Warning)
from .instants import instant_of, moment_of
from .pooling import Pool, pool
from .protocol import Session
from .schema import Column, Schema, Table, read_schema
from .types import (BINARY, DATETIME, NUMBER, ROWID, STRING, Binary, Date, DateFromTicks, Time, TimeFromTicks,
                    Timestamp, TimestampFromTicks)

apilevel = "2.0"
threadsafety = 1
paramstyle = "qmark"
__version__ = "0.1.0"

__all__ = [
    "BINARY", "Binary", "Column", "ConflictError", "Connection", "Cursor", "DATETIME", "DataError", "DatabaseError",
    "Date", "DateFromTicks", "DisconnectError", "Error", "IntegrityError", "InterfaceError", "InternalError",
    "NUMBER", "NotSupportedError", "OperationalError", "Pool", "ProgrammingError", "ROWID", "STRING", "Schema", "Session",
    "Table", "Time", "TimeFromTicks", "Timestamp", "TimestampFromTicks", "Warning", "apilevel", "connect",
    "instant_of", "moment_of", "paramstyle", "pool", "read_schema", "threadsafety",
]
