"""The sixteen refusals: the exception, the cause and the cure of each."""

from __future__ import annotations

from typing import Dict, NamedTuple, Optional, Type

from .errors import (ConflictError, DatabaseError, DataError, Error, IntegrityError, InterfaceError,
                     OperationalError, ProgrammingError)
from .replies import REFUSAL
from .rows import read_values


class Refusal(NamedTuple):
    """Describes the refusals of one number."""

    kind: Type[Error]
    cause: str
    cure: str


REFUSALS: Dict[int, Refusal] = {
    1: Refusal(ProgrammingError, "unexpected token, or end of the line, at the marked byte",
               "there is no ORDER BY, no JOIN and no column list in SELECT; texts are in single quotes"),
    2: Refusal(ProgrammingError, "no table has that name",
               "check the server's schema; without --schema the only table is emp"),
    3: Refusal(DataError, "a value, a name or a comparison does not fit the table; "
               "column 0 means a name or the number of values",
               "WHERE takes only key columns; a text is one line of at most 1,000 bytes, 200 in a key"),
    4: Refusal(ProgrammingError, "no transaction is open", "BEGIN first"),
    5: Refusal(ProgrammingError, "a transaction is open already", "COMMIT or ROLLBACK first"),
    6: Refusal(IntegrityError, "a row with this key exists", "UPDATE it, or insert another key"),
    7: Refusal(ConflictError, "another transaction changed this key first; this one has ended",
               "begin again, and read the row before changing it"),
    8: Refusal(OperationalError, "no instant is left; the transaction has ended",
               "the clock is at the greatest instant; restart with an earlier reading"),
    9: Refusal(OperationalError, "the transaction would have written over 1,000 keys", "commit in parts"),
    10: Refusal(OperationalError, "out of memory; nothing has changed", "try again when memory is available"),
    11: Refusal(ProgrammingError, "no such session", "use a session from 1 to 64"),
    12: Refusal(DataError, "the line has over 8,192 bytes", "split it into several statements"),
    13: Refusal(OperationalError, "the journal is full",
                "end the run, which writes its --export, and load the current rows into the next; an open transaction still reads"),
    14: Refusal(IntegrityError, "the period overlaps another of the same entity",
                "change the overlapping part with FOR PORTION OF"),
    15: Refusal(DataError, "the start of a period is not before its end", "correct the start or the end"),
    16: Refusal(OperationalError, "transactions are open", "end them first"),
}

UNKNOWN = Refusal(DatabaseError, "this client does not know the refusal", "see the pages of the server's version")


def number_of(head: str) -> Optional[int]:
    """Returns the number of the refusal in a reply, known or not, or None for another reply."""
    found = REFUSAL.fullmatch(head)
    return int(found.group(1)) if found else None


def refusal_of(number: int) -> Refusal:
    """Returns the description of the refusals of a number."""
    return REFUSALS.get(number, UNKNOWN)


def refusal_error(head: str, line: str) -> Error:
    """Makes the exception for a refusal of a line."""
    number = number_of(head)
    if number is None:
        raise InterfaceError(f"invalid reply: {head!r}")
    try:
        fault = conflict(head) if number == 7 else plain_error(number, head)
    except (ValueError, IndexError):
        raise InterfaceError(f"invalid reply: {head!r}") from None
    fault.number, fault.reply, fault.line = number, head, line
    return fault


def conflict(head: str) -> ConflictError:
    """Makes the exception for `E7 conflict K at I`."""
    key, end = read_values(head, len("E7 conflict "))
    return ConflictError(key, int(head[end:].split()[1]))


def plain_error(number: int, head: str) -> Error:
    """Makes the exception for any other refusal."""
    kind, cause, cure = refusal_of(number)
    fault = kind(f"{head}: {cause}; {cure}")
    if number == 1:
        fault.byte = int(head.split()[-1])
    elif number == 3:
        fault.column = int(head.split()[-1])
    elif number in (6, 14):
        fault.key, _ = read_values(head, head.index("("))
    return fault
