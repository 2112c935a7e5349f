"""Records of a CSV file, as the program reads them."""

from __future__ import annotations

import re
from typing import Iterator, List, NamedTuple, Tuple

BYTE_ORDER_MARK = b"\xef\xbb\xbf"
END = re.compile(rb"[,\r\n]")


class Quoted(bytes):
    """Holds the contents of a field that was in quotes."""


class Record(NamedTuple):
    """Holds a record: its number and the number of its first line, both from 1, and its fields."""

    number: int
    line: int
    fields: Tuple[bytes, ...]


def quoted_end(data: bytes, at: int) -> Tuple[bytes, int]:
    """Returns the contents of a quoted field up to its closing quote, and the offset after it."""
    parts: List[bytes] = []
    while True:
        quote = data.find(b'"', at)
        if quote < 0:
            return b"".join(parts) + data[at:], len(data)
        parts.append(data[at:quote])
        if data[quote + 1:quote + 2] != b'"':
            return b"".join(parts), quote + 1
        parts.append(b'"')
        at = quote + 2


def field_end(data: bytes, at: int) -> int:
    """Returns the offset of the next comma or line end outside quotes."""
    found = END.search(data, at)
    return found.start() if found else len(data)


def read_field(data: bytes, at: int) -> Tuple[bytes, int]:
    """Returns the field at an offset, and the offset of its end."""
    if data.startswith(b'"', at):
        inside, at = quoted_end(data, at + 1)
        end = field_end(data, at)
        return Quoted(inside + data[at:end]), end
    end = field_end(data, at)
    return data[at:end], end


def read_fields(data: bytes, at: int) -> Tuple[Tuple[bytes, ...], int]:
    """Returns the fields of the record at an offset, and the offset of its end."""
    fields: List[bytes] = []
    while True:
        field, at = read_field(data, at)
        fields.append(field)
        if not data.startswith(b",", at):
            return tuple(fields), at
        at += 1


def read_records(data: bytes) -> Iterator[Record]:
    """Yields the records of a file; empty lines are skipped."""
    at = len(BYTE_ORDER_MARK) if data.startswith(BYTE_ORDER_MARK) else 0
    number, line, counted = 0, 1, 0
    while at < len(data):
        if data[at] in b"\r\n":
            at += 1
            continue
        line += data.count(b"\n", counted, at)
        counted = at
        number += 1
        fields, at = read_fields(data, at)
        yield Record(number, line, fields)
