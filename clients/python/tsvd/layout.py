"""Rows as an aligned table for a terminal."""

from __future__ import annotations

import datetime
import unicodedata
from typing import Iterator, List, Sequence

from .days import Field
from .instants import date_text


def visible(text: str) -> str:
    """Returns a text with control characters written as escapes."""
    return "".join(char if char.isprintable() else char.encode("unicode_escape").decode("ascii") for char in text)


def width_of(text: str) -> int:
    """Returns the width of a text in a terminal."""
    return sum(0 if unicodedata.combining(char) else 1 + (unicodedata.east_asian_width(char) in "WF")
               for char in text)


def cell(value: Field) -> str:
    """Returns the text of a cell; a date is in ISO form."""
    if value is None:
        return "NULL"
    if isinstance(value, datetime.date):
        return value.isoformat()
    if isinstance(value, bool):
        return "true" if value else "false"
    return visible(value) if isinstance(value, str) else str(value)


def instant_cell(instant: Field, with_dates: bool) -> str:
    """Returns the text of a bound of a period: `forever`, a date or a number."""
    if not isinstance(instant, int):
        return "forever"
    return (date_text(instant) if with_dates else None) or str(instant)


def padded(text: str, width: int, to_the_right: bool) -> str:
    """Pads a text with blanks to a width."""
    blanks = " " * (width - width_of(text))
    return blanks + text if to_the_right else text + blanks


def is_number(value: Field) -> bool:
    """Returns whether a value is a whole number."""
    return isinstance(value, int) and not isinstance(value, bool)


def right_columns(width: int, rows: Sequence[Sequence[Field]]) -> List[bool]:
    """Returns for each column whether it is aligned to the right, as numbers are."""
    return [any(is_number(row[place]) for row in rows)
            and all(is_number(row[place]) or row[place] is None for row in rows) for place in range(width)]


def cells_of(row: Sequence[Field], periods: bool, with_dates: bool) -> List[str]:
    """Returns the cells of a row; with a period, the last two are instants."""
    if not periods:
        return [cell(value) for value in row]
    return [cell(value) for value in row[:-2]] + [instant_cell(bound, with_dates) for bound in row[-2:]]


def counted(number: int) -> str:
    """Returns the line below a table."""
    return f"({number} row)" if number == 1 else f"({number} rows)"


def table_lines(names: Sequence[str], rows: Sequence[Sequence[Field]], periods: bool,
                with_dates: bool) -> Iterator[str]:
    """Yields the lines of a table: column names, a rule, the rows and their number."""
    written = [cells_of(row, periods, with_dates) for row in rows]
    widths = [max(width_of(line[place]) for line in [list(names), *written]) for place in range(len(names))]
    right = right_columns(len(names) - 2 * periods, rows) + [False, False]
    if names:
        yield " " + " | ".join(padded(name, width, False) for name, width in zip(names, widths)).rstrip()
        yield "-" + "-+-".join("-" * width for width in widths)
    for line in written:
        cells = (padded(text, width, side) for text, width, side in zip(line, widths, right))
        yield " " + " | ".join(cells).rstrip()
    yield counted(len(rows))
