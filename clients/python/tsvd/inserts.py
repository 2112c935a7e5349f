"""Rows of an INSERT in as few lines as they fit into."""

from __future__ import annotations

import itertools
from typing import Any, Iterable, Iterator, List, Optional, Sequence

from .errors import OperationalError
from .limits import LONGEST_LINE, MOST_WRITTEN
from .lines import checked_text
from .literals import Statement
from .replies import first_word
from .tokens import WORD, tokens_of

BETWEEN = ", "


def row_start(statement: Statement) -> Optional[int]:
    """Returns where the row of an INSERT begins, or None for a statement that is not one INSERT of one row."""
    if first_word(statement.text) != "INSERT":
        return None
    tokens = list(tokens_of(statement.text))
    values = [token for token in tokens if token.kind == WORD and token.text.upper() == "VALUES"]
    row = [token for token in tokens if values and token.at > values[0].at]
    depths = list(itertools.accumulate({"(": 1, ")": -1}.get(token.text, 0) for token in row))
    is_one = bool(row) and row[0].text == "(" and row[-1].text == ")" and depths[-1] == 0 and 0 not in depths[:-1]
    return row[0].at if is_one and "?" not in statement.text[:row[0].at] else None


def packed(prefix: str, rows: Iterable[str]) -> Iterator[str]:
    """Yields lines of as many rows as fit into a line, or raises for a row that fits into none."""
    held: List[str] = []
    size = 0
    for row in rows:
        more = len(row.encode("utf-8", "surrogatepass")) + len(BETWEEN)
        if held and size + more > LONGEST_LINE:
            yield checked_text(prefix + BETWEEN.join(held))
            held, size = [], 0
        size = size + more if held else len(prefix) + more - len(BETWEEN)
        held.append(row)
    if held:
        yield checked_text(prefix + BETWEEN.join(held))


def lines_of(statement: Statement, many: Iterable[Sequence[Any]]) -> List[str]:
    """Returns the lines of a statement for many sequences of values; rows of an INSERT share lines."""
    start = row_start(statement)
    if start is None:
        return [checked_text(statement.bound(values)) for values in many]
    return list(packed(statement.text[:start], (statement.bound(values)[start:] for values in many)))


def parts(many: Iterable[Sequence[Any]], size: int = MOST_WRITTEN) -> Iterator[List[Sequence[Any]]]:
    """Yields sequences of values in lists of at most as many as a transaction writes."""
    rest = iter(many)
    while True:
        part = list(itertools.islice(rest, size))
        if not part:
            return
        yield part


def lines_of_one(statement: Statement, many: Iterable[Sequence[Any]]) -> List[str]:
    """Returns the lines of one transaction, or raises if an INSERT has more rows than it can write."""
    if row_start(statement) is None:
        return lines_of(statement, many)
    part = list(itertools.islice(iter(many), MOST_WRITTEN + 1))
    if len(part) > MOST_WRITTEN:
        raise OperationalError(
            f"executemany of more than {MOST_WRITTEN} rows, which is what a transaction can write, so nothing was sent; "
            f"connect(.., autocommit=True) inserts any number in transactions of {MOST_WRITTEN} rows, or commit in parts")
    return lines_of(statement, part)
