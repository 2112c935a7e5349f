"""The instants that the replies of a run say, and which of them no COMMIT was answered with."""

from __future__ import annotations

import re
from typing import Dict, Iterable, Iterator, List, NamedTuple, Sequence, Tuple

from .cursor import QUERY
from .served_steps import BEGIN, COMMITTED, CONFLICT, LINE, Step, Steps
from .transcript_reading import Exchange

# A query of all versions of a table up to an instant.
WHOLE = re.compile(r"\s*SELECT\s*\*\s*FROM\s+(\w+)\s+FOR\s+SYSTEM_TIME\s+(BETWEEN|FROM)\s+0*[01]\s+(?:AND|TO)\s+([0-9]+)\s*;?\s*",
                   re.I)
PERIOD = re.compile(rb"(\(.*\)) from ([0-9]+) to ([0-9]+|forever)", re.S)


class Version(NamedTuple):
    """Holds a row of a table that was shown to begin, or to end, at an instant."""

    table: str
    row: bytes
    begins: bool


class Mention:
    """Holds who first told of an instant, and the rows that were shown to begin or to end at it."""

    def __init__(self, exchange: Exchange) -> None:
        self.exchange = exchange
        self.versions: List[Version] = []


class Twice(Exception):
    """Reports two commits with one instant."""

    def __init__(self, first: Exchange, second: Exchange) -> None:
        super().__init__(first, second)
        self.first, self.second = first, second


def commits_of(runs: Sequence[Steps]) -> Dict[int, Exchange]:
    """Returns the COMMIT of each instant that one was answered with."""
    found: Dict[int, Exchange] = {}
    for run in runs:
        for step in run.steps:
            if step.kind == COMMITTED:
                if step.instant in found:
                    raise Twice(*sorted((found[step.instant], step.exchange), key=lambda it: it.received))
                found[step.instant] = step.exchange
    return found


def periods_of(exchange: Exchange) -> Iterator[Tuple[int, Version]]:
    """Yields the instants in a reply whose rows have periods."""
    query = QUERY.match(exchange.line.decode("utf-8", "replace")) if len(exchange.reply) > 1 else None
    if not query or (query.group(2) or "").upper() not in ("FROM", "BETWEEN"):
        return
    for text in exchange.reply[1:]:
        found = PERIOD.fullmatch(text)
        if not found:
            continue
        row, start, end = found.groups()
        yield int(start), Version(query.group(1), row, True)
        if end != b"forever":
            yield int(end), Version(query.group(1), row, False)


def instants_of(step: Step) -> Iterator[int]:
    """Yields the instants that the first line of a reply says, other than that of a commit."""
    if step.kind in (BEGIN, CONFLICT):
        yield step.instant


def unexplained(runs: Sequence[Steps], known: Dict[int, Exchange], base: int) -> Dict[int, Mention]:
    """Returns the instants behind a first one that are told, and that no COMMIT was answered with."""
    found: Dict[int, Mention] = {}
    for run in runs:
        for step in run.steps:
            for instant in instants_of(step):
                if instant > base and instant not in known:
                    found.setdefault(instant, Mention(step.exchange))
            for instant, version in periods_of(step.exchange):
                if instant > base and instant not in known:
                    found.setdefault(instant, Mention(step.exchange)).versions.append(version)
    return found


def snapshots_of(run: Steps) -> Iterator[Tuple[Step, int]]:
    """Yields each step that is in a transaction with the snapshot of that."""
    snapshot = -1
    for step in run.steps:
        if step.kind == BEGIN:
            snapshot = step.instant
        elif step.kind != LINE:
            snapshot = -1
        elif snapshot >= 0:
            yield step, snapshot


def audited_to(runs: Sequence[Steps], tables: Iterable[str]) -> int:
    """Returns the last instant up to which replies show all versions of all tables, so that none is hidden; -1 if none do."""
    shown: Dict[str, int] = {}
    for run in runs:
        for step, snapshot in snapshots_of(run):
            found = WHOLE.fullmatch(step.exchange.line.decode("utf-8", "replace"))
            if not found or not step.exchange.head.startswith("rows "):
                continue
            table, form, end = found.groups()
            last = int(end) - (form.upper() == "FROM")
            shown[table.lower()] = max(shown.get(table.lower(), -1), min(last, snapshot))
    return min((shown.get(table.lower(), -1) for table in tables), default=-1)
