"""What each line of a transcript did to its session, as far as its reply says."""

from __future__ import annotations

import re
from typing import List, NamedTuple, Optional, Sequence

from .refusals import number_of
from .replies import first_word
from .transcript_reading import Exchange, Kept

# BEGIN and COMMITTED have an instant that says where in the history they are, CONFLICT one that it comes behind, and READ shows
# the state of some instant. For a LINE, and the ENDING of a transaction that changes nothing, any place that its session
# allows is as good as another.
BEGIN, LINE, READ, COMMITTED, CONFLICT, CLOCK_END, LOST, ENDING = range(8)

COMMIT = re.compile(rb"[ \t]*COMMIT(?:[ \t]+WORK)?[ \t]*;?[ \t]*\r?", re.I)
INSTANT = re.compile(r"(?:begun|committed|E7 conflict .* at) ([0-9]+)", re.S)

OUT_OF_MEMORY, JOURNAL_FULL, CONFLICTS, NO_INSTANT = 10, 13, 7, 8
# Only lines that begin with these can take an entry of the journal.
TAKING_ENTRIES = ("BEGIN", "START", "COMMIT", "SELECT", "SPLIT", "MIGRATE")


class Step(NamedTuple):
    """Holds a line, what it did, and the instant that its reply says, if any."""

    kind: int
    exchange: Exchange
    instant: int = 0


class Steps(NamedTuple):
    """Holds the steps of one session, and the lines that were refused for memory or a full journal, which did nothing."""

    kept: Kept
    steps: Sequence[Step]
    refused: Sequence[Exchange]


def instant_in(head: str) -> int:
    """Returns the instant that the first line of a reply says."""
    found = INSTANT.fullmatch(head)
    return int(found.group(1)) if found else 0


def did_nothing(exchange: Exchange, is_open: bool) -> bool:
    """Returns whether a line was refused for memory or a full journal, and can have been."""
    number = number_of(exchange.head) if exchange.head.startswith(("E10", "E13")) else None
    word = first_word(exchange.line.decode("utf-8", "replace")) if number else ""
    if number == OUT_OF_MEMORY:
        return word != "ROLLBACK" and not (word in ("BEGIN", "START") and is_open) and not (word == "COMMIT" and not is_open)
    return number == JOURNAL_FULL and word in TAKING_ENTRIES


def kind_outside(exchange: Exchange) -> int:
    """Returns what a line with no transaction open did."""
    if exchange.head.startswith("begun "):
        return BEGIN
    return READ if exchange.head.startswith("rows ") else LINE


def kind_inside(exchange: Exchange) -> int:
    """Returns what a line in a transaction did."""
    head = exchange.head
    number = number_of(head) if head.startswith("E") else None
    if number == CONFLICTS:
        return CONFLICT
    if number == NO_INSTANT:
        return CLOCK_END
    if head in ("committed nothing", "rolled back"):
        return ENDING
    return COMMITTED if head.startswith("committed ") else LINE


def steps_of(kept: Kept) -> Steps:
    """Returns the steps of a transcript; a transaction that is open at its end is dropped, if no COMMIT was sent."""
    steps: List[Step] = []
    refused: List[Exchange] = []
    is_open = False
    for exchange in kept.exchanges:
        if not exchange.reply:
            if is_open and COMMIT.fullmatch(exchange.line):
                steps.append(Step(LOST, exchange))
            continue
        if did_nothing(exchange, is_open):
            refused.append(exchange)
            continue
        kind = kind_inside(exchange) if is_open else kind_outside(exchange)
        steps.append(Step(kind, exchange, instant_in(exchange.head)))
        is_open = kind == BEGIN or is_open and kind == LINE
    return Steps(kept, steps, refused)


def broken_in(kept: Kept) -> Optional[Exchange]:
    """Returns the line that was answered with what is not a reply, if there is one."""
    return next((exchange for exchange in kept.exchanges if exchange.broken), None)
