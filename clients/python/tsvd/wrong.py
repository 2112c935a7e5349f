"""The first reply of a run that no order explains."""

from __future__ import annotations

from typing import Sequence

from .transcript_reading import Exchange


class Wrong(Exception):
    """Reports the first reply that no order explains: what it should have been, and why.

    It is certain if it is wrong whatever became of the commits whose replies were not read.
    """

    def __init__(self, exchange: Exchange, expected: str, why: str, is_certain: bool = False) -> None:
        super().__init__(exchange, expected, why)
        self.exchange, self.expected, self.why, self.is_certain = exchange, expected, why, is_certain


def text_of(reply: Sequence[bytes]) -> str:
    """Returns a reply for a message."""
    return "\n".join(line.decode("utf-8", "replace") for line in reply)


def seconds(microseconds: int) -> str:
    """Returns a span of time for a message."""
    return f"{microseconds / 1_000_000:.6f} seconds"
