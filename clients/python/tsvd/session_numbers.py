"""The numbers of a script's sessions, 1 to 64, for any number of transcripts."""

from __future__ import annotations

import heapq
from typing import List

from .limits import MOST_SESSIONS


class SessionNumbers:
    """Gives a session the number of its transcript, or where there are more than 64 one that is free at the time."""

    def __init__(self, transcripts: int) -> None:
        self.are_fixed = transcripts <= MOST_SESSIONS
        self.free: List[int] = list(range(1, MOST_SESSIONS + 1))

    def passing(self, index: int) -> int:
        """Returns the number for lines that leave no transaction open, or 0 where none is free."""
        if self.are_fixed:
            return index + 1
        return self.free[0] if self.free else 0

    def take(self, index: int) -> int:
        """Takes the number for a transaction that stays open, or returns 0 where none is free."""
        if self.are_fixed:
            return index + 1
        return heapq.heappop(self.free) if self.free else 0

    def give_back(self, number: int) -> None:
        """Takes a number back when its transaction has ended."""
        if not self.are_fixed:
            heapq.heappush(self.free, number)
