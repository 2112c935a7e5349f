"""The way through the steps of one transcript."""

from __future__ import annotations

from typing import List, Optional

from .served_steps import ENDING, LINE, LOST, Step, Steps

# A lost commit that nobody has told an instant of is tried in so many places.
MOST_PLACES = 4


class Walk:
    """Walks through the steps of one transcript."""

    def __init__(self, index: int, run: Steps) -> None:
        self.index, self.steps = index, run.steps
        self.at = 0
        self.number = 0
        self.snapshot = 0
        # The first and the last instant at which the SELECT at hand was asked for, and its last answer.
        self.asked_from = self.asked_at = -1
        self.answer: List[bytes] = []
        self.places_left = MOST_PLACES

    def front(self) -> Optional[Step]:
        """Returns the next step, or None at the end."""
        return self.steps[self.at] if self.at < len(self.steps) else None

    def lines_from(self, at: int) -> List[Step]:
        """Returns the lines from a step on that belong to it alone: up to one with a place of its own."""
        found: List[Step] = []
        for step in self.steps[at:]:
            if step.kind not in (LINE, ENDING):
                break
            found.append(step)
            if step.kind == ENDING:
                break
        return found

    def ends_by_itself(self) -> bool:
        """Returns whether the transaction that begins here ends without a place of its own."""
        lines = self.lines_from(self.at + 1)
        return bool(lines and lines[-1].kind == ENDING) or self.is_dropped()

    def is_dropped(self) -> bool:
        """Returns whether the transaction that begins here is open at the end of the session."""
        lines = self.lines_from(self.at + 1)
        return self.at + 1 + len(lines) == len(self.steps) and not (lines and lines[-1].kind == ENDING)

    def is_lost(self) -> bool:
        """Returns whether the next step is a COMMIT whose reply was not read."""
        step = self.front()
        return step is not None and step.kind == LOST
