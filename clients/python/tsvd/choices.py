"""Choices that are gone through one after another: a run takes the first, and the next run another one."""

from __future__ import annotations

from typing import List


class Choices:
    """Holds which way was taken at each point; the last point that has another way is changed first."""

    def __init__(self) -> None:
        self.taken: List[int] = []
        self.counts: List[int] = []
        self.at = 0

    def choose(self, count: int) -> int:
        """Returns the way to take of so many, the first one at a point that was not met before."""
        if self.at == len(self.taken):
            self.taken.append(0)
            self.counts.append(count)
        self.at += 1
        return self.taken[self.at - 1]

    def change(self) -> bool:
        """Takes another way at the last point that has one; returns whether there was one."""
        del self.taken[self.at:], self.counts[self.at:]
        while self.taken and self.taken[-1] + 1 >= self.counts[-1]:
            del self.taken[-1], self.counts[-1]
        self.at = 0
        if self.taken:
            self.taken[-1] += 1
        return bool(self.taken)
