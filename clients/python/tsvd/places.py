"""A number of places that threads take and give back, served in the order in which they ask."""

from __future__ import annotations

import threading
from collections import deque
from typing import Deque, Optional


class Places:
    """Counts the places that nobody has; who finds none waits behind those who came before."""

    def __init__(self, count: int) -> None:
        self.lock = threading.Lock()
        self.free = count
        self.waiting: Deque[threading.Event] = deque()

    def take(self, timeout: Optional[float]) -> bool:
        """Takes a place, and returns False where none came free in `timeout` seconds."""
        with self.lock:
            if self.free > 0:
                self.free -= 1
                return True
            turn = threading.Event()
            self.waiting.append(turn)
        try:
            turn.wait(timeout)
        except BaseException:
            if not self.leave(turn):
                self.give_back()
            raise
        return not self.leave(turn)

    def leave(self, turn: threading.Event) -> bool:
        """Ends the wait for a turn, and returns False where it has come meanwhile."""
        with self.lock:
            if turn.is_set():
                return False
            self.waiting.remove(turn)
            return True

    def give_back(self) -> None:
        """Gives a place to whoever has waited longest, or to the next who asks."""
        with self.lock:
            if self.waiting:
                self.waiting.popleft().set()
            else:
                self.free += 1
