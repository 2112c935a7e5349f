"""Lines written to standard output, where a terminal is shown no control characters."""

from __future__ import annotations

import sys
from typing import Iterable

from .layout import visible


def write_lines(lines: Iterable[str]) -> None:
    """Writes each line as it comes; at a terminal, what would move its cursor is written as an escape."""
    is_terminal = sys.stdout.isatty()
    for line in lines:
        text = visible(line) if is_terminal else line
        sys.stdout.buffer.write(text.encode("utf-8", "replace") + b"\n")
        sys.stdout.buffer.flush()
