"""Asks whether a server answers: one connection and one line, of which the journal has no entry."""

from __future__ import annotations

import argparse
from typing import Sequence

from .protocol import Session

STATUSES = """exit status: 0 a reply came; 1 none came in time, and standard error says why. The line is refused by the
server, as ROLLBACK is without a transaction, so it takes no entry of the journal. The connection counts where the server
was started with --sessions N."""


def main(words: Sequence[str]) -> int:
    """Runs `health PORT [--wait SECONDS]`."""
    parser = argparse.ArgumentParser(prog="python3 -m tsvd health", epilog=STATUSES)
    parser.add_argument("port", type=int)
    parser.add_argument("--wait", type=float, default=5.0, metavar="SECONDS",
                        help="the longest time until the reply comes, also where nothing listens at first (5)")
    given = parser.parse_args(words)
    Session(given.port, given.wait).close()
    print(f"the server at port {given.port} answers")
    return 0
