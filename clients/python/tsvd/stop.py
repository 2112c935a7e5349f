"""Ends a server by using up its remaining sessions, and waits until it has ended."""

from __future__ import annotations

import argparse
import socket
import sys
import time
from typing import List, Optional, Sequence

from .errors import InterfaceError, OperationalError
from .limits import MOST_SESSIONS
from .processes import Client, Process, clients_of, has_ended, listed, server_at
from .opening import HOST, nothing_listens

NONE_LISTENS, WAS_LEFT, IS_HELD = "none listens", "was left", "is held"
HAS_ENDED, IS_KEPT, IS_UNSEEN = 0, 3, 4
PAUSE = 0.05
QUIET = 0.5
STATUSES = """exit status: 0 the server has ended (with --no-wait: no session is left); 1 nothing listens at the port, or not
tsvd; 2 wrong words; 3 sessions still keep the server after --timeout; 4 whether it has ended cannot be seen"""


def use_session(port: int, wait: float) -> str:
    """Opens and closes a connection; the server ends such a session at once, if it had one left."""
    try:
        with socket.create_connection((HOST, port), wait) as connection:
            connection.shutdown(socket.SHUT_WR)
            if connection.recv(1):
                raise InterfaceError(f"the program at port {port} is not tsvd: it sends first")
            return WAS_LEFT
    except socket.timeout:
        return IS_HELD
    except OSError:
        return NONE_LISTENS


def use_sessions(port: int, wait: float = 5.0) -> int:
    """Uses up the remaining sessions, behind which the server listens no more, and returns how many there were."""
    for used in range(MOST_SESSIONS + 1):
        found = use_session(port, wait)
        if found == NONE_LISTENS:
            if used == 0:
                raise nothing_listens(port)
            return used
        if found == IS_HELD:
            raise OperationalError(f"used up {used} remaining sessions; the server did not answer the next one in time")
    raise OperationalError(f"the server at port {port} takes over {MOST_SESSIONS} connections: one with --connections is "
                           "ended by its standard input, and python3 -m tsvd serve by TERM; else it is not tsvd")


def remaining(port: int, wait: float, server: Optional[Process]) -> int:
    """Uses up the remaining sessions; none are left where a server is seen that listens no more."""
    try:
        return use_sessions(port, wait)
    except OperationalError:
        if server and clients_of(port):
            return 0
        raise


def sessions_text(clients: Sequence[Client]) -> str:
    """Returns a message about the sessions that keep a server."""
    return f"{len(clients)} session{'' if len(clients) == 1 else 's'}: {listed(clients)}"


def wait_for(server: Process, port: int, timeout: Optional[float]) -> bool:
    """Waits until a server has ended, and says on standard error which sessions keep it; False after `timeout`."""
    start = time.monotonic()
    told: List[Client] = []
    while not has_ended(server):
        waited = time.monotonic() - start
        is_late = timeout is not None and waited >= timeout
        clients = clients_of(port) if is_late or waited >= QUIET else []
        if clients and clients != told:
            print(f"stop: waiting for {sessions_text(clients)}", file=sys.stderr, flush=True)
            told = clients
        if is_late:
            return False
        time.sleep(PAUSE)
    return True


def stop(port: int, wait: float, timeout: Optional[float]) -> int:
    """Ends a server and returns the exit status, which says what came."""
    server = server_at(port)
    used = remaining(port, wait, server)
    if not server:
        print(f"unused sessions: {used}; whether the server has ended cannot be seen: it is another user's process, "
              "or this system has no /proc")
        return IS_UNSEEN
    if wait_for(server, port, timeout):
        print(f"the server has ended; unused sessions: {used}")
        return HAS_ENDED
    clients = clients_of(port)
    what = f"is kept by {sessions_text(clients)}" if clients else "is still writing"
    print(f"the server has not ended; unused sessions: {used}; it {what}")
    return IS_KEPT


def main(words: Sequence[str]) -> int:
    """Runs `stop PORT [--no-wait | --timeout SECONDS] [--wait SECONDS]`."""
    parser = argparse.ArgumentParser(prog="python3 -m tsvd stop", epilog=STATUSES)
    parser.add_argument("port", type=int)
    parser.add_argument("--no-wait", action="store_true", help="use up the sessions, and leave the server to end")
    parser.add_argument("--timeout", type=float, metavar="SECONDS",
                        help="the longest time to wait for the server to end; without it there is no end")
    parser.add_argument("--wait", type=float, default=5.0, metavar="SECONDS",
                        help="the longest time for the server to end each unused session (5)")
    given = parser.parse_args(words)
    if not given.no_wait:
        return stop(given.port, given.wait, given.timeout)
    used = use_sessions(given.port, given.wait)
    print(f"the server is ending; unused sessions: {used}")
    return HAS_ENDED
