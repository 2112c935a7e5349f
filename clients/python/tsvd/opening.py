"""The opening of a session: a connection, and the first reply, for which it waits its turn."""

from __future__ import annotations

import socket
import time
from typing import BinaryIO, Tuple

from .errors import InterfaceError, OperationalError
from .limits import MOST_SESSIONS
from .refusals import number_of, refusal_error
from .replies import is_reply

HOST = "127.0.0.1"
PAUSE = 0.05

# With no transaction open it is refused, and takes no entry of the journal.
FIRST_LINE = "ROLLBACK"
FIRST_REPLY = "E4 no transaction"
LONGEST_REPLY = 200
# A server that has a place is given this long, also where `wait` is shorter.
LEAST_WAIT = 1.0

Opened = Tuple[socket.socket, BinaryIO]


def nothing_listens(port: int) -> OperationalError:
    """Makes the exception for a port where nothing listens."""
    return OperationalError(f"nothing listens at port {port}: there is no server, or its sessions are all taken, "
                            "and it ends with them")


def no_turn(port: int, wait: float) -> OperationalError:
    """Makes the exception for a server that did not answer in time."""
    return OperationalError(f"port {port}: no reply in {wait:g} seconds. A server serves {MOST_SESSIONS} connections at "
                            "once, and the next one waits until one of them has ended: close what is not used, keep "
                            "connections in a pool, or wait longer")


def given_up(port: int, fault: OSError) -> OperationalError:
    """Makes the exception for the last fault of a port that was tried again and again."""
    if isinstance(fault, ConnectionRefusedError):
        return nothing_listens(port)
    return OperationalError(f"port {port}: the connection was ended before the first reply: {fault}")


def check_first(port: int, line: bytes) -> None:
    """Raises where the first reply is a refusal to serve, or not one of tsvd."""
    head = line.decode("utf-8", "replace").rstrip("\n")
    if head == FIRST_REPLY:
        return
    if is_reply(head) and number_of(head) is not None:
        raise refusal_error(head, FIRST_LINE)
    raise InterfaceError(f"the program at port {port} is not tsvd: it answers {head!r}")


def ask_first(port: int, connection: socket.socket) -> Opened:
    """Sends the first line and waits for its reply, which shows that the session has begun."""
    replies = connection.makefile("rb")
    connection.sendall(FIRST_LINE.encode("ascii") + b"\n")
    line = replies.readline(LONGEST_REPLY)
    if not line.endswith(b"\n") and len(line) < LONGEST_REPLY:
        raise ConnectionAbortedError("the server closed it")
    check_first(port, line)
    return connection, replies


def left(end: float) -> float:
    """Returns the seconds until a time, but not fewer than a server with a place is given."""
    return max(end - time.monotonic(), LEAST_WAIT)


def open_once(port: int, end: float) -> Opened:
    """Connects, and waits for the first reply, both until a time."""
    connection = socket.create_connection((HOST, port), left(end))
    try:
        connection.setsockopt(socket.IPPROTO_TCP, socket.TCP_NODELAY, 1)
        connection.settimeout(left(end))
        return ask_first(port, connection)
    except BaseException:
        connection.close()
        raise


def open_session(port: int, wait: float) -> Opened:
    """Opens a session; for `wait` seconds in all it waits its turn, and tries again where it is refused or broken off.

    Trying again is safe: nothing was asked of the server but its first reply.
    """
    end = time.monotonic() + wait
    while True:
        try:
            return open_once(port, end)
        except socket.timeout:
            raise no_turn(port, max(wait, LEAST_WAIT)) from None
        except ConnectionError as fault:
            if time.monotonic() >= end:
                raise given_up(port, fault) from None
            time.sleep(PAUSE)
        except OSError as fault:
            raise OperationalError(f"port {port}: {fault}") from fault
