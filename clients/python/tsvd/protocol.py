"""A session over a socket, which sends lines and reads replies."""

from __future__ import annotations

import copy
import socket
import threading
from typing import Any, List, Optional, Union

from .errors import DisconnectError, InterfaceError
from .lines import checked
from .opening import open_session
from .replies import is_reply
from .transcript import Transcript


class Session:
    """Represents one connection, which is one session of the server.

    It is open once the server has answered a first line, which takes no entry of the journal: `wait`
    bounds the time until then. A line is sent only if it has exactly one reply, and only after the
    previous reply was read completely. If reading is interrupted, or a reply has an unknown form,
    the session ends. All lines but the first go into the transcript, if there is one, with their replies.
    """

    def __init__(self, port: int, wait: float = 5.0, timeout: Optional[float] = None,
                 transcript: Optional[Transcript] = None) -> None:
        try:
            self.socket, self.replies = open_session(port, wait)
        except BaseException:
            if transcript:
                transcript.discard()
            raise
        self.transcript = transcript
        self.socket.settimeout(timeout)
        self.is_open = True
        self.lock = threading.Lock()

    def __enter__(self) -> "Session":
        return self

    def __exit__(self, *_: Any) -> None:
        """Ends the session; an open transaction is dropped."""
        self.close()

    def close(self) -> None:
        """Ends the session, and raises where the transcript could not be written."""
        self.end()
        if self.transcript:
            self.transcript.check()

    def end(self) -> None:
        """Ends the session."""
        self.is_open = False
        self.replies.close()
        self.socket.close()
        if self.transcript:
            self.transcript.close()

    def handed_on(self) -> "Session":
        """Returns the session for another holder; whoever still has this object can neither use nor close it."""
        kept, timeout = copy.copy(self), self.socket.gettimeout()
        kept.lock = threading.Lock()
        kept.socket = socket.socket(fileno=self.socket.detach())
        kept.socket.settimeout(timeout)
        kept.replies = kept.socket.makefile("rb")
        self.is_open = False
        self.transcript = None
        return kept

    def has_ended(self) -> bool:
        """Returns whether the session was closed or the server has ended it, without sending anything."""
        if not self.is_open:
            return True
        timeout = self.socket.gettimeout()
        try:
            self.socket.settimeout(0)
            # Between replies there is nothing to read but the connection's end.
            self.socket.recv(1, socket.MSG_PEEK)
        except BlockingIOError:
            return False
        except OSError:
            return True
        finally:
            self.socket.settimeout(timeout)
        return True

    def ask(self, line: Union[str, bytes]) -> List[str]:
        """Sends a line and returns the lines of its reply: one, and N more after `rows N`."""
        data = checked(line)
        with self.lock:
            if not self.is_open:
                raise InterfaceError("the session has ended")
            self.keep_line(data)
            self.is_open = False
            try:
                self.socket.sendall(data + b"\n")
                reply = self.read_reply()
                self.is_open = True
            except OSError as fault:
                raise self.disconnected(str(fault), data) from fault
            except EOFError:
                raise self.disconnected("the server ended the session", data) from None
            except InterfaceError as fault:
                self.keep_broken(fault)
                raise
            finally:
                if not self.is_open:
                    self.end()
            self.keep_reply(reply)
            return reply

    def keep_line(self, line: bytes) -> None:
        """Writes a line into the transcript before it is sent."""
        if self.transcript:
            self.transcript.sent(line)

    def keep_reply(self, reply: List[str]) -> None:
        """Writes a reply into the transcript."""
        if self.transcript:
            self.transcript.received(reply)

    def keep_broken(self, fault: InterfaceError) -> None:
        """Writes into the transcript what came in the place of a reply."""
        if self.transcript:
            self.transcript.broken(str(fault))

    def disconnected(self, why: str, line: bytes) -> DisconnectError:
        """Makes the exception for a connection that broke after a line was sent."""
        fault = DisconnectError(f"{why}; a COMMIT that was sent may have taken effect")
        fault.line = line.decode("utf-8", "replace")
        return fault

    def read_reply(self) -> List[str]:
        """Reads the lines of one reply."""
        head = self.read_line()
        if not is_reply(head):
            raise InterfaceError(f"not a reply of tsvd, so the session is ended: {head!r}")
        count = int(head[len("rows "):]) if head.startswith("rows ") else 0
        return [head] + [self.read_line() for _ in range(count)]

    def read_line(self) -> str:
        """Reads up to a line feed; no other character ends a line."""
        line = self.replies.readline()
        if not line.endswith(b"\n"):
            raise EOFError
        try:
            return line[:-1].decode("utf-8")
        except UnicodeDecodeError:
            raise InterfaceError(f"a reply that is not UTF-8: {line!r}") from None
