"""Faulty servers: the real program behind a port at which lines or replies are changed, each in one way."""

import re
import socket
import threading
import time

PLAIN = re.compile(rb"SELECT \* FROM (\w+)\b(?! FOR)(.*)")
INSTANT = re.compile(rb"\b(1\d{15})\b")
AS_OF = re.compile(rb"(AS OF )(\d+)")
WRITES = (b"INSERT", b"UPDATE", b"DELETE")
HOUR = 3600 * 1000000


def later(text, by):
    """Returns a text with its instants of the clock moved."""
    return INSTANT.sub(lambda found: b"%d" % (int(found.group(1)) + by), text)


class Link:
    """Connects one client with a session of the program, and holds the lines of its open transaction."""

    def __init__(self, port):
        self.socket = socket.create_connection(("127.0.0.1", port))
        self.replies = self.socket.makefile("rb")
        self.lock = threading.Lock()
        self.lines = None
        self.early = b""

    def ask(self, line):
        """Returns the reply of the program to a line, and follows whether a transaction is open."""
        with self.lock:
            self.socket.sendall(line + b"\n")
            head = self.replies.readline()
            count = int(head[5:]) if head.startswith(b"rows ") else 0
            reply = head + b"".join(self.replies.readline() for _ in range(count))
        if reply.startswith(b"begun "):
            self.lines = []
        elif reply.startswith((b"committed ", b"rolled back", b"E7 ")):
            self.lines = None
        elif self.lines is not None and line.startswith(WRITES):
            self.lines.append(line)
        return reply

    def ask_if_open(self, line):
        """Returns the reply of the program to a line, or nothing where the session has ended."""
        try:
            return self.ask(line)
        except OSError:
            return b""

    def close(self):
        """Ends the session of the program, once nobody asks it any more."""
        with self.lock:
            self.replies.close()
            self.socket.close()


class Fault:
    """Passes lines and replies on as they are; what is wrong is in the classes below."""

    def __init__(self):
        self.links = []
        self.lock = threading.Lock()
        self.turns = 0

    def is_turn(self, of):
        """Returns whether it is the turn to do wrong: once in so many times."""
        with self.lock:
            self.turns += 1
            return self.turns % of == 0

    def answer(self, link, line):
        """Returns what the client is sent."""
        return link.ask(line)


class OwnWritesAreSeenByOthers(Fault):
    """Answers a SELECT with no transaction open by the session of another client, which has written and not committed."""

    def answer(self, link, line):
        if link.lines is None and PLAIN.fullmatch(line):
            for other in list(self.links):
                reply = other.ask_if_open(line) if other is not link and other.lines else b""
                if reply:
                    return reply
        return link.ask(line)


class ConflictIsMissed(Fault):
    """Where a COMMIT is a conflict the writes are made again over what is there now, and committed."""

    def answer(self, link, line):
        lines = link.lines
        reply = link.ask(line)
        if not reply.startswith(b"E7 "):
            return reply
        for again in (b"BEGIN", *lines):
            link.ask(again)
        return self.told(reply, link.ask(b"COMMIT"))

    def told(self, reply, second):
        """Returns what the client is told of both commits."""
        return second if INSTANT.search(second) else reply


class ConflictIsToldAndCommitted(ConflictIsMissed):
    """Does the same, and still says that it was a conflict."""

    def told(self, reply, second):
        return reply


class SnapshotIsOld(Fault):
    """Begins each transaction when the one before has ended, long before its client asks for it."""

    def answer(self, link, line):
        early, link.early = link.early, b""
        if early and line == b"BEGIN":
            return early
        if early:
            link.ask(b"ROLLBACK")
        reply = link.ask(line)
        if reply.startswith(b"committed "):
            link.early = link.ask(b"BEGIN")
        return reply


class CommitIsLost(Fault):
    """Rolls a transaction back, and says that it is committed."""

    def answer(self, link, line):
        if link.lines and line == b"COMMIT" and self.is_turn(5):
            link.ask(b"ROLLBACK")
            return b"committed %d\n" % (time.time_ns() // 1000)
        return link.ask(line)


class CommitIsTorn(Fault):
    """Commits a transaction without the last of its writes."""

    def answer(self, link, line):
        lines = link.lines
        if lines and len(lines) > 1 and line == b"COMMIT" and self.is_turn(3):
            for again in (b"ROLLBACK", b"BEGIN", *lines[:-1]):
                link.ask(again)
        return link.ask(line)


class AnswerIsOfTheInstantBefore(Fault):
    """Answers AS OF an instant with what was there right before it."""

    def answer(self, link, line):
        return link.ask(AS_OF.sub(lambda found: found.group(1) + b"%d" % max(0, int(found.group(2)) - 1), line))


class AnswerIsStale(Fault):
    """Answers a SELECT with no transaction open with what was there some commits before."""

    def __init__(self):
        super().__init__()
        self.told = [0]

    def answer(self, link, line):
        reply = link.ask(line)
        if link.lines is None and PLAIN.fullmatch(line) and reply.startswith(b"rows "):
            old = self.told[max(0, len(self.told) - 8)]
            return link.ask(PLAIN.sub(rb"SELECT * FROM \1 FOR SYSTEM_TIME AS OF %d\2" % old, line))
        if reply.startswith(b"committed 1"):
            self.told.append(int(reply.split()[1]))
        return reply


class ClockIsAnHourAhead(Fault):
    """Has a clock that is an hour ahead, so that all instants are."""

    def answer(self, link, line):
        return later(link.ask(later(line, -HOUR)), HOUR)


FAULTS = (OwnWritesAreSeenByOthers, ConflictIsMissed, ConflictIsToldAndCommitted, CommitIsLost, CommitIsTorn, SnapshotIsOld,
          AnswerIsOfTheInstantBefore, AnswerIsStale, ClockIsAnHourAhead)


class FaultyServer:
    """Listens at a port of its own in front of a server."""

    def __init__(self, port, fault):
        self.behind, self.fault = port, fault
        self.listener = socket.create_server(("127.0.0.1", 0))
        self.port = self.listener.getsockname()[1]
        threading.Thread(target=self.listen, daemon=True).start()

    def __enter__(self):
        return self

    def __exit__(self, *_):
        self.listener.close()

    def listen(self):
        """Takes connections until the listener is closed."""
        while True:
            try:
                connection, _ = self.listener.accept()
            except OSError:
                return
            threading.Thread(target=self.serve, args=(connection,), daemon=True).start()

    def serve(self, connection):
        """Serves one client."""
        link = Link(self.behind)
        self.fault.links.append(link)
        with connection, connection.makefile("rb") as lines:
            connection.setsockopt(socket.IPPROTO_TCP, socket.TCP_NODELAY, 1)
            for line in lines:
                connection.sendall(self.fault.answer(link, line[:-1]))
        self.fault.links.remove(link)
        link.close()
