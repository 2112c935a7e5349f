"""Sessions at a served program and at MariaDB, with the same operations, each one message and its answer."""

import datetime
import random
import socket
import subprocess
import time

import mariadb

KEYS = 100
ROWS = ", ".join(f"({key}, 'first')" for key in range(1, KEYS + 1))
NUMBERS = ", ".join(str(key) for key in range(1, KEYS + 1))
OPERATIONS = {
    "round-trip": "the round trip alone: a refused COMMIT, a ping",
    "commit": "a commit of one row of 100",
    "as-of-one": "AS OF one key",
    "as-of-all": "AS OF all 100 keys",
    "periods": "FROM .. TO of one key, a tenth of the history",
}
FEWEST, MOST = 15, 2000


class Fault(Exception):
    """A program did not answer as it must."""


class Lines:
    """A session at tsvd or the floor."""

    def __init__(self, port):
        self.socket = socket.create_connection(("127.0.0.1", port))
        self.socket.setsockopt(socket.IPPROTO_TCP, socket.TCP_NODELAY, 1)
        self.stream = self.socket.makefile("rb", 1 << 16)

    def take(self, word):
        line = self.stream.readline()
        if not line.startswith(word):
            raise Fault(f"{line!r} where {word!r} was expected")
        return line[len(word):]

    def change(self, statement, reply):
        self.socket.sendall(b"BEGIN\n%s\nCOMMIT\n" % statement.encode())
        self.take(b"begun ")
        self.take(reply)
        return int(self.take(b"committed "))

    def query(self, form):
        self.socket.sendall(b"SELECT * FROM emp FOR SYSTEM_TIME %s\n" % form.encode())
        count = int(self.take(b"rows "))
        for _ in range(count):
            self.stream.readline()
        return count

    def round_trip(self):
        self.socket.sendall(b"COMMIT\n")
        self.take(b"E4 ")

    def fill(self):
        return self.change(f"INSERT INTO emp VALUES {ROWS}", b"inserted 100")

    def change_all(self, name):
        return self.change(f"UPDATE emp SET name = '{name}'", b"updated 100")

    def change_one(self, name, key):
        return self.change(f"UPDATE emp SET name = '{name}' WHERE no = {key}", b"updated 1")

    def as_of_one(self, instant, key):
        return self.query(f"AS OF {instant} WHERE no = {key}")

    def as_of_all(self, instant):
        return self.query(f"AS OF {instant}")

    def periods(self, first, last, key):
        return self.query(f"FROM {first} TO {last} WHERE no = {key}")

    def close(self):
        self.stream.close()
        self.socket.close()


def timestamp(instant):
    """Returns an instant of microseconds since 1970 as SQL writes it, in UTC."""
    seconds, micros = divmod(instant, 1_000_000)
    moment = datetime.datetime.fromtimestamp(seconds, datetime.timezone.utc)
    return f"TIMESTAMP'{moment:%Y-%m-%d %H:%M:%S}.{micros:06d}'"


class Versioned:
    """A session at a table of MariaDB WITH SYSTEM VERSIONING. A statement alone is a transaction."""

    def __init__(self, server):
        self.connection = server.connect()
        for statement in ("USE bench", "SET time_zone = '+00:00'", "DROP TABLE IF EXISTS emp", mariadb.TABLE):
            self.connection.run(statement)

    def change(self, statement):
        self.connection.run(statement)
        return time.time_ns() // 1000

    def query(self, form):
        return self.connection.run(f"SELECT no, name FROM emp FOR SYSTEM_TIME {form}")

    def round_trip(self):
        self.connection.ping()

    def fill(self):
        return self.change(f"INSERT INTO emp (no, name) VALUES {ROWS}")

    def change_all(self, name):
        """Names each key, since an UPDATE without a condition goes through all history too."""
        return self.change(f"UPDATE emp SET name = '{name}' WHERE no IN ({NUMBERS})")

    def change_one(self, name, key):
        return self.change(f"UPDATE emp SET name = '{name}' WHERE no = {key}")

    def as_of_one(self, instant, key):
        return self.query(f"AS OF {timestamp(instant)} WHERE no = {key}")

    def as_of_all(self, instant):
        return self.query(f"AS OF {timestamp(instant)} ORDER BY no")

    def periods(self, first, last, key):
        return self.connection.run(f"SELECT no, name, s, e FROM emp FOR SYSTEM_TIME FROM {timestamp(first)} "
                                   f"TO {timestamp(last)} WHERE no = {key} ORDER BY no, s")

    def close(self):
        self.connection.close()


class Program:
    """A served program, from its start to its end."""

    def __init__(self, path, sessions=1):
        self.process = subprocess.Popen([path, "--listen", "0", "--sessions", str(sessions)], stdin=subprocess.DEVNULL,
                                        stdout=subprocess.PIPE)
        line = self.process.stdout.readline()
        if not line.startswith(b"listening "):
            raise Fault(f"{path} did not listen")
        self.port = int(line.split()[1])

    def __enter__(self):
        return self

    def __exit__(self, kind, *_):
        if kind is not None:
            self.process.kill()
        told = self.process.stdout.read()
        self.process.stdout.close()
        if self.process.wait() != 0 or not told.startswith(b"closed "):
            if kind is None:
                raise Fault(f"the server ended with {told!r}")


def fill(session, versions):
    """Makes a history by commits of all rows, and returns the instants of its commits."""
    instants = [session.fill()]
    for number in range(versions // KEYS - 1):
        instants.append(session.change_all(f"v{number}"))
    return instants


def operations(session, instants):
    """Each operation by its name, as a call that takes its place in the run and answers a count that must be right."""
    chosen = random.Random(7)
    window = max(1, len(instants) // 10)

    def instant():
        return chosen.choice(instants)

    def key():
        return chosen.randrange(1, KEYS + 1)

    def period():
        first = chosen.randrange(0, max(1, len(instants) - window))
        return instants[first], instants[min(first + window, len(instants) - 1)] + 1

    return {
        "round-trip": ((), lambda: (), session.round_trip),
        "as-of-one": ((1,), lambda: (instant(), key()), session.as_of_one),
        "as-of-all": ((KEYS,), lambda: (instant(),), session.as_of_all),
        "periods": ((), lambda: (*period(), key()), session.periods),
        "commit": ((), lambda: (f"w{chosen.randrange(10 ** 6)}", key()), session.change_one),
    }


def measure(session, versions, seconds):
    """Returns the median and the 99th percentile of each operation's times, in microseconds."""
    figures = {}
    for name, (right, choose, operate) in operations(session, fill(session, versions)).items():
        times = []
        end = time.monotonic() + seconds
        while len(times) < FEWEST or (len(times) < MOST and time.monotonic() < end):
            words = choose()
            before = time.perf_counter_ns()
            count = operate(*words)
            times.append(time.perf_counter_ns() - before)
            if right and count not in right:
                raise Fault(f"{name} {words} gives {count} rows")
        times.sort()
        figures[name] = {"p50": times[len(times) // 2] / 1000, "p99": times[len(times) * 99 // 100] / 1000}
    return figures
