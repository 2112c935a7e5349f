"""Clients that send random lines over a schema of their own, each with its transcript, and the check of what they kept."""

import os
import pathlib
import random
import signal
import socket
import struct
import subprocess
import sys
import threading

import tsvd
from tsvd.limits import GREATEST_INSTANT
from tsvd.transcript import Transcript

PATIENCE = 60.0
HERE = pathlib.Path(__file__).resolve().parents[1]

SCHEMA = """-- what the storm writes to: things by number, and who has which place from when until when
CREATE TABLE thing (
  no INT PRIMARY KEY, tag INT, note TEXT,
  sys_start TIMESTAMP(6) GENERATED ALWAYS AS ROW START, sys_end TIMESTAMP(6) GENERATED ALWAYS AS ROW END,
  PERIOD FOR SYSTEM_TIME (sys_start, sys_end)
) WITH SYSTEM VERSIONING;
CREATE TABLE seat (
  place VARCHAR(4), since INT, until INT, tag INT NOT NULL,
  sys_start TIMESTAMP(6) GENERATED ALWAYS AS ROW START, sys_end TIMESTAMP(6) GENERATED ALWAYS AS ROW END,
  PERIOD FOR SYSTEM_TIME (sys_start, sys_end), PERIOD FOR held (since, until),
  PRIMARY KEY (place, held WITHOUT OVERLAPS)
) WITH SYSTEM VERSIONING
"""
TABLES = ("thing", "seat")
KEYS = 12
PLACES = ("a", "b", "c''d")
REFUSED = ("SELECT * FROM", "SELECT * FROM nothing", "INSERT INTO thing VALUES (1)", "UPDATE thing SET no = 3",
           "INSERT INTO thing VALUES (NULL, 1, 'x')", "BEGIN now", "UPDATE seat SET tag = NULL", "ALTER TABLE thing ADD COLUMN x INT",
           "INSERT INTO seat VALUES ('a', 9, 9, 1)", "DELETE FROM seat FOR PORTION OF held FROM 5 TO 5", "clock: 5", "1: BEGIN",
           b"SELECT * FROM thing WHERE no = '\xff'", "INSERT INTO thing VALUES (1, 2, 'a\rb')", "  COMMIT x", "ROLLBACK WORK;")
MAINTENANCE = ("MIGRATE:", "SPLIT: KEY thing (5)", "SPLIT: KEY seat ('b', 20)", "SPLIT: TIME thing (3) AT 1")


class Lines:
    """Makes random lines; `heard` holds the instants that were told."""

    def __init__(self, seed, client):
        self.random = random.Random(seed * 1000 + client)
        self.tag = client * 100000
        self.heard = [1]

    def next_tag(self):
        """Returns a number that no other line has."""
        self.tag += 1
        return self.tag

    def write(self):
        """Returns an INSERT, UPDATE or DELETE, of one table or the other."""
        return self.write_seat() if self.random.random() < 0.4 else self.write_thing()

    def write_thing(self):
        number, kind = self.random.randrange(KEYS), self.random.random()
        if kind < 0.3:
            return f"INSERT INTO thing VALUES ({number}, {self.next_tag()}, 'it''s \u2028 {number}')"
        if kind < 0.4:
            return f"INSERT INTO thing (tag, no) VALUES ({self.next_tag()}, {number}), ({self.next_tag()}, {number + KEYS})"
        if kind < 0.8:
            return f"UPDATE thing SET tag = {self.next_tag()} WHERE no = {number}"
        if kind < 0.9:
            return f"UPDATE thing SET tag = {self.next_tag()}, note = NULL WHERE no >= {number} AND no < {number + 3}"
        return f"DELETE FROM thing WHERE no = {number}"

    def write_seat(self):
        place, kind = self.random.choice(PLACES), self.random.random()
        since = self.random.randrange(40)
        until = since + self.random.randrange(1, 12)
        if kind < 0.45:
            return f"INSERT INTO seat VALUES ('{place}', {since}, {until}, {self.next_tag()})"
        where = self.random.choice(("", f" WHERE place = '{place}'"))
        portion = f"FOR PORTION OF held FROM {since} TO {until}"
        if kind < 0.75:
            return f"UPDATE seat {portion} SET tag = {self.next_tag()}{where}"
        if kind < 0.9:
            return f"DELETE FROM seat {portion}{where}"
        return f"DELETE FROM seat WHERE place = '{place}' AND since < {until}"

    def instant(self):
        """Returns an instant at or beside one that was told."""
        return self.random.choice(self.heard[-8:]) + self.random.choice((-1, 0, 0, 0, 1))

    def question(self):
        """Returns a SELECT of any form."""
        first, last = sorted((self.instant(), self.instant()))
        form = self.random.choice(("", "", "", f" FOR SYSTEM_TIME AS OF {self.instant()}", f" FOR SYSTEM_TIME FROM {first} TO {last}",
                                   f" FOR SYSTEM_TIME BETWEEN {first} AND {last}"))
        table = self.random.choice(TABLES)
        key = f" WHERE no = {self.random.randrange(KEYS)}" if table == "thing" else f" WHERE place = '{self.random.choice(PLACES)}'"
        return f"SELECT * FROM {table}{form}{self.random.choice(('', key))}"

    def statement(self):
        """Returns a line of a transaction."""
        kind = self.random.random()
        if kind < 0.05:
            return self.random.choice(("BEGIN", *REFUSED))
        return self.write() if kind < 0.65 else self.question()

    def turn(self):
        """Returns the next few lines: a transaction, a question, or a line that is refused outside of one."""
        kind = self.random.random()
        if kind < 0.65:
            end = "ROLLBACK" if self.random.random() < 0.1 else self.random.choice(("COMMIT", "commit work ;"))
            return ["BEGIN", *(self.statement() for _ in range(self.random.randint(1, 4))), end]
        if kind < 0.9:
            return [self.question()]
        return [self.random.choice((*REFUSED, *MAINTENANCE, self.write(), "COMMIT"))]

    def hear(self, reply):
        """Takes note of an instant that was told."""
        word, _, rest = reply[0].partition(" ")
        if word in ("begun", "committed") and rest.isdecimal():
            self.heard.append(int(rest))


def cut_off(session):
    """Ends a session as if its client were killed behind a COMMIT: no reply is read, and its transcript has no end."""
    session.keep_line(b"COMMIT")
    session.socket.sendall(b"COMMIT\n")
    session.socket.setsockopt(socket.SOL_SOCKET, socket.SO_LINGER, struct.pack("ii", 1, 0))
    session.transcript.fault = OSError("cut off")
    session.end()


def client(port, path, lines, most, is_cut, faults):
    """Sends lines until there are enough."""
    try:
        session = tsvd.Session(port, PATIENCE, PATIENCE, Transcript(path, port))
        sent = 0
        while sent < most:
            for line in lines.turn():
                lines.hear(session.ask(line))
                sent += 1
        if is_cut:
            for line in ("BEGIN", lines.write(), lines.write()):
                session.ask(line)
            cut_off(session)
        else:
            session.close()
    except Exception as fault:  # pylint: disable=broad-except
        faults.append(f"{path}: {fault!r}")


def audit(port, path):
    """Asks for all versions of each table, so that it is known of each commit whether it took effect."""
    with tsvd.Session(port, PATIENCE, PATIENCE, Transcript(path, port)) as session:
        for line in ("BEGIN", *(f"SELECT * FROM {table} FOR SYSTEM_TIME BETWEEN 0 AND {GREATEST_INSTANT}" for table in TABLES),
                     "ROLLBACK"):
            session.ask(line)


def storm(port, folder, clients, most, seed, cut=0):
    """Runs clients side by side and an audit behind them, and returns their transcripts; the first `cut` are cut off."""
    faults = []
    paths = [os.path.join(folder, f"client{number}") for number in range(1, clients + 1)]
    threads = [threading.Thread(target=client, args=(port, path, Lines(seed, number), most, number < cut, faults))
               for number, path in enumerate(paths)]
    for thread in threads:
        thread.start()
    for thread in threads:
        thread.join()
    if faults:
        raise AssertionError("\n".join(faults))
    audit(port, os.path.join(folder, "audit"))
    return [*paths, os.path.join(folder, "audit")]


def killed(port, folder, clients, seed):
    """Runs clients in processes that are killed in the midst of their lines, and returns their transcripts."""
    command = [sys.executable, "-m", "tsvd", "send", str(port), "--keep"]
    paths = [os.path.join(folder, f"killed{number}") for number in range(clients)]
    processes = []
    for number, path in enumerate(paths):
        lines = Lines(seed, number)
        text = b"\n".join(line if isinstance(line, bytes) else line.encode("utf-8") for _ in range(2000) for line in lines.turn())
        feed = os.path.join(folder, f"lines{number}")
        pathlib.Path(feed).write_bytes(text)
        with open(feed, "rb") as file:
            processes.append(subprocess.Popen([*command, path], stdin=file, stdout=subprocess.PIPE, cwd=str(HERE)))
    for number, process in enumerate(processes):
        for _ in range(20 + 30 * number):
            process.stdout.readline()
        process.send_signal(signal.SIGKILL)
        process.wait()
        process.stdout.close()
    audit(port, os.path.join(folder, "audit"))
    return [*paths, os.path.join(folder, "audit")]


def check(program, schema, transcripts, *words):
    """Runs `check-run`, and returns its status and what it wrote."""
    ran = subprocess.run([sys.executable, "-m", "tsvd", "check-run", "--program", program, "--schema", schema, *words, *transcripts],
                         stdout=subprocess.PIPE, stderr=subprocess.STDOUT, cwd=str(HERE), timeout=5 * PATIENCE, check=False)
    return ran.returncode, ran.stdout.decode("utf-8").rstrip("\n")
