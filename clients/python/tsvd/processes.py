"""The processes at both ends of a port of this machine, as Linux shows them in /proc."""

from __future__ import annotations

import os
import pathlib
import re
import socket
import sys
from typing import Dict, Iterable, Iterator, List, NamedTuple, Optional, Set

from .opening import HOST

PROC = pathlib.Path("/proc")
LISTENING = "0A"
ENDED = ("Z", "X")
LONGEST_NAME = 60
SOCKET = re.compile(r"socket:\[([0-9]+)\]")


class Process(NamedTuple):
    """Names a process by its number and when it was started, since numbers are used again."""

    number: int
    started: str
    name: str


class End(NamedTuple):
    """Describes one end of a connection over the local network: both ports, its state and its socket's number."""

    port: int
    other: int
    state: str
    socket: str


class Client(NamedTuple):
    """Describes a connection to a server: its port, and its process where that can be seen."""

    port: int
    process: Optional[Process]

    def text(self) -> str:
        """Returns the client as a message."""
        if not self.process:
            return f"an unknown process (from port {self.port})"
        return f"process {self.process.number}, {self.process.name} (from port {self.port})"


def ends() -> Iterator[End]:
    """Yields the ends of connections, and the listening sockets, at the local address."""
    host = format(int.from_bytes(socket.inet_aton(HOST), sys.byteorder), "08X")
    try:
        lines = (PROC / "net" / "tcp").read_text(encoding="ascii").splitlines()[1:]
    except OSError:
        return
    for line in lines:
        fields = line.split()
        (address, port), (_, other) = fields[1].split(":"), fields[2].split(":")
        if address == host and fields[9] != "0":
            yield End(int(port, 16), int(other, 16), fields[3], fields[9])


def stat_of(number: int) -> Optional[List[str]]:
    """Returns the fields of a process behind its name: its state first; None if there is no such process."""
    try:
        return (PROC / str(number) / "stat").read_text(encoding="utf-8", errors="replace").rpartition(")")[2].split()
    except OSError:
        return None


def name_of(number: int) -> str:
    """Returns the command of a process, shortened, on one line."""
    try:
        words = (PROC / str(number) / "cmdline").read_bytes().decode("utf-8", "replace").split("\0")
    except OSError:
        words = []
    text = "".join(char if char.isprintable() else "?" for char in " ".join(words).strip())
    return text if len(text) <= LONGEST_NAME else text[:LONGEST_NAME] + ".."


def process_of(number: int) -> Optional[Process]:
    """Returns a process, or None if there is none of that number."""
    stat = stat_of(number)
    return Process(number, stat[19], name_of(number)) if stat and len(stat) > 19 else None


def sockets_of(number: int) -> Iterator[str]:
    """Yields the numbers of a process's sockets, none where this user may not see them."""
    try:
        names = os.listdir(PROC / str(number) / "fd")
    except OSError:
        return
    for name in names:
        try:
            found = SOCKET.fullmatch(os.readlink(PROC / str(number) / "fd" / name))
        except OSError:
            continue
        if found:
            yield found.group(1)


def owners(wanted: Set[str]) -> Dict[str, Process]:
    """Returns the processes that hold sockets, by the socket's number."""
    found: Dict[str, Process] = {}
    if not wanted:
        return found
    for entry in PROC.iterdir():
        held = set(sockets_of(int(entry.name))) & wanted if entry.name.isdecimal() else set()
        process = process_of(int(entry.name)) if held else None
        if process:
            found.update({number: process for number in held})
    return found


def server_at(port: int) -> Optional[Process]:
    """Returns the process that serves a port, also when it listens no more; None where it cannot be seen."""
    found = owners({end.socket for end in ends() if end.port == port})
    return next(iter(found.values()), None)


def clients_of(port: int) -> List[Client]:
    """Returns the connections that a server still has, by their ports."""
    known = list(ends())
    kept = sorted(end.other for end in known if end.port == port and end.state != LISTENING)
    others = {end.port: end.socket for end in known if end.other == port and end.port in kept}
    found = owners(set(others.values()))
    return [Client(number, found.get(others.get(number, ""))) for number in kept]


def has_ended(process: Process) -> bool:
    """Returns whether a process has ended, also if its parent has not taken note yet."""
    stat = stat_of(process.number)
    return stat is None or len(stat) < 20 or stat[19] != process.started or stat[0] in ENDED


def listed(clients: Iterable[Client]) -> str:
    """Returns clients as a message."""
    return "; ".join(client.text() for client in clients)
