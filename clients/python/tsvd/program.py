"""The program tsvd: its path, and servers started by this package."""

from __future__ import annotations

import os
import pathlib
import shutil
import subprocess
from typing import Any, Iterator, List, Optional, Sequence

from .errors import OperationalError

VARIABLE = "TSVD_PROGRAM"
BUILT = pathlib.Path("crates") / "tsvd" / "out" / "tsvd"


def folders() -> Iterator[pathlib.Path]:
    """Yields the parents of this file and of the current folder."""
    for place in (pathlib.Path(__file__).resolve(), pathlib.Path.cwd() / "here"):
        yield from place.parents


def find_program() -> Optional[str]:
    """Returns the program's path: TSVD_PROGRAM, or the one built in this repository, or one in PATH."""
    named = os.environ.get(VARIABLE)
    if named:
        return named
    for folder in folders():
        if os.access(folder / BUILT, os.X_OK):
            return str(folder / BUILT)
    return shutil.which("tsvd")


def program_path() -> str:
    """Returns the program's path, or raises if there is none."""
    found = find_program()
    if not found:
        raise OperationalError(f"tsvd is not found: build it, or set {VARIABLE} to its path")
    return found


class Server:
    """Runs a server at a free port; `before` holds the lines printed before the port.

    `counted` says what ends it: `--sessions`, or `--connections` where it serves any number of them.
    """

    def __init__(self, options: Sequence[str] = (), sessions: int = 1, errors: Optional[int] = None,
                 counted: str = "--sessions") -> None:
        words = [program_path(), *options, "--listen", "0", counted, str(sessions)]
        self.process = subprocess.Popen(
            words, stdin=subprocess.DEVNULL, stdout=subprocess.PIPE, stderr=errors,
            encoding="utf-8", start_new_session=True)
        self.before: List[str] = []
        self.port = self.read_port()

    def __enter__(self) -> "Server":
        return self

    def __exit__(self, *_: Any) -> None:
        """Stops the server if it is running."""
        if self.process.poll() is None:
            self.process.kill()
            self.process.wait()
        for stream in (self.process.stdout, self.process.stderr):
            if stream:
                stream.close()

    def read_port(self) -> int:
        """Reads the output up to the port."""
        assert self.process.stdout is not None
        for line in iter(self.process.stdout.readline, ""):
            if line.startswith("listening "):
                return int(line.split()[1])
            self.before.append(line)
        _, told = self.process.communicate()
        status = self.process.returncode
        raise OperationalError(f"the server ended with status {status}" + (f": {told}" if told else ""))

    def end(self, timeout: Optional[float] = None) -> str:
        """Waits for the server to end, and returns what it printed after its sessions."""
        after, _ = self.process.communicate(timeout=timeout)
        return str(after)
