"""One run of the program under a supervisor: its words, its standard input and output, and its end."""

from __future__ import annotations

import os
import re
import select
import subprocess
import sys
import threading
from typing import Callable, List, NamedTuple, Optional, Sequence

from .errors import Error
from .state_folder import StateFolder
from .stop import use_sessions

LISTENING = re.compile(rb"^listening (\d+)$", re.M)
CHUNK = 65536
SIGNALLED = 128


def tell(text: str) -> None:
    """Writes a message to standard error at once, also from the handler of a signal."""
    try:
        os.write(sys.stderr.fileno(), f"serve: {text}\n".encode("utf-8", "replace"))
    except OSError:
        pass


class Program(NamedTuple):
    """Describes how the program is started: its path, the schema's file, and its other words."""

    path: str
    schema: Optional[str]
    words: Sequence[str]

    def after(self, script: str) -> List[str]:
        """Returns the command that goes on from a script."""
        return [self.path, *(["--schema", self.schema] if self.schema else []), "--after", script]

    def serves(self, state: str) -> List[str]:
        """Returns the command that serves, and at its end leaves its dump where it began."""
        return [*self.after(state), "--dump", state, *self.words]

    def counts_sessions(self) -> bool:
        """Returns whether a server ends with its last session, and not with its standard input."""
        return any(word.partition("=")[0] == "--sessions" for word in self.words)

    def read_back(self, script: str) -> "subprocess.Popen[bytes]":
        """Starts a run that goes on from a script and asks nothing."""
        return subprocess.Popen(self.after(script), stdin=subprocess.DEVNULL, stdout=subprocess.DEVNULL,
                                stderr=subprocess.PIPE, start_new_session=True)


class Running:
    """Runs a server whose standard input is a pipe; it ends where the pipe does.

    It has a copy of the folder's lock, which so lasts as long as either of both processes. It has the
    reading end of its own standard output too: where the supervisor is killed, its last lines do not
    fail, and it writes its dump. Ctrl-C at the terminal is not sent to it, since it has a group of its
    own.
    """

    def __init__(self, program: Program, folder: StateFolder) -> None:
        self.counts_sessions = program.counts_sessions()
        self.port: Optional[int] = None
        self.is_ending = False
        self.is_muted = False
        self.output, written = os.pipe()
        try:
            self.process = subprocess.Popen(program.serves(str(folder.state)), stdin=subprocess.PIPE, stdout=written,
                                            pass_fds=(folder.lock, self.output), start_new_session=True)
        finally:
            os.close(written)

    def end(self, times: int) -> None:
        """Ends the run: at the first time by its standard input, at the second by TERM, and then by KILL."""
        if times > 2:
            self.process.kill()
        elif times == 2:
            self.process.terminate()
        else:
            self.end_input()

    def end_input(self) -> None:
        """Closes the pipe, which is the stop."""
        self.is_ending = True
        assert self.process.stdin is not None
        self.process.stdin.close()
        if self.port:
            self.end_sessions(self.port)

    def end_sessions(self, port: int) -> None:
        """Uses up the sessions that are left, where the server counts them."""
        if self.counts_sessions:
            threading.Thread(target=self.use_up, args=(port,), daemon=True).start()

    def use_up(self, port: int) -> None:
        """Uses up the sessions that are left; where clients have all of them, the server ends with these."""
        try:
            use_sessions(port)
        except Error:
            pass

    def next_chunk(self, woken: int) -> bytes:
        """Waits for output, and returns it, or nothing at the end.

        A signal that arrives just before a read does not interrupt it, so its handler would not run until
        there is output. It writes to the pipe `woken`, for which a `select` waits too.
        """
        while True:
            ready = select.select([self.output, woken], [], [])[0]
            if woken in ready:
                os.read(woken, CHUNK)
            if self.output in ready:
                return os.read(self.output, CHUNK)

    def attend(self, woken: int, listens: Callable[[int], None]) -> int:
        """Passes standard output on, calls `listens` with the port, and returns the status at the end."""
        head = b""
        for chunk in iter(lambda: self.next_chunk(woken), b""):
            self.pass_on(chunk)
            if self.port is None:
                head += chunk
                self.look_for_port(head, listens)
        os.close(self.output)
        status = self.process.wait()
        return status if status >= 0 else SIGNALLED - status

    def look_for_port(self, head: bytes, listens: Callable[[int], None]) -> None:
        """Takes note of the port, once it is told."""
        found = LISTENING.search(head)
        if not found:
            return
        self.port = int(found.group(1))
        if self.is_ending:
            self.end_sessions(self.port)
        listens(self.port)

    def pass_on(self, chunk: bytes) -> None:
        """Writes what the program wrote; where nobody reads it any more, the server goes on all the same."""
        try:
            while chunk and not self.is_muted:
                chunk = chunk[os.write(sys.stdout.fileno(), chunk):]
        except OSError as fault:
            self.is_muted = True
            tell(f"standard output takes nothing more ({fault}); the server goes on, and what it writes is dropped")
