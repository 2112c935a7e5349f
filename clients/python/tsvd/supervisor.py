"""Starts the program again and again with the dump of the run before, until a signal stops it."""

from __future__ import annotations

import contextlib
import os
import pathlib
import re
import signal
from typing import Any, Iterator, List, Optional

from .caretaker import Care, Caretaker
from .running import Program, Running, tell
from .state_folder import Saved, StateFolder, saved

SIGNALS = (signal.SIGTERM, signal.SIGINT)
FAULT = 1

# A script that is refused; memory that runs out says nothing of it.
DAMAGE = re.compile(r"after: (?!.*E10 )")


@contextlib.contextmanager
def wake_up() -> Iterator[int]:
    """Gives the reading end of a pipe to which each signal writes."""
    woken, signalled = os.pipe()
    os.set_blocking(signalled, False)
    before = signal.set_wakeup_fd(signalled)
    try:
        yield woken
    finally:
        signal.set_wakeup_fd(before)
        os.close(woken)
        os.close(signalled)


class Supervisor:
    """Keeps a server going over the state of a folder."""

    def __init__(self, program: Program, folder: StateFolder, care: Care) -> None:
        self.program = program
        self.folder = folder
        self.care = care
        self.stops = 0
        self.running: Optional[Running] = None
        self.caretaker: Optional[Caretaker] = None

    def note_signal(self, *_: Any) -> None:
        """Takes a signal for the stop, and a second one for an end at once."""
        self.stops += 1
        tell("stopping: the server ends, and writes its dump; a second signal ends it at once, without the dump"
             if self.stops == 1 else "the server is ended at once, without its dump")
        if self.running:
            self.running.end(self.stops)

    def supervise(self) -> int:
        """Runs the program until it is stopped or fails, and returns the status."""
        before = [signal.signal(number, self.note_signal) for number in SIGNALS]
        try:
            self.folder.make_state()
            status = 0
            with wake_up() as woken:
                while not self.stops and status == 0:
                    status = self.run_once(woken)
            return status
        finally:
            for number, handler in zip(SIGNALS, before):
                signal.signal(number, handler)

    def run_once(self, woken: int) -> int:
        """Runs the program once, from the state on, and returns its status."""
        self.folder.copy_state()
        if self.stops:
            return 0
        tell(f"the server goes on from {saved(self.folder.state).text()}")
        self.running = Running(self.program, self.folder)
        if self.stops:
            self.running.end(self.stops)
        status = self.running.attend(woken, self.begin_care)
        if self.caretaker:
            self.caretaker.end()
        listened, self.running, self.caretaker = self.running.port is not None, None, None
        return self.ended(status, listened)

    def begin_care(self, port: int) -> None:
        """Keeps dumps and backups beside the run, now that the program has read its state and listens."""
        self.caretaker = Caretaker(self.program, self.folder, self.care, port)
        self.caretaker.start()

    def ended(self, status: int, listened: bool) -> int:
        """Says how a run ended, and returns the status of the supervisor if it is not 0."""
        if not listened:
            self.folder.dumps.drop_part()
            tell(f"the program ended with status {status} before it listened; nothing has changed")
            if not self.stops:
                self.tell_last_good()
            return status or FAULT
        if status:
            self.tell_loss(status)
            return status
        self.folder.sync_state()
        tell(f"{'stopped' if self.stops else 'the run has ended'}; its dump is {saved(self.folder.state).text()}")
        return 0

    def tell_loss(self, status: int) -> None:
        """Says what is left after a run that did not end well."""
        tell(f"the program ended with status {status}, without its dump. "
             f"{self.folder.state} is what it was when the run began: {saved(self.folder.state).reach()}")
        newest = self.folder.newest_backup()
        tell(f"the newest backup is {newest.text()}" if newest else "there is no backup")
        for script in self.folder.further():
            tell(f"further than the state goes {script.text()}; to go on from it: cp {script.path} {self.folder.state}")

    def tell_last_good(self) -> None:
        """Says whether the state can be read, and if not, which of the dumps and backups is the last that can."""
        fault = self.fault_of(self.folder.state)
        if fault is None:
            tell(f"the state is whole: {saved(self.folder.state).text()}")
            return
        if not DAMAGE.match(fault):
            tell(f"whether {self.folder.state} is whole could not be tried: {fault}")
            return
        tell(f"{self.folder.state} cannot be read: {fault}")
        for script in self.candidates():
            if not self.stops and self.fault_of(script.path) is None:
                tell(f"the last good one is {script.text()}; to go on from it: cp {script.path} {self.folder.state}")
                return
        tell("no dump and no backup can be read over these tables")

    def candidates(self) -> List[Saved]:
        """Returns the dumps and backups, those that go furthest first."""
        found = [saved(path) for path in self.folder.dumps.files() + self.folder.backups.files()]
        return sorted(found, key=lambda script: -script.last)

    def fault_of(self, script: pathlib.Path) -> Optional[str]:
        """Returns what the program says of a script that it cannot go on from, or None."""
        with self.program.read_back(str(script)) as process:
            told = process.communicate()[1].decode("utf-8", "replace").strip()
        return None if process.returncode == 0 else told or f"status {process.returncode}"
