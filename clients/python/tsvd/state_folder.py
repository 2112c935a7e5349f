"""The folder of a supervised server: its state, the dumps of earlier runs, and the backups of this one."""

from __future__ import annotations

import filecmp
import os
import pathlib
import shutil
import time
from typing import List, NamedTuple, Optional

from .errors import OperationalError
from .instants import date_text
from .kept_files import KeptFiles, last_instant, sync

UNITS = (("day", 86400), ("hour", 3600), ("minute", 60), ("second", 1))


def age_text(seconds: float) -> str:
    """Returns how long ago something was, in the greatest unit, as in `12 minutes ago`."""
    for unit, length in UNITS:
        count = int(seconds // length)
        if count > 0:
            return f"{count} {unit}{'s' * (count != 1)} ago"
    return "just now"


class Saved(NamedTuple):
    """Names a script of the history and the instant of its last commit."""

    path: pathlib.Path
    last: int

    def text(self) -> str:
        """Returns the script as a message: how far it goes, and how old it is."""
        doubt = ", perhaps cut off" if self.path.suffix == ".part" else ""
        return f"{self.path} ({self.reach()}, written {age_text(time.time() - self.path.stat().st_mtime)}{doubt})"

    def reach(self) -> str:
        """Returns how far the script goes, as a message."""
        if not self.last:
            return "with no commit"
        return f"to the commit of {date_text(self.last) or self.last}"


def saved(path: pathlib.Path) -> Saved:
    """Reads how far a script goes."""
    return Saved(path, last_instant(path))


class StateFolder:
    """Holds the paths of a folder, which is made where it is not there and locked for one supervisor."""

    def __init__(self, path: str) -> None:
        self.path = pathlib.Path(path)
        self.state = self.path / "state.script"
        self.part = self.path / "state.script.part"
        self.dumps = KeptFiles(self.path / "dumps", "state")
        self.backups = KeptFiles(self.path / "backups", "backup")
        if self.path.exists() and not self.path.is_dir():
            raise OperationalError(f"{path} is not a folder")
        try:
            if not self.path.exists():
                self.path.mkdir(parents=True)
                sync(self.path.parent)
            for folder in (self.dumps.folder, self.backups.folder):
                folder.mkdir(exist_ok=True)
            self.lock = self.take_lock()
        except OSError as fault:
            raise OperationalError(f"the folder {path} cannot be used: {fault}") from fault

    def take_lock(self) -> int:
        """Locks the folder, and returns the descriptor that holds the lock until its last copy is closed."""
        import fcntl

        descriptor = os.open(str(self.path / "lock"), os.O_RDWR | os.O_CREAT, 0o666)
        try:
            fcntl.flock(descriptor, fcntl.LOCK_EX | fcntl.LOCK_NB)
        except BlockingIOError:
            holder = os.read(descriptor, 20).decode("ascii", "replace").strip()
            os.close(descriptor)
            raise OperationalError(f"another supervisor, process {holder}, has {self.path}, or the program that it "
                                   "started has not ended") from None
        os.ftruncate(descriptor, 0)
        os.write(descriptor, b"%d\n" % os.getpid())
        return descriptor

    def further(self) -> List[Saved]:
        """Returns what goes further than the state, the furthest first: a run before did not end well, or the state is old."""
        found = [saved(path) for path in (self.part, self.dumps.newest(), self.backups.newest()) if path and path.is_file()]
        last = last_instant(self.state)
        return sorted((script for script in found if script.last > last), key=lambda script: -script.last)

    def make_state(self) -> None:
        """Makes an empty state where there is none, and refuses one that lacks what was saved before."""
        further = self.further()
        if further:
            raise OperationalError(
                f"{self.state} goes {saved(self.state).reach()}. "
                f"Further go: {'; '.join(script.text() for script in further)}. So a run did not end well, or the state "
                f"was replaced. To go on from one of them: cp {further[0].path} {self.state}. To go on without them, move "
                "them out of the folder")
        if not self.state.exists():
            self.state.touch()
            sync(self.path)

    def copy_state(self) -> None:
        """Copies the state beside the dumps, where there is something new in it."""
        self.dumps.drop_part()
        newest = self.dumps.newest()
        if self.state.stat().st_size == 0 or newest and filecmp.cmp(str(newest), str(self.state), shallow=False):
            return
        try:
            shutil.copyfile(str(self.state), str(self.dumps.part()))
        except OSError as fault:
            self.dumps.drop_part()
            raise OperationalError(f"no server is started, since {self.state} cannot be copied to {self.dumps.folder}: "
                                   f"{fault}. It is as it was") from fault

    def sync_state(self) -> None:
        """Waits until the state, which the program has put in its place, lasts."""
        sync(self.state)
        sync(self.path)

    def newest_backup(self) -> Optional[Saved]:
        """Returns the newest backup, if any."""
        newest = self.backups.newest()
        return saved(newest) if newest else None
