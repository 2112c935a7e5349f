"""What is done beside a run: old dumps are dropped, and backups are taken."""

from __future__ import annotations

import os
import pathlib
import subprocess
import sys
import threading
from typing import Callable, Dict, List, NamedTuple, Optional

from .kept_files import KeptFiles
from .running import Program, tell
from .state_folder import StateFolder

LONGEST_PAUSE = 60.0
BACKUP_WAIT = "60"


def environment() -> Dict[str, str]:
    """Returns an environment in which a process finds this package."""
    paths = [str(pathlib.Path(__file__).resolve().parents[1]), os.environ.get("PYTHONPATH", "")]
    return dict(os.environ, PYTHONPATH=os.pathsep.join(path for path in paths if path))


class Care(NamedTuple):
    """Says how many dumps and backups are kept, and after how many seconds a backup is taken, if at all."""

    keep: int
    seconds: Optional[float]


class Caretaker(threading.Thread):
    """Works beside a run, by processes that end when the run does."""

    def __init__(self, program: Program, folder: StateFolder, care: Care, port: int) -> None:
        super().__init__(daemon=True)
        self.program = program
        self.folder = folder
        self.keep = care.keep
        self.seconds = care.seconds
        self.port = port
        self.ended = threading.Event()
        self.child: "Optional[subprocess.Popen[bytes]]" = None

    def run(self) -> None:
        """Keeps the new dump, and takes a backup after each stretch of time; after a fault it tries again sooner."""
        try:
            self.keep_dump()
        except OSError as fault:
            tell(f"no dump was kept or dropped: {fault}")
        pause = self.seconds
        while self.seconds is not None and not self.ended.wait(pause):
            pause = self.seconds if self.back_up() else min(self.seconds, LONGEST_PAUSE)

    def end(self) -> None:
        """Ends the work, and waits until nothing of it is under way."""
        self.ended.set()
        child = self.child
        if child:
            child.terminate()
        self.join()

    def outcome(self, start: "Callable[[], subprocess.Popen[bytes]]") -> Optional[str]:
        """Runs a process, and returns None where it ended well, else what it said."""
        with start() as child:
            self.child = child
            if self.ended.is_set():
                child.terminate()
            _, told = child.communicate()
            self.child = None
        if child.returncode == 0:
            return None
        return told.decode("utf-8", "replace").strip() or f"status {child.returncode}"

    def keep_dump(self) -> None:
        """Names the copy of the state, which the program has read by now, and drops dumps where that one is read back."""
        if self.folder.dumps.part().exists():
            self.folder.dumps.keep_part()
        dumps = self.folder.dumps.files()
        if len(dumps) <= self.keep:
            return
        fault = self.outcome(lambda: self.program.read_back(str(dumps[-1])))
        if fault is None:
            self.folder.dumps.drop_old(self.keep)
        elif not self.ended.is_set():
            tell(f"{dumps[-1]} cannot be read back, so no older dump is dropped: {fault}")

    def back_up(self) -> bool:
        """Takes a backup and drops old ones, or says why there is none."""
        backups = self.folder.backups
        try:
            fault = self.backup_fault(backups)
            if fault is None:
                backups.keep_part()
                backups.drop_old(self.keep)
                return True
            backups.drop_part()
        except OSError as error:
            fault = str(error)
        if not self.ended.is_set():
            newest = self.folder.newest_backup()
            tell(f"no backup: {fault}; {f'the newest is {newest.text()}' if newest else 'there is none before it'}")
        return False

    def backup_fault(self, backups: KeptFiles) -> Optional[str]:
        """Writes a backup beside those that are kept, and returns what is wrong with it, or None."""
        command: List[str] = [sys.executable, "-m", "tsvd", "backup", str(self.port), "--wait", BACKUP_WAIT]
        if self.program.schema:
            command += ["--schema", self.program.schema]
        with backups.part().open("wb") as file:
            return self.outcome(lambda: subprocess.Popen(command, stdin=subprocess.DEVNULL, stdout=file,
                                                         stderr=subprocess.PIPE, env=environment(), start_new_session=True))
