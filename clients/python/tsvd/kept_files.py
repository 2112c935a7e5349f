"""Files that are kept by the time at which they were written, and what makes writing them last."""

from __future__ import annotations

import datetime
import os
import pathlib
import re
from typing import List, Optional

FORM = "%Y%m%dT%H%M%SZ"
SECOND = datetime.timedelta(seconds=1)
BLOCK = 65536
COMMIT_CLOCK = re.compile(rb"^clock: ([0-9]{1,18})\r?\n", re.M)


def sync(path: pathlib.Path) -> None:
    """Waits until a file or a folder is on the disk as it is."""
    descriptor = os.open(str(path), os.O_RDONLY)
    try:
        os.fsync(descriptor)
    finally:
        os.close(descriptor)


def put(part: pathlib.Path, target: pathlib.Path) -> None:
    """Puts a file that was written whole in the place of another, and waits until that lasts."""
    sync(part)
    os.replace(str(part), str(target))
    sync(target.parent)


def last_instant(script: pathlib.Path) -> int:
    """Returns the instant of the last commit in a script of a history; 0 where there is none, or no file."""
    if not script.is_file():
        return 0
    size = script.stat().st_size
    length = min(BLOCK, size)
    with script.open("rb") as file:
        while True:
            file.seek(size - length)
            found = COMMIT_CLOCK.findall(file.read(length))
            if found or length == size:
                return int(found[-1]) if found else 0
            length = min(2 * length, size)


class KeptFiles:
    """The files NAME-YYYYMMDDTHHMMSSZ.script of a folder, whose names are in the order in which they were written."""

    def __init__(self, folder: pathlib.Path, name: str) -> None:
        self.folder = folder
        self.name = name
        self.form = re.compile(re.escape(name) + r"-(\d{8}T\d{6}Z)\.script", re.A)

    def files(self) -> List[pathlib.Path]:
        """Returns the files, the oldest first."""
        if not self.folder.is_dir():
            return []
        return sorted(path for path in self.folder.iterdir() if self.form.fullmatch(path.name))

    def newest(self) -> Optional[pathlib.Path]:
        """Returns the newest file, if any."""
        files = self.files()
        return files[-1] if files else None

    def part(self) -> pathlib.Path:
        """Returns the path of the file that is being written."""
        return self.folder / f"{self.name}.part"

    def drop_part(self) -> None:
        """Removes the file that is being written, if there is one."""
        self.part().unlink(missing_ok=True)

    def keep_part(self) -> pathlib.Path:
        """Gives the file that was written the name of this second, or of one after the newest file's."""
        time = datetime.datetime.now(datetime.timezone.utc)
        newest = self.newest()
        if newest:
            told = datetime.datetime.strptime(newest.name[len(self.name) + 1:-len(".script")], FORM)
            time = max(time, told.replace(tzinfo=datetime.timezone.utc) + SECOND)
        target = self.folder / f"{self.name}-{time.strftime(FORM)}.script"
        put(self.part(), target)
        return target

    def drop_old(self, count: int) -> None:
        """Removes all but the newest files."""
        for path in self.files()[:-count]:
            path.unlink()
        sync(self.folder)
