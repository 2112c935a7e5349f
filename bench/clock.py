"""A clock that can be set, for programs that are started while it is laid over them, by libfaketime."""

import contextlib
import os
import pathlib
import tempfile

PLACES = ("/usr/lib/*/faketime/libfaketimeMT.so.1", "/usr/lib/faketime/libfaketimeMT.so.1",
          "/usr/local/lib/faketime/libfaketimeMT.so.1")


def library():
    """Returns the path of libfaketime, or None."""
    found = [path for place in PLACES for path in pathlib.Path("/").glob(place.lstrip("/"))]
    return str(found[0]) if found else None


class Clock:
    """A clock that goes right until it is set."""

    def __init__(self):
        self.folder = tempfile.TemporaryDirectory()
        os.chmod(self.folder.name, 0o755)
        self.file = pathlib.Path(self.folder.name, "clock")
        self.set(0)

    def set(self, seconds):
        """Sets the clock so many seconds fast."""
        self.file.write_text(f"+{seconds}")

    @contextlib.contextmanager
    def over(self):
        """Lays the clock over the programs that are started meanwhile."""
        laid = {"LD_PRELOAD": library(), "FAKETIME_TIMESTAMP_FILE": str(self.file), "FAKETIME_NO_CACHE": "1",
                "FAKETIME_DONT_FAKE_MONOTONIC": "1"} if library() else {}
        os.environ.update(laid)
        try:
            yield
        finally:
            for name in laid:
                del os.environ[name]

    def close(self):
        self.folder.cleanup()
