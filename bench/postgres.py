"""A private PostgreSQL server in a folder of its own, which listens at a socket in it and nowhere else."""

import os
import pathlib
import shutil
import subprocess
import tempfile
import time

USER = "bench"
# The statements that make a versioned table emp by the extension periods.
PERIODS = (
    "CREATE EXTENSION IF NOT EXISTS periods CASCADE",
    "CREATE TABLE emp (no INT PRIMARY KEY, name TEXT)",
    "SELECT periods.add_system_time_period('emp', 's', 'e')",
    "SELECT periods.add_system_versioning('emp')",
)
PATIENCE = 60


class Fault(Exception):
    """The server did not do what was asked."""


def find(name):
    """Returns the path of a program of PostgreSQL, of the newest version that has it, or None."""
    folders = sorted(pathlib.Path("/usr/lib/postgresql").glob("*/bin"), key=lambda path: int(path.parent.name), reverse=True)
    return shutil.which(name, path=":".join([*map(str, folders), os.environ.get("PATH", "")]))


class Server:
    """A server that runs from `open` to `close`."""

    def __init__(self):
        self.folder = tempfile.mkdtemp(prefix="tsvd-bench-")
        self.process = None
        # PostgreSQL refuses to run as root.
        self.own = {"cwd": "/", **({"user": "nobody"} if os.geteuid() == 0 else {})}
        if os.geteuid() == 0:
            shutil.chown(self.folder, "nobody")
        try:
            self.open()
        except BaseException:
            self.close()
            raise

    def open(self):
        data = os.path.join(self.folder, "data")
        words = [find("initdb"), f"--pgdata={data}", "--auth=trust", f"--username={USER}", "--no-sync", "--encoding=UTF8",
                 "--locale=C.UTF-8"]
        made = subprocess.run(words, capture_output=True, text=True, check=False, **self.own)
        if made.returncode != 0:
            raise Fault("initdb: " + made.stderr[-500:])
        with open(os.path.join(self.folder, "log"), "wb") as log:
            self.process = subprocess.Popen(
                [find("postgres"), "-D", data, "-c", "listen_addresses=", "-c", f"unix_socket_directories={self.folder}",
                 "-c", "fsync=off"], stdin=subprocess.DEVNULL, stdout=log, stderr=log, **self.own)
        end = time.monotonic() + PATIENCE
        while self.answer() is None:
            if self.process.poll() is not None or time.monotonic() > end:
                raise Fault("postgres: " + pathlib.Path(self.folder, "log").read_text(errors="replace")[-800:])
            time.sleep(0.1)

    def answer(self, statement="SHOW server_version"):
        """Returns what a statement selects, or None."""
        words = [find("psql"), "-XAtq", f"--host={self.folder}", f"--username={USER}", "postgres", "-c", statement]
        ran = subprocess.run(words, capture_output=True, text=True, check=False)
        return ran.stdout.strip() if ran.returncode == 0 else None

    def has_periods(self):
        return self.answer("SELECT 1 FROM pg_available_extensions WHERE name = 'periods'") == "1"

    def close(self):
        if self.process is not None:
            self.process.terminate()
            self.process.wait()
        shutil.rmtree(self.folder, ignore_errors=True)
