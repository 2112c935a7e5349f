"""What the tests of the supervisor share: a supervisor that is started, watched and stopped."""

import os
import re
import signal
import subprocess
import sys
import time

import tsvd
from tests.served import LONGEST, SCHEMA, Files, needs_program
from tsvd.processes import server_at


def until(holds):
    """Waits until something holds, and returns it."""
    end = time.monotonic() + LONGEST
    while time.monotonic() < end:
        found = holds()
        if found:
            return found
        time.sleep(0.01)
    raise AssertionError("it did not come")


class Serving:
    """A supervisor as a process, whose output goes to files."""

    def __init__(self, folder, words):
        self.output, self.errors = folder / f"output{time.monotonic_ns()}", folder / f"errors{time.monotonic_ns()}"
        with self.output.open("wb") as output, self.errors.open("wb") as errors:
            self.process = subprocess.Popen([sys.executable, "-m", "tsvd", "serve", *words], stdin=subprocess.DEVNULL,
                                            stdout=output, stderr=errors)

    def out(self):
        """Returns what it wrote so far."""
        return self.output.read_text()

    def told(self):
        """Returns what it told so far."""
        return self.errors.read_text()

    def ports(self):
        """Returns the ports of its runs so far."""
        return [int(port) for port in re.findall(r"^listening (\d+)$", self.out(), re.M)]

    def port(self, run=1):
        """Waits for a run to listen, and returns its port."""
        until(lambda: len(self.ports()) >= run or self.process.poll() is not None)
        return self.ports()[run - 1]

    def wait(self):
        """Waits for the end, and returns the status."""
        return self.process.wait(LONGEST)

    def stop(self, number=signal.SIGTERM):
        """Sends a signal, and returns the status at the end."""
        self.process.send_signal(number)
        return self.wait()


@needs_program
class Supervised(Files):
    """A test of supervisors of one folder, with a schema of its own."""

    def setUp(self):
        super().setUp()
        self.schema = self.file("tables.schema", SCHEMA)
        self.state = self.folder / "state"

    def path(self, name):
        """Returns a path below the folder of the state."""
        return self.state / name

    def text(self, name="state.script"):
        """Returns the text of a file of the folder."""
        return self.path(name).read_text()

    def names(self, name):
        """Returns the names in a folder of the folder."""
        return sorted(os.listdir(str(self.path(name))))

    def backups(self):
        """Returns the names of the backups that are kept."""
        return [name for name in self.names("backups") if name.endswith(".script")]

    def start(self, *theirs, own=()):
        """Starts a supervisor, which is ended with its program at the end of the test."""
        serving = Serving(self.folder, ["--state", str(self.state), "--schema", self.schema, *own, "--",
                                        "--listen", "0", *theirs])
        self.addCleanup(self.clean, serving)
        return serving

    def clean(self, serving):
        """Ends a supervisor and the program that it started, if they go on."""
        ports = serving.ports() if serving.process.poll() is None else []
        serving.process.kill()
        serving.process.wait()
        server = server_at(ports[-1]) if ports else None
        if server:
            os.kill(server.number, signal.SIGKILL)

    def connect(self, port):
        """Connects to a port, with the schema."""
        connection = tsvd.connect(port, SCHEMA, wait=LONGEST)
        self.addCleanup(connection.close)
        return connection

    def insert(self, port, number, body="x"):
        """Commits a row in a session of its own."""
        connection = self.connect(port)
        with connection:
            connection.execute("INSERT INTO note VALUES (?, ?)", (number, body))
        connection.close()
        return connection.last_commit

    def rows(self, port):
        """Returns the numbers of the rows, read in a session of its own."""
        connection = self.connect(port)
        try:
            return [row[0] for row in connection.execute("SELECT * FROM note").fetchall()]
        finally:
            connection.close()
