"""What the tests share: a server of the real program for each test, and its schema."""

import os
import pathlib
import subprocess
import tempfile
import unittest

import tsvd
from tsvd.program import Server, find_program

LONGEST = 60.0

SCHEMA = """-- staff by site and number; a comment, with a comma
CREATE TABLE staff (
  site VARCHAR(20), no INT NOT NULL, name TEXT, active BOOLEAN,
  recorded TIMESTAMP(6) GENERATED ALWAYS AS ROW START, superseded TIMESTAMP(6) GENERATED ALWAYS AS ROW END,
  PERIOD FOR SYSTEM_TIME (recorded, superseded), PRIMARY KEY (site, no)
) WITH SYSTEM VERSIONING;
CREATE TABLE note (
  no BIGINT PRIMARY KEY, body TEXT NOT NULL,
  sys_start TIMESTAMP GENERATED ALWAYS AS ROW START, sys_end TIMESTAMP GENERATED ALWAYS AS ROW END,
  PERIOD FOR SYSTEM_TIME (sys_start, sys_end)
) WITH SYSTEM VERSIONING
"""

def has_option(option):
    """Returns whether there is a program, and its help has an option."""
    program = find_program()
    if not program:
        return False
    told = subprocess.run([program, "--help"], stdout=subprocess.PIPE, stdin=subprocess.DEVNULL, timeout=LONGEST, check=False)
    return f" {option} " in told.stdout.decode("utf-8")


needs_program = unittest.skipUnless(find_program(), "tsvd is not built")


def run(*words, text=None, program=None):
    """Runs a command of the package, or the program, and returns what it wrote and its status."""
    command = [program, *words] if program else [os.sys.executable, "-m", "tsvd", *words]
    ran = subprocess.run(command, input=text, stdout=subprocess.PIPE, stderr=subprocess.PIPE,
                         timeout=LONGEST, check=False, stdin=None if text is not None else subprocess.DEVNULL)
    return ran.stdout.decode("utf-8"), ran.stderr.decode("utf-8"), ran.returncode


class Files(unittest.TestCase):
    """A test with a folder of its own."""

    def setUp(self):
        folder = tempfile.TemporaryDirectory()
        self.addCleanup(folder.cleanup)
        self.folder = pathlib.Path(folder.name)

    def file(self, name, text):
        """Writes a file, and returns its path."""
        path = self.folder / name
        path.write_bytes(text if isinstance(text, bytes) else text.encode("utf-8"))
        return str(path)


@needs_program
class Served(Files):
    """A test with a server, two connections to it, and its end looked at."""

    sessions = 2

    def setUp(self):
        super().setUp()
        self.server = Server(["--schema", self.file("tables.schema", SCHEMA)], self.sessions)
        self.addCleanup(self.server.__exit__)
        self.first, self.second = (tsvd.connect(self.server.port, SCHEMA, timeout=LONGEST) for _ in range(2))
        self.addCleanup(self.end)

    def end(self):
        """Ends the sessions, and looks at the server's end."""
        self.first.close()
        self.second.close()
        self.assertRegex(self.server.end(LONGEST), r"\Aclosed \d+\n\Z")
        self.assertEqual(self.server.process.returncode, 0)
