import os
import pathlib
import re
import signal
import socket
import subprocess
import sys
import unittest

import tsvd
from tests.served import LONGEST, Files, has_option, needs_program
from tsvd.program import find_program

EXAMPLES = pathlib.Path(tsvd.__file__).resolve().parents[3] / "examples"
UNITS = {path.name: path.read_text() for path in sorted(EXAMPLES.glob("*.service"))}
PAGE = EXAMPLES.parent / "docs" / "OPERATING.md"
SCHEMA = """CREATE TABLE contracts (contract INT PRIMARY KEY, holder TEXT,
  s TIMESTAMP(6) GENERATED ALWAYS AS ROW START, e TIMESTAMP(6) GENERATED ALWAYS AS ROW END, PERIOD FOR SYSTEM_TIME (s, e)
) WITH SYSTEM VERSIONING"""


def free_port():
    """Returns a port where nothing listens."""
    with socket.create_server(("127.0.0.1", 0)) as listener:
        return listener.getsockname()[1]


def units(supervised):
    """Returns the units that start the supervisor, or those that start the program itself."""
    return [text for text in UNITS.values() if (" serve " in text) == supervised]


@needs_program
class Units(Files):
    def setUp(self):
        super().setUp()
        self.file("tables.schema", SCHEMA)
        self.port = free_port()

    def commands(self, text, name):
        """Returns the commands of a unit, with the paths and the port of this test."""
        for before, now in (("/usr/local/bin/tsvd", find_program()), ("/etc/tsvd", str(self.folder)), ("7411", str(self.port)),
                            ("/usr/bin/python3", "python3"), ("/var/lib/tsvd", str(self.folder / "state"))):
            self.assertIn(before, text)
            text = text.replace(before, now)
        return re.findall(f"^{name}=(.*)$", text.replace("python3", sys.executable), re.M)

    def start(self, command):
        """Starts a command with its output in a file, and commits a row in a session of its own."""
        with open(str(self.folder / "output"), "w") as output:
            server = subprocess.Popen(command.split(), stdout=output, stderr=subprocess.DEVNULL, cwd=str(self.folder),
                                      env=self.environment())
        self.addCleanup(server.wait)
        self.addCleanup(server.kill)
        with tsvd.connect(self.port, SCHEMA, wait=LONGEST) as connection:
            connection.execute("INSERT INTO contracts VALUES (1, NULL)")
        connection.close()
        return server

    def environment(self):
        """Returns an environment in which the package is found."""
        return {"PYTHONPATH": str(pathlib.Path(tsvd.__file__).parents[1]), "PATH": os.environ["PATH"]}

    def test_the_commands_of_a_unit_start_and_stop_a_server(self):
        for text in units(supervised=False):
            (start,), stops = self.commands(text, "ExecStart"), self.commands(text, "ExecStop")
            server = self.start(start)
            for command in stops:
                ran = subprocess.run(["sh", "-c", command], cwd=str(self.folder), timeout=LONGEST, check=False,
                                     env=self.environment())
                self.assertEqual(ran.returncode, 0, command)
            server.terminate()
            self.assertEqual(server.wait(LONGEST), 0)
            self.assertIn("\ncontract,holder,s,e\n1,,", (self.folder / "output").read_text())
            self.assertIn("VALUES (1, NULL)", (self.folder / "stopped.script").read_text())

    @unittest.skipUnless(has_option("--connections"), "the program has no --connections")
    def test_a_unit_of_the_supervisor_starts_a_server_and_term_stops_it(self):
        for text in units(supervised=True):
            (start,), stops = self.commands(text, "ExecStart"), self.commands(text, "ExecStop")
            self.assertEqual(stops, [])
            # TERM must not reach the program itself.
            self.assertIn("\nKillMode=mixed\n", text)
            server = self.start(start)
            server.send_signal(signal.SIGTERM)
            self.assertEqual(server.wait(LONGEST), 0)
            self.assertIn("VALUES (1, null)", (self.folder / "state" / "state.script").read_text())

    def test_the_page_has_each_unit(self):
        self.assertTrue(UNITS)
        for text in UNITS.values():
            self.assertIn(text, PAGE.read_text(encoding="utf-8"))
