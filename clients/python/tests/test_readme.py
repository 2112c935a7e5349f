import os
import pathlib
import re
import socket
import subprocess
import sys
import unittest

import tsvd
from tests.served import LONGEST, Files, has_option, needs_program
from tests.test_days import TARIFFS
from tsvd.program import Server

FOLDER = pathlib.Path(tsvd.__file__).resolve().parents[1]
README = (FOLDER / "README.md").read_text(encoding="utf-8")
BLOCKS = re.findall(r"^```python\n((?:(?!```).*\n)*)```$", README, re.M)
SHELL_BLOCKS = re.findall(r"^```sh\n((?:(?!```).*\n)*)```$", README, re.M)
TEXT_BLOCKS = re.findall(r"^```text\n((?:(?!```).*\n)*)```$", README, re.M)
INSTANT = re.compile(r"\b\d{16}\b|\d{4}-\d\d-\d\d \d\d:\d\d:\d\d\.\d{6}\+\d\d:\d\d|listening \d+|port \d+")
SHOWN = re.compile(r"print\(.*\)(?:\n|  +)# (.*)")


@needs_program
class Readme(Files):
    def run_python(self, text):
        """Runs a text of Python, and returns the lines that it writes."""
        ran = subprocess.run([sys.executable, "-c", text], stdout=subprocess.PIPE, stderr=subprocess.PIPE, timeout=LONGEST,
                             check=False, cwd=str(FOLDER))
        self.assertEqual((ran.stderr.decode(), ran.returncode), ("", 0))
        return ran.stdout.decode().splitlines()

    def test_the_examples_of_the_module_write_what_stands_behind_them(self):
        first, second, dates, pool = BLOCKS[:4]
        self.assertIn("transact", second)
        for text, schema, sessions in (
                (first + second + 'print(connection.execute("SELECT * FROM emp").fetchall())  # [(1, \'Bea Smith\')]\n', None, 1),
                (dates, TARIFFS, 1), (pool, None, 64)):
            options = ["--schema", self.file("tables.schema", schema)] if schema else []
            with Server(options, sessions) as server:
                told = self.run_python(f"import tsvd\nschema = {schema!r}\n" + text.replace("7411", str(server.port)))
            wanted = SHOWN.findall(text)
            self.assertEqual(len(told), len(wanted))
            for line, shown in zip(told, wanted):
                self.assertTrue(shown == line or shown.startswith(line + ": "), (line, shown))

    def test_the_pool_of_the_example_is_made(self):
        try:
            import sqlalchemy
        except ImportError:
            self.skipTest("sqlalchemy is not installed")
        self.assertTrue(sqlalchemy)
        pool = next(block for block in BLOCKS if "QueuePool" in block)
        with Server(sessions=8) as server:
            self.run_python("import tsvd\nschema = None\n" + pool.replace("7411", str(server.port))
                            + "assert pool.connect().cursor().execute('SELECT * FROM emp').rowcount == 0\n")

    def test_each_command_runs_as_it_is_printed(self):
        block = next(block for block in SHELL_BLOCKS if "tsvd shell" in block)
        folder = self.folder / "clients" / "python"
        folder.mkdir(parents=True)
        (self.folder / "examples").symlink_to(FOLDER.parents[1] / "examples")
        (folder / "statements").write_text("BEGIN\nROLLBACK\n")
        (folder / "history.csv").write_text("no,name,sys_start,sys_end\n3,Ann,5,forever\n")
        environment = dict(os.environ, PYTHONPATH=str(FOLDER))
        with Server(sessions=64) as server:
            for line in block.splitlines():
                command = line.replace("7411", str(server.port)).replace("python3", sys.executable)
                ran = subprocess.run(["sh", "-c", command], cwd=str(folder), env=environment, stdin=subprocess.DEVNULL,
                                     stdout=subprocess.PIPE, stderr=subprocess.PIPE, timeout=LONGEST, check=False)
                self.assertEqual((ran.stderr.decode(), ran.returncode), ("", 0), line)
        self.assertIn("VALUES (3, 'Ann')", (folder / "history.script").read_text())
        self.assertIn("<title>History</title>", (folder / "page.html").read_text())

    @unittest.skipUnless(has_option("--connections"), "the program has no --connections")
    def test_a_server_is_kept_going_as_it_is_printed(self):
        block = next(block for block in SHELL_BLOCKS if "tsvd serve" in block)
        wrote = next(text for text in TEXT_BLOCKS if "the server at port" in text)
        told = next(text for text in TEXT_BLOCKS if "serve: stopped" in text)
        folder = self.folder / "clients" / "python"
        folder.mkdir(parents=True)
        (self.folder / "examples").symlink_to(FOLDER.parents[1] / "examples")
        with socket.create_server(("127.0.0.1", 0)) as listener:
            port = listener.getsockname()[1]
        command = block.replace("7411", str(port)).replace("python3", sys.executable)
        ran = subprocess.run(["bash", "-c", command], cwd=str(folder), env=dict(os.environ, PYTHONPATH=str(FOLDER), TZ="UTC"),
                             stdin=subprocess.DEVNULL, stdout=subprocess.PIPE, stderr=subprocess.PIPE, timeout=LONGEST, check=False)
        self.assertEqual((INSTANT.sub("I", ran.stdout.decode()), ran.returncode), (INSTANT.sub("I", wrote), 0), ran.stderr)
        self.assertEqual(INSTANT.sub("I", ran.stderr.decode()), INSTANT.sub("I", told))
