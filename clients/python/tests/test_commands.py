import contextlib
import io
import os
import pathlib
import socket
import subprocess
import sys
import tempfile
import threading
import unittest
from unittest import mock

import tsvd
from tests.served import LONGEST, Files, needs_program, run
from tsvd import processes
from tsvd.errors import OperationalError
from tsvd.program import Server
from tsvd.side_by_side import side_by_side
from tsvd.stop import WAS_LEFT, stop, use_session, use_sessions

SCRIPT = b"-- a comment\nclock: 5\n1: BEGIN\r\n\n1: SELECT * FROM emp\n1: x"


class Pairs(Files):
    def test_each_line_has_its_reply_beside_it(self):
        output = "loaded 1 at 1\nok\nbegun 1\nrows 1\n(1, 'a')\nE1 syntax at 3\nno,name,s,e\n"
        self.assertEqual(list(side_by_side(SCRIPT, output, True)), [
            "loaded 1 at 1", "-- a comment", "clock: 5              ok", "1: BEGIN              begun 1", "",
            "1: SELECT * FROM emp  rows 1", "                      (1, 'a')", "1: x                  E1 syntax at 3",
            "no,name,s,e"])

    def test_a_script_whose_replies_end_early_is_shown(self):
        self.assertEqual(list(side_by_side(b"1: BEGIN\n1: COMMIT\n", "begun 0\n", False)),
                         ["1: BEGIN  begun 0", "1: COMMIT"])

    def test_a_script_without_a_reply_is_shown(self):
        self.assertEqual(list(side_by_side(b"-- a comment\n\n", "", False)), ["-- a comment", ""])

    @needs_program
    def test_the_program_is_run(self):
        script = self.file("a.script", SCRIPT)
        out, err, status = run("side-by-side", script, "--load", "emp=" + self.file("a.csv", "no,name\n1,a\n"))
        self.assertEqual((out.split("\n")[0], err, status), ("loaded 1 at 1", "", 0))
        self.assertIn("\n1: SELECT * FROM emp  rows 1\n                      (1, 'a')\n", out)
        out, err, status = run("side-by-side", script, "--load", "emp=/nowhere")
        self.assertEqual((err, status), ("read fault\n", 1))


@needs_program
class Stops(unittest.TestCase):
    def stopping(self, server, *words):
        """Starts the command, and returns its process."""
        process = subprocess.Popen([sys.executable, "-m", "tsvd", "stop", str(server.port), *words], encoding="utf-8",
                                   stdout=subprocess.PIPE, stderr=subprocess.PIPE)
        self.addCleanup(process.communicate)
        return process

    def test_sessions_that_are_left_are_used_up(self):
        with Server(["--export", "emp"], sessions=3) as server:
            with tsvd.Session(server.port) as session:
                session.ask("BEGIN")
                session.ask("INSERT INTO emp VALUES (1, 'Ann')")
                session.ask("COMMIT")
            out, err, status = run("stop", str(server.port))
            self.assertEqual((out, err, status), ("the server has ended; unused sessions: 2\n", "", 0))
            server.process.terminate()
            self.assertRegex(server.end(LONGEST), "closed 2\nno,name,sys_start,sys_end\n1,Ann,[0-9]+,forever\n")
            self.assertEqual(server.process.returncode, 0)
            with self.assertRaises(OperationalError):
                use_sessions(server.port)
            out, err, status = run("stop", str(server.port))
            self.assertEqual((out, status), ("", 1))
            self.assertIn("nothing listens", err)

    @unittest.skipUnless(sys.platform == "linux", "other systems do not show who has a connection")
    def test_an_idle_client_is_named_and_waited_for(self):
        with Server(sessions=3) as server:
            session = tsvd.Session(server.port)
            port = session.socket.getsockname()[1]
            out, err, status = run("stop", str(server.port), "--timeout", "1")
            self.assertEqual(status, 3)
            whose = f"1 session: process {os.getpid()}, "
            for told in (out, err):
                self.assertIn(whose, told)
                self.assertIn(f"(from port {port})", told)
            self.assertIn("has not ended; unused sessions: 2; it is kept by", out)
            self.assertIsNone(server.process.poll())
            waiting = self.stopping(server)
            self.assertIn(whose, waiting.stderr.readline())
            self.assertIsNone(waiting.poll())
            self.assertEqual(session.ask("BEGIN"), ["begun 0"])
            session.close()
            self.assertEqual(waiting.communicate(timeout=LONGEST)[0], "the server has ended; unused sessions: 0\n")
            self.assertEqual((waiting.returncode, server.end(LONGEST)), (0, "closed 1\n"))

    def test_without_waiting_the_server_is_left_to_end(self):
        with Server(sessions=2) as server:
            with tsvd.Session(server.port) as session:
                out, err, status = run("stop", str(server.port), "--no-wait")
                self.assertEqual((out, err, status), ("the server is ending; unused sessions: 1\n", "", 0))
                self.assertIsNone(server.process.poll())
                self.assertEqual(session.ask("BEGIN"), ["begun 0"])
            self.assertEqual(server.end(LONGEST), "closed 1\n")

    def test_where_processes_cannot_be_seen_that_is_said(self):
        with Server(sessions=2) as server, mock.patch.object(processes, "PROC", pathlib.Path("/nowhere")):
            told = io.StringIO()
            with contextlib.redirect_stdout(told):
                self.assertEqual(stop(server.port, LONGEST, None), 4)
            self.assertIn("unused sessions: 2; whether the server has ended cannot be seen", told.getvalue())
            self.assertEqual(server.end(LONGEST), "closed 0\n")

    def test_a_server_whose_sessions_are_taken_is_not_said_to_have_ended(self):
        with Server(sessions=2) as server:
            with tsvd.Session(server.port) as session:
                session.ask("BEGIN")
                self.assertEqual(use_session(server.port, LONGEST), WAS_LEFT)
                with self.assertRaisesRegex(OperationalError, "sessions are all taken"):
                    use_sessions(server.port, 0.2)
                self.assertEqual(session.ask("ROLLBACK"), ["rolled back"])
            self.assertEqual(server.end(LONGEST), "closed 1\n")

    def test_a_program_that_is_not_tsvd_is_not_waited_for(self):
        with socket.create_server(("127.0.0.1", 0)) as listener:
            def answer():
                connection, _ = listener.accept()
                connection.sendall(b"220 hello\r\n")
                connection.close()

            thread = threading.Thread(target=answer)
            thread.start()
            out, err, status = run("stop", str(listener.getsockname()[1]))
            thread.join(LONGEST)
        self.assertEqual((out, status), ("", 1))
        self.assertIn("is not tsvd: it sends first", err)


@needs_program
class Sends(unittest.TestCase):
    def test_a_reply_comes_before_the_next_line_is_read(self):
        with Server(sessions=1) as server:
            command = [sys.executable, "-m", "tsvd", "send", str(server.port)]
            buffered = {name: value for name, value in os.environ.items() if name != "PYTHONUNBUFFERED"}
            with subprocess.Popen(command, stdin=subprocess.PIPE, stdout=subprocess.PIPE, env=buffered) as client:
                for line, reply in [(b"BEGIN\n", b"begun 0\n"), (b"\n-- x\nROLLBACK\r\n", b"rolled back\n"),
                                    (b"x" * 8193 + b"\n", b"E12 line too long\n"), (b"\xff\n", b"E1 syntax at 0\n")]:
                    client.stdin.write(line)
                    client.stdin.flush()
                    self.assertEqual(client.stdout.readline(), reply)
                out, _ = client.communicate("INSERT INTO emp VALUES (1, 'a\u2028b')".encode("utf-8"), LONGEST)
                self.assertEqual((out, client.returncode), (b"E4 no transaction\n", 0))
            self.assertEqual(server.end(LONGEST), "closed 1\n")


class Words(unittest.TestCase):
    def test_words_that_are_no_command_are_told(self):
        for words in ((), ("x",)):
            out, err, status = run(*words)
            self.assertEqual((out, err[:6], status), ("", "usage:", 2))
        out, err, status = run("--help")
        self.assertEqual((out[:6], err, status), ("usage:", "", 0))
        self.assertEqual(run("stop", "x")[2], 2)

    def test_files_that_are_not_there_or_not_utf_8_are_told(self):
        with tempfile.TemporaryDirectory() as folder:
            path = os.path.join(folder, "bytes")
            with open(path, "wb") as file:
                file.write(b"no,s,e\n\xff,1,2\n")
            for words in (("timeline", path), ("timeline", path + "x"), ("check-csv", path, "--schema", path),
                          ("load", path, "--schema", path), ("extract", "1", "emp", "--as-of", "1", "--schema", path),
                          ("side-by-side", path + "x")):
                out, err, status = run(*words)
                self.assertEqual((out, status), ("", 1), words)
                self.assertRegex(err, rf"\A{words[0]}: .+\n\Z")

    def test_a_program_that_is_not_there_is_told(self):
        ran = subprocess.run([sys.executable, "-m", "tsvd", "shell", "--"], stdin=subprocess.DEVNULL, check=False,
                             stdout=subprocess.PIPE, stderr=subprocess.PIPE, timeout=LONGEST,
                             env=dict(os.environ, TSVD_PROGRAM="/nowhere/tsvd"))
        self.assertEqual((ran.stdout, ran.returncode), (b"", 1))
        self.assertTrue(ran.stderr.startswith(b"shell: "))
