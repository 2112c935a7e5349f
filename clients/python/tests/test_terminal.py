import os
import pty
import subprocess
import sys

from tests.served import LONGEST, Files, needs_program, run
from tsvd.program import Server

EVIL = "\x1b[2Jx\u202ey\x07"


def shown(*words, text=b""):
    """Runs a command of the package whose standard output is a terminal, and returns what that is sent."""
    ours, theirs = pty.openpty()
    with subprocess.Popen([sys.executable, "-m", "tsvd", *words], stdin=subprocess.PIPE, stdout=theirs) as process:
        os.close(theirs)
        process.stdin.write(text)
        process.stdin.close()
        told = b""
        while True:
            try:
                more = os.read(ours, 65536)
            except OSError:
                break
            if not more:
                break
            told += more
        process.wait(LONGEST)
    os.close(ours)
    return told.decode("utf-8")


@needs_program
class Escapes(Files):
    def check(self, told):
        """Looks for the text in a form that moves no cursor."""
        self.assertIn("\\x1b[2Jx\\u202ey\\x07", told)
        for char in EVIL:
            self.assertTrue(char.isprintable() or char not in told)

    def setUp(self):
        super().setUp()
        self.rows = self.file("rows.csv", f"no,name\n1,{EVIL}\n")

    def test_replies_sent_to_a_terminal(self):
        with Server(["--load", "emp=" + self.rows], 3) as server:
            text = b"SELECT * FROM emp WHERE no = 1\n"
            self.check(shown("send", str(server.port), text=text))
            self.check(shown("extract", str(server.port), "emp", "--as-of", "1"))
            out, _, _ = run("send", str(server.port), text=text)
            self.assertEqual(out, f"rows 1\n(1, '{EVIL}')\n")

    def test_scripts_shown_at_a_terminal(self):
        script = self.file("a.script", "1: SELECT * FROM emp\n-- \x1b[31m\n")
        told = shown("side-by-side", script, "--load", "emp=" + self.rows)
        self.check(told)
        self.assertIn("-- \\x1b[31m", told)
        out, _, _ = run("side-by-side", script, "--load", "emp=" + self.rows)
        self.assertIn(EVIL, out)
