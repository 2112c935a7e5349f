import contextlib
import io
import os
import pty
import re
import select
import signal
import sys
import unittest

from tests.served import LONGEST, SCHEMA, Files, Served, needs_program, run
from tests.test_protocol import Answers
from tsvd import connect
from tsvd.layout import table_lines
from tsvd.shell import Shell
from tsvd.shell_commands import key_parts, touches

CONTROL = re.compile(r"\x1b\[[0-9;?]*[a-zA-Z]|\r|\x07")


class Terminal:
    """The shell in a pseudo-terminal: what is typed, and what is seen up to a mark."""

    def __init__(self, history, *words):
        self.process, self.ours = pty.fork()
        if self.process == 0:
            # who runs tests in the background may have Ctrl-C ignored, and a child begins with that
            signal.signal(signal.SIGINT, signal.default_int_handler)
            os.environ.update(TERM="dumb", TSVD_HISTORY=history, PYTHONDONTWRITEBYTECODE="1", TZ="UTC")
            os.execv(sys.executable, [sys.executable, "-m", "tsvd", "shell", *words])
        self.seen = ""

    def see(self, mark):
        """Reads until a mark is seen, and returns what came before it; fails where nothing more comes."""
        while mark not in self.seen:
            ready, _, _ = select.select([self.ours], [], [], LONGEST)
            try:
                more = os.read(self.ours, 65536) if ready else b""
            except OSError:
                more = b""
            if not more:
                raise AssertionError(f"{mark!r} is not seen in {self.seen!r}")
            self.seen += CONTROL.sub("", more.decode("utf-8"))
        before, self.seen = self.seen.split(mark, 1)
        return before

    def type(self, text):
        """Types a text."""
        os.write(self.ours, text.encode("utf-8"))

    def ask(self, line, prompt):
        """Types a line, and returns what is seen after it up to a prompt."""
        self.type(line + "\n")
        self.see(line + "\n")
        return self.see(prompt)

    def interrupt(self):
        """Types Ctrl-C until it is seen: Python may be between two looks at its signals."""
        for _ in range(int(LONGEST)):
            if "^C" in self.seen:
                break
            self.type("\x03")
            if select.select([self.ours], [], [], 1)[0]:
                self.seen += CONTROL.sub("", os.read(self.ours, 65536).decode("utf-8"))
        self.see("tsvd> ")

    def status(self):
        """Waits for the end, and returns the status."""
        _, status = os.waitpid(self.process, 0)
        self.process = 0
        return os.WEXITSTATUS(status)

    def close(self):
        """Ends the shell where it has not ended."""
        if self.process:
            os.kill(self.process, signal.SIGKILL)
            os.waitpid(self.process, 0)
        os.close(self.ours)


@needs_program
class Typed(Files):
    def terminal(self):
        schema = self.file("tables.schema", SCHEMA)
        rows = self.file("rows.csv", "site,no,name\na,1,Ann\na,2,Bo\n")
        terminal = Terminal(str(self.folder / "history"), "--", "--schema", schema, "--load", "staff=" + rows)
        self.addCleanup(terminal.close)
        return terminal

    def test_a_prompt_shows_an_open_transaction(self):
        terminal = self.terminal()
        self.assertIn("loaded 2 at 1", terminal.see("tsvd> "))
        self.assertEqual(terminal.ask("BEGIN", "tsvd*> "), "begun 1\n")
        self.assertEqual(terminal.ask("UPDATE staff SET active = TRUE WHERE no = 1", "tsvd*> "), "updated 1\n")
        told = terminal.ask("COMMIT", "tsvd> ")
        self.assertRegex(told, r"\Acommitted (\d{16}) \(20\d\d-\d\d-\d\d .*\+00:00\)\n\Z")
        instant = told.split()[1]
        shown = terminal.ask("\\history staff a, 1", "tsvd> ").split("\n")
        self.assertEqual([part.strip() for part in shown[0].split("|")],
                         ["site", "no", "name", "active", "recorded", "superseded"])
        self.assertEqual(len(shown), 6)
        self.assertRegex(shown[3], r"^ a +\|  1 \| Ann +\| true +\| 20\d\d-.* \| forever$")
        day = terminal.ask("\\at " + instant, "tsvd> ").split("(")[1][:10]
        changed = terminal.ask(f"\\between staff {day} 2999-01-01", "tsvd> ")
        self.assertIn("(2 rows)", changed)
        terminal.type("\x04")
        terminal.see("closed ")
        self.assertEqual(terminal.status(), 0)

    def test_a_refusal_is_marked_and_explained(self):
        terminal = self.terminal()
        terminal.see("tsvd> ")
        told = terminal.ask("SELECT * FROM staff ORDER BY no", "tsvd> ").split("\n")
        self.assertEqual(told[:3], ["E1 syntax at 20", "  SELECT * FROM staff ORDER BY no", " " * 22 + "^"])
        self.assertIn("  cure:  BEGIN first", terminal.ask("COMMIT", "tsvd> "))
        self.assertIn("this one has ended", terminal.ask("\\e 7", "tsvd> "))
        as_of = "SELECT * FROM staff FOR SYSTEM_TIME AS OF "
        self.assertIn("invalid date", terminal.ask(as_of + "2026-02-30", "tsvd> "))
        self.assertIn("unknown table emp", terminal.ask("\\history emp 1", "tsvd> "))
        self.assertIn("unknown command \\x", terminal.ask("\\x", "tsvd> "))
        self.assertEqual(terminal.ask("\\d", "tsvd> "), "staff (site, no, name, active)\nnote (no, body)\n")

    def test_keys_of_the_terminal(self):
        terminal = self.terminal()
        terminal.see("tsvd> ")
        terminal.type("BEGIN")
        terminal.see("BEGIN")
        terminal.interrupt()
        terminal.ask("MIGRATE:", "tsvd> ")
        terminal.type("\x1b[A\n")
        self.assertIn("ok", terminal.see("tsvd> "))
        terminal.ask("BEGIN", "tsvd*> ")
        terminal.type("\\q\n")
        self.assertIn("the open transaction is dropped", terminal.see("closed "))
        self.assertEqual(terminal.status(), 0)
        self.assertIn("MIGRATE:", (self.folder / "history").read_text())


@needs_program
class Piped(unittest.TestCase):
    def test_lines_of_a_pipe_have_no_prompt(self):
        out, err, status = run("shell", "--", text=b"BEGIN\r\n\n-- x\nINSERT INTO emp VALUES (1, 'a\xe2\x80\xa8b')\n"
                               b"SELECT * FROM emp\n\\dates off\nCOMMIT")
        self.assertEqual((err, status), ("", 0))
        self.assertRegex(out, r"\Abegun 0\ninserted 1\n no \| name\n.*\n  1 \| a\\u2028b\n\(1 row\)\n"
                              r"committed \d{16}\nclosed 2\n\Z")


class Asked(Served):
    def told(self, *lines):
        """Returns what a shell over the first connection prints for lines."""
        told = io.StringIO()
        with contextlib.redirect_stdout(told):
            self.assertEqual(Shell(self.first).run(iter(lines)), 0)
        return told.getvalue()

    def test_between_lists_what_began_or_ended_at_its_bounds(self):
        instants = []
        for statement in ("INSERT INTO note VALUES (1, 'a'), (2, 'b')", "UPDATE note SET body = 'c' WHERE no = 1",
                          "DELETE FROM note WHERE no = 1"):
            self.first.execute(statement)
            instants.append(self.first.commit())
        first, second, third = instants
        for low, high, number in [(second, second, 2), (third, third, 1), (first, first, 2), (first + 1, second, 2),
                                  (first, third, 3), (third + 1, third + 5, 0), (third, first, 0), (0, first - 1, 0)]:
            self.assertIn(f"({number} row", self.told(f"\\between note {low} {high}"), (low, high))

    def test_history_takes_texts_with_and_without_quotes(self):
        self.first.execute("INSERT INTO staff VALUES ('O''Hara', 1, 'x', TRUE), ('Graz', 1, 'y', TRUE)")
        self.first.commit()
        for key in ("'O''Hara' 1", "O'Hara, 1", "Graz", "Graz 1"):
            self.assertIn("(1 row)", self.told("\\history staff " + key), key)
        self.assertIn("needs the key: site, no", self.told("\\history staff"))


class Layout(unittest.TestCase):
    def test_columns_are_aligned_by_width(self):
        rows = [(1, "漢字", None), (-20, "e\u0301", True)]
        self.assertEqual(list(table_lines(["no", "name", "x"], rows, False, True)), [
            " no  | name | x", "-----+------+-----", "   1 | 漢字 | NULL", " -20 | e\u0301    | true", "(2 rows)"])

    def test_what_moves_the_cursor_is_written_as_an_escape(self):
        lines = list(table_lines(["name"], [("\x1b[2J\u202e",)], False, True))
        self.assertEqual(lines[2], " \\x1b[2J\\u202e")

    def test_a_version_touches_its_bounds(self):
        self.assertEqual([touches((1, 10, end), 10, 20) for end in (None, 15)], [True, True])
        self.assertEqual([touches((1, 5, end), 10, 20) for end in (None, 9, 10, 20, 21)],
                         [False, False, True, True, False])

    def test_a_key_is_split_outside_of_texts(self):
        self.assertEqual(key_parts("1001, 'a, b' fire 'O''Hara'"), ["1001", "'a, b'", "fire", "'O''Hara'"])

    def test_a_fault_of_the_schema_ends_no_shell_and_a_lost_session_does(self):
        answers = Answers(b"rows 1\n(1, 'a', true)\n", b"rows 1\n(1, 'a')\n", b"ok")
        self.addCleanup(answers.close)
        connection = connect(answers.port)
        self.addCleanup(connection.close)
        told = io.StringIO()
        with contextlib.redirect_stdout(told):
            status = Shell(connection).run(iter(["SELECT * FROM emp"] * 2 + ["\u2028", "BEGIN"]))
        self.assertEqual(status, 1)
        first, *shown, last = told.getvalue().splitlines()
        self.assertIn("the schema is not the server's", first)
        self.assertEqual(shown, [" no | name", "----+-----", "  1 | a", "(1 row)"])
        self.assertIn("the server ended the session", last)
        self.assertEqual(answers.lines[2], "\u2028\n".encode("utf-8"))

    def test_a_reply_is_shown_with_its_date(self):
        shell = Shell.__new__(Shell)
        shell.with_dates = True
        self.assertEqual(shell.reply_text("committed nothing"), "committed nothing")
        self.assertEqual(shell.reply_text("begun 1"), "begun 1")
        self.assertIn(" (20", shell.reply_text("begun 1795381782854991"))
