import os
import pty
import sys
import unittest
from subprocess import Popen

import tsvd
from tests.served import LONGEST, SCHEMA, Files, needs_program, run
from tsvd.errors import ProgrammingError
from tsvd.load import script_lines
from tsvd.program import Server, find_program
from tsvd.row_lines import delete_line, insert_lines
from tsvd.schema import read_schema

STAFF, NOTE = (read_schema(SCHEMA).table(name) for name in ("staff", "note"))
# 1 April 2026 in UTC, by date -u -d 2026-04-01 +%s%6N
INSTANT = 1775001600000000
WIDE = """CREATE TABLE wide (k TEXT, """ + ", ".join(f"c{n} TEXT{' NOT NULL' if n % 2 else ''}" for n in range(14)) + """, n INT NOT NULL,
  s TIMESTAMP(6) GENERATED ALWAYS AS ROW START, e TIMESTAMP(6) GENERATED ALWAYS AS ROW END,
  PERIOD FOR SYSTEM_TIME (s, e), PRIMARY KEY (k)) WITH SYSTEM VERSIONING"""


def notes(count):
    """Returns a CSV file of some rows of the table note."""
    return "no,body\n" + "".join(f"{number},n {number}\n" for number in range(count))


class Lines(unittest.TestCase):
    def test_a_row_is_deleted_by_its_whole_key(self):
        self.assertEqual(delete_line(STAFF, ("O'Hara", -1, None, True), "1: "),
                         "1: DELETE FROM staff WHERE site = 'O''Hara' AND no = -1")

    def test_rows_fill_lines(self):
        self.assertEqual(list(insert_lines(NOTE, [(1, "a"), (2, "'")], "1: ")),
                         ["1: INSERT INTO note VALUES (1, 'a'), (2, '''')"])
        self.assertEqual(list(insert_lines(NOTE, [])), [])

    def test_the_last_transaction_is_at_the_instant(self):
        rows = [[number, "x"] for number in range(2001)]
        clocks = [line for line in script_lines(NOTE, rows, 7) if line.startswith("clock")]
        self.assertEqual(clocks, ["clock: 5", "clock: 6", "clock: 7"])
        self.assertEqual(next(script_lines(NOTE, rows, 3)), "clock: 1")
        with self.assertRaisesRegex(ProgrammingError, "from 3 on"):
            list(script_lines(NOTE, rows, 2))
        self.assertEqual(next(script_lines(NOTE, rows, 0)), "1: BEGIN")
        self.assertEqual(list(script_lines(NOTE, [], 5)), [])


@needs_program
class Loads(Files):
    def setUp(self):
        super().setUp()
        self.schema = self.file("tables.schema", SCHEMA)

    def server(self, sessions=1, schema=None):
        server = Server(["--schema", schema or self.schema], sessions)
        self.addCleanup(server.__exit__)
        return server

    def test_a_file_of_any_length_is_loaded_into_a_server(self):
        server = self.server(2)
        words = ("load", self.file("notes.csv", notes(2500)), "--schema", self.schema, "--port", str(server.port), "--table")
        out, err, status = run(*words, "Note")
        self.assertRegex(out, r"\Aloaded 2500 at \d{16}\n\Z")
        self.assertEqual((err, status), ("", 0))
        connection = tsvd.connect(server.port, SCHEMA)
        rows = connection.execute("SELECT * FROM note FOR SYSTEM_TIME AS OF ?", (int(out.split()[-1]),)).fetchall()
        self.assertEqual(rows, [(number, f"n {number}") for number in range(2500)])
        connection.close()

    def test_a_refused_part_says_what_is_committed(self):
        server = self.server(2)
        with tsvd.connect(server.port, SCHEMA) as connection:
            connection.execute("INSERT INTO note VALUES (1700, 'x')")
        out, err, status = run("load", self.file("notes.csv", notes(2500)), "--schema", self.schema, "--table", "note",
                               "--port", str(server.port))
        self.assertEqual((out, status), ("", 1))
        self.assertIn("load: rows 1001 to 2000: E6 duplicate key (1700)", err)
        self.assertIn("the 1000 rows before them are committed", err)
        self.assertEqual(connection.execute("SELECT * FROM note").rowcount, 1001)
        connection.close()

    def test_a_bad_file_is_refused_before_anything_is_sent(self):
        server = self.server(1)
        for data, why in [(notes(1500) + "x,y\n", "record 1502"), ("", "no header"), (b"no,body\n1,\xff\n", "not UTF-8"),
                          (notes(1500) + "7,again\n", "also the key of record 9"), ("no,body\n1\n", "1 fields")]:
            for words in (("--port", str(server.port)), ()):
                out, err, status = run("load", self.file("bad.csv", data), "--schema", self.schema, "--table", "note", *words)
                self.assertEqual((out, status), ("", 1))
                self.assertIn(why, err)
        tsvd.Session(server.port).close()
        self.assertEqual(server.end(LONGEST), "closed 0\n")

    def test_a_script_has_all_rows_on_record_at_its_date(self):
        file = self.file("notes.csv", notes(2500))
        os.environ["TZ"], before = "UTC", os.environ.get("TZ")
        self.addCleanup(lambda: os.environ.update(TZ=before) if before else os.environ.pop("TZ"))
        out, err, status = run("load", file, "--schema", self.schema, "--table", "note", "--at", "2026-04-01")
        self.assertEqual((err, status), ("", 0))
        asked = "".join(f"2: SELECT * FROM note FOR SYSTEM_TIME AS OF {instant}\n" for instant in (INSTANT, INSTANT - 1, INSTANT - 3))
        told, err, status = run("--schema", self.schema, "--script", self.file("load.script", out + asked), program=find_program())
        self.assertEqual((err, status), ("", 0))
        self.assertEqual([line for line in told.splitlines() if line.startswith(("rows", "E"))], ["rows 2500", "rows 2000", "rows 0"])
        self.assertIn(f"committed {INSTANT}\n", told)

    def test_a_row_longer_than_a_line_is_loaded_whole(self):
        schema = self.file("wide.schema", WIDE)
        row = ["x" * 200] + ["'" * 1000] * 13 + ["", "5"]
        file = self.file("wide.csv", "k," + ",".join(f"c{n}" for n in range(14)) + ",n\n" + ",".join(row) + "\n")
        server = self.server(2, schema)
        out, err, status = run("load", file, "--schema", schema, "--port", str(server.port))
        self.assertEqual((out.split()[1], err, status), ("1", "", 0))
        connection = tsvd.connect(server.port, WIDE)
        read = connection.execute("SELECT * FROM wide FOR SYSTEM_TIME BETWEEN 0 AND 999999999999999999").fetchall()
        self.assertEqual([version[:-2] for version in read], [(*row[:-1], 5)])
        connection.close()

    def test_a_date_is_for_a_script_alone(self):
        out, err, status = run("load", self.file("x.csv", notes(1)), "--port", "1", "--at", "2026-04-01")
        self.assertEqual((out, status), ("", 2))
        self.assertIn("give --at without --port", err)

    def test_a_terminal_shows_how_many_rows_are_done(self):
        server, file = self.server(1), self.file("notes.csv", notes(1500))
        ours, theirs = pty.openpty()
        with Popen([sys.executable, "-m", "tsvd", "load", file, "--schema", self.schema, "--table", "note", "--port",
                    str(server.port)], stderr=theirs, stdout=theirs) as process:
            os.close(theirs)
            self.assertEqual(process.wait(LONGEST), 0)
        shown = os.read(ours, 65536).decode()
        os.close(ours)
        self.assertRegex(shown, r"\A\r1000 of 1500 rows\r1500 of 1500 rows\r\nloaded 1500 at \d+\r\n\Z")
