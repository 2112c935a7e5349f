import os
import random

import tsvd
from tests.served import LONGEST, SCHEMA, Files, needs_program, run
from tests.test_days import TARIFFS
from tests.test_load import WIDE
from tsvd.errors import DataError
from tsvd.history import History, Version, script_lines
from tsvd.program import Server, find_program
from tsvd.schema import read_schema

ALL = "SELECT * FROM {} FOR SYSTEM_TIME BETWEEN 0 AND 999999999999999999"
NOTE = read_schema(SCHEMA).table("note")


class Scripts(Files):
    def test_deletions_come_before_insertions_at_each_instant(self):
        versions = [Version((1, "a"), 5, 7), Version((1, "b"), 7, None), Version((2, "x"), 5, 7), Version((3, "y"), 7, 9)]
        self.assertEqual(list(script_lines([History(NOTE, versions)])), [
            "clock: 5", "1: BEGIN", "1: INSERT INTO note VALUES (1, 'a'), (2, 'x')", "1: COMMIT",
            "clock: 7", "1: BEGIN", "1: DELETE FROM note WHERE no = 1", "1: DELETE FROM note WHERE no = 2",
            "1: INSERT INTO note VALUES (1, 'b'), (3, 'y')", "1: COMMIT",
            "clock: 9", "1: BEGIN", "1: DELETE FROM note WHERE no = 3", "1: COMMIT"])
        self.assertEqual(list(script_lines([History(NOTE, [])])), [])

    def test_an_instant_with_more_keys_than_a_transaction_writes_is_refused(self):
        def versions(count):
            return [Version((n, ""), 5, 1775001600000000) for n in range(count)] + [Version((0, "x"), 1775001600000000, None)]

        self.assertEqual(sum(line.startswith("1: DELETE") for line in script_lines([History(NOTE, versions(1000))])), 1000)
        with self.assertRaisesRegex(DataError, "1001 keys changed at 5, .* at most 1000"):
            script_lines([History(NOTE, versions(1001))])


@needs_program
class Backups(Files):
    def setUp(self):
        super().setUp()
        self.text = SCHEMA + ";" + TARIFFS + ";" + WIDE
        self.schema = self.file("tables.schema", self.text)
        self.server = Server(["--schema", self.schema], 64)
        self.addCleanup(self.server.__exit__)
        self.connection = tsvd.connect(self.server.port, self.text, timeout=LONGEST)
        self.addCleanup(self.connection.close)

    def change(self, chance, turn):
        """Makes one transaction of some kind."""
        execute, no = self.connection.execute, chance.randrange(20)
        text = chance.choice(["", "O'Hara", "a\u2028b\x00c", "ü" * 500, None, "?"])
        cover, since = chance.choice(["fire", "water", "it's"]), chance.randrange(20)
        for kind in chance.sample(range(6), 2):
            try:
                if kind == 0:
                    execute("INSERT INTO staff VALUES (?, ?, ?, ?)", ("ab"[no % 2], no, text, chance.choice([True, False, None])))
                elif kind == 1:
                    execute("UPDATE staff SET name = ? WHERE no <= ?", (text, no))
                elif kind == 2:
                    execute("DELETE FROM staff WHERE no >= ?", (no,))
                elif kind == 3:
                    execute("INSERT INTO tariff VALUES (?, ?, ?, ?, ?)", (cover, since, since + 4, turn, text))
                elif kind == 4:
                    execute("UPDATE tariff FOR PORTION OF validity FROM ? TO ? SET cents = ?", (since, since + 3, turn))
                else:
                    execute("DELETE FROM tariff FOR PORTION OF validity FROM ? TO ? WHERE cover = ?", (since, since + 1, cover))
            except tsvd.IntegrityError:
                pass
        self.connection.commit()

    def rows_of(self, script):
        """Returns the versions that a script leaves, by table. That it is replayed says that none of its lines is refused."""
        asked = "".join(f"2: {ALL.format(table)}\n" for table in ("staff", "note", "tariff", "wide"))
        told, err, status = run("--schema", self.schema, "--after", self.file("again.script", script), "--script",
                                self.file("asked.script", asked), program=find_program())
        self.assertEqual((err, status), ("", 0))
        return told

    def test_a_backup_leaves_the_same_history(self):
        chance = random.Random(7)
        for turn in range(150):
            self.change(chance, turn)
        with self.connection:
            self.connection.cursor().executemany("INSERT INTO note VALUES (?, ?)", [(n, "x" * 50) for n in range(1000)])
        with self.connection:
            self.connection.execute("UPDATE note SET body = 'y'")
        wide = ["'" * 1000, "é" * 500] * 7
        with self.connection:
            self.connection.execute("INSERT INTO wide VALUES ('k', " + "NULL, '', " * 7 + "5)")
            for place, text in enumerate(wide):
                self.connection.execute(f"UPDATE wide SET c{place} = ?", (text,))
        with self.connection:
            self.connection.execute("DELETE FROM wide")
        script, err, status = run("backup", str(self.server.port), "--schema", self.schema)
        self.assertEqual((err, status), ("", 0))
        self.assertLessEqual(max(len(line.encode()) for line in script.split("\n")), 8192)
        wanted = "".join("\n".join(self.connection.ask(ALL.format(table))) + "\n" for table in ("staff", "note", "tariff", "wide"))
        self.assertGreater(wanted.count(" from "), 2200)
        self.assertEqual(self.rows_of(script), wanted)
        self.assertIn(f"-- backup at the last commit instant {self.connection.last_commit}: staff (", script)

    def test_a_store_without_commits_is_an_empty_script(self):
        script, err, status = run("backup", str(self.server.port), "--schema", self.schema)
        self.assertEqual(script, "-- backup at the last commit instant 0: staff (0 versions), note (0 versions), "
                                 "tariff (0 versions), wide (0 versions)\n")

    def test_a_schema_that_is_not_the_servers_is_refused(self):
        with self.connection:
            self.connection.execute("INSERT INTO note VALUES (1, 'x')")
        for text, why in [(SCHEMA + ";CREATE TABLE more (a INT PRIMARY KEY)", "E2 no table"),
                          (SCHEMA.replace("body TEXT NOT NULL,", ""), "not a row of note")]:
            out, err, status = run("backup", str(self.server.port), "--schema", self.file("other.schema", text))
            self.assertEqual((out, status), ("", 1))
            self.assertIn(why, err)


# By hand, in the forms of each system; 1 April 2026 in UTC is 1775001600000000, by date -u -d 2026-04-01 +%s%6N.
OURS = """site,no,name,active,recorded,superseded
a,1,Ann,true,5,9
a,1,Bea,,9,forever
a,2,"it's, so",false,5,forever
"""
MARIADB = """no,site,name,active,row_start,row_end
1,a,Ann,1,2026-04-01 00:00:00.000000,2026-04-02 12:30:00.500000
1,a,\\N,0,2026-04-02 12:30:00.500000,2038-01-19 03:14:07.999999
2,a,"\\N",\\N,2026-04-01 00:00:00.000000,2106-02-07 06:28:15.999999
"""
SQL_SERVER = """site,no,name,active,ValidFrom,ValidTo
a,1,Ann,1,2026-04-01 00:00:00.0000000,2026-04-02T12:30:00.5000009
a,1,,0,2026-04-02 12:30:00.5000009,9999-12-31 23:59:59.9999999
a,2,"",,2026-04-01,9999-12-31 23:59:59
"""


@needs_program
class Replays(Files):
    def setUp(self):
        super().setUp()
        self.schema = self.file("tables.schema", SCHEMA + ";" + TARIFFS)
        before = os.environ.get("TZ")
        self.addCleanup(lambda: os.environ.update(TZ=before) if before else os.environ.pop("TZ"))
        os.environ["TZ"] = "UTC"

    def replay(self, text, *words, table="staff"):
        """Runs the command over a file of one table."""
        return run("replay", f"{table}=" + self.file("versions.csv", text), "--schema", self.schema, *words)

    def exported(self, script, table="staff"):
        """Returns the lines of an export behind the header, after a script."""
        told, err, status = run("--schema", self.schema, "--script", self.file("a.script", script), "--export", table,
                                program=find_program())
        self.assertEqual((err, status), ("", 0))
        self.assertNotRegex(told, r"(?m)^E\d")
        return told[told.index("recorded,superseded\n") + 20:] if table == "staff" else told

    def test_an_export_comes_back_byte_for_byte(self):
        script, err, status = self.replay(OURS, "--empty", "text")
        self.assertEqual((err, status), ("", 0))
        self.assertEqual(self.exported(script), OURS.split("\n", 1)[1])

    def test_files_of_other_systems(self):
        last = "1775133000500000"
        for text, words, rows in [
                (MARIADB, ("--null", "\\N"), [f"a,1,Ann,true,1775001600000000,{last}", f"a,1,,false,{last},forever",
                                              "a,2,\\N,,1775001600000000,forever"]),
                (SQL_SERVER, ("--empty", "null"), [f"a,1,Ann,true,1775001600000000,{last}", f"a,1,,false,{last},forever",
                                                   "a,2,,,1775001600000000,forever"])]:
            script, err, status = self.replay(text, *words)
            self.assertEqual((err, status), ("", 0))
            self.assertEqual(self.exported(script), "\n".join(rows) + "\n")
        self.assertEqual(script.count("NULL"), 2)
        os.environ["TZ"] = "EST5"
        out, err, status = self.replay(MARIADB, "--null", "\\N")
        self.assertEqual((out, status), ("", 1))
        self.assertIn("record 3 (line 3): the end '2038-01-19 03:14:07.999999' has not come; set TZ", err)

    def test_columns_are_named_by_words(self):
        text = OURS.replace("recorded,superseded", "von,bis").replace("forever", "")
        out, err, status = self.replay(text, "--empty", "text")
        self.assertEqual((out, status), ("", 1))
        self.assertIn("no period columns (recorded, superseded; row_start, row_end; ValidFrom, ValidTo", err)
        script, err, status = self.replay(text, "--empty", "text", "--start", "VON", "--end", "bis")
        self.assertEqual((err, status), ("", 0))
        self.assertEqual(self.exported(script), OURS.split("\n", 1)[1])

    def test_what_is_no_history_is_refused_by_name(self):
        head = "site,no,recorded,superseded\n"
        for text, why in [
                (head + "a,1,5,9\na,1,8,forever\n", "record 3 (line 3): key ('a', 1): the period from 8 to forever overlaps that of record 2, from 5 to 9"),
                (head + "a,1,5,\na,1,5,9\n", "overlaps"), (head + "a,1,5,forever\na,1,9,forever\n", "overlaps"),
                (head + "a,1,9,forever\na,1,5,8\n", "record 2 (line 2): key ('a', 1): a gap from 8 to 9, behind record 3; --gaps"),
                (head + "a,1,5,5\n", "does not end after its start"), (head + "a,1,6,5\n", "does not end after its start"),
                (head + "a,1,0,5\n", "not an instant from 1"), (head + "a,1,,5\n", "not an instant from 1"),
                (head + "a,1,1000000000000000000,\n", "not an instant from 1"), (head + "a,1,5,1000000000000000000\n", "greatest instant"),
                (head + "a,1,1969-12-31,\n", "before 1970"), (head + "a,1,soon,\n", "neither an instant nor a date"),
                (head + "a,1,2026-02-30,\n", "invalid date"), (head + "a,x,5,\n", "no: 'x' is not a whole number"),
                (head + "a,1,5\n", "3 fields, and the header 4"), (head + "a,,5,\n", "is a key column"),
                ("site,recorded,superseded\na,5,\n", "no: the header leaves it out"), ("site,no,x,recorded,superseded\n", "is not a column"),
                ("site,site,no,recorded,superseded\n", "named twice"), ("site,no\na,1\n", "no period columns"), ("", "no header"),
                ("site,no,name,recorded,superseded\na,1,,5,\n", "--empty null or --empty text"),
                (b"site,no,name,recorded,superseded\na,1,\xff,5,\n", "not UTF-8"),
                (head + "".join(f"a,{n},5,forever\n" for n in range(1001)), "1001 keys changed at 5")]:
            out, err, status = self.replay(text)
            self.assertEqual((out, status), ("", 1), text[:80])
            self.assertIn(why, err)

    def test_a_gap_is_a_deletion_where_that_is_said(self):
        text = "site,no,recorded,superseded\na,1,5,8\na,1,9,forever\n"
        script, err, status = self.replay(text, "--gaps")
        self.assertEqual(self.exported(script), "a,1,,,5,8\na,1,,,9,forever\n")

    def test_application_time_is_checked_while_both_rows_are_on_record(self):
        head = "cover,since,until,cents,sys_start,sys_end\n"
        script, err, status = self.replay(head + "a,10,20,1,5,7\na,15,25,2,7,\na,25,30,3,5,\n", table="tariff")
        self.assertEqual((err, status), ("", 0))
        self.assertIn("\na,15,25,2,,7,forever\na,25,30,3,,5,forever\n", self.exported(script, "tariff"))
        for rows, why in [("a,10,20,1,5,8\na,15,25,2,7,\n", "record 3 (line 3): validity from 15 to 25 overlaps that of record 2"),
                          ("a,10,10,1,5,\n", "validity from 10 to 10 does not end after its start")]:
            out, err, status = self.replay(head + rows, table="tariff")
            self.assertEqual((out, status), ("", 1))
            self.assertIn(why, err)

    def test_several_tables_are_one_script_in_the_order_of_time(self):
        staff = self.file("staff.csv", "site,no,recorded,superseded\na,1,5,9\n")
        note = self.file("note.csv", "no,body,sys_start,sys_end\n1,x,7,\n2,,9,\n")
        script, err, status = run("replay", "staff=" + staff, "NOTE=" + note, "--schema", self.schema)
        self.assertEqual((err, status), ("", 0))
        self.assertEqual([line for line in script.splitlines() if line[:5] == "clock"], ["clock: 5", "clock: 7", "clock: 9"])
        self.assertEqual(script.count("BEGIN"), 3)
        for words, why in [(("staff",), "write TABLE=FILE"), (("staff=" + staff, "Staff=" + staff), "has a file already"),
                           (("x=" + staff,), "E2 no table"), (("staff=" + staff, "--start", "x"), "together"), (("staff=/nowhere",), "nowhere")]:
            out, err, status = run("replay", *words, "--schema", self.schema)
            self.assertEqual((out, status), ("", 1))
            self.assertIn(why, err)
