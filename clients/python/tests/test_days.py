import contextlib
import datetime
import io
import unittest

import tsvd
from tests.served import LONGEST, Files, needs_program, run
from tsvd.days import Days, read_days
from tsvd.errors import DataError, ProgrammingError
from tsvd.literals import bind, replace_dates
from tsvd.meanings import mark_meanings
from tsvd.program import Server
from tsvd.schema import read_schema
from tsvd.shell import Shell

TARIFFS = """CREATE TABLE tariff (
  cover VARCHAR(20), since INT, until INT, cents INT NOT NULL, signed TEXT,
  sys_start TIMESTAMP(6) GENERATED ALWAYS AS ROW START, sys_end TIMESTAMP(6) GENERATED ALWAYS AS ROW END,
  PERIOD FOR SYSTEM_TIME (sys_start, sys_end), PERIOD FOR validity (since, until),
  PRIMARY KEY (cover, validity WITHOUT OVERLAPS)
) WITH SYSTEM VERSIONING"""
SCHEMA = read_schema(TARIFFS)
DAYS = {"tariff": "yyyymmdd", "Tariff.SIGNED": "yyyy-mm-dd"}
DAY = datetime.date(2026, 4, 1)
# 1 April 2026 in UTC, by date -u -d 2026-04-01 +%s%6N
INSTANT = 1775001600000000
MOMENT = datetime.datetime(2026, 4, 1, tzinfo=datetime.timezone.utc)


class Meanings(unittest.TestCase):
    def test_each_question_mark_stands_for_its_column_or_for_system_time(self):
        for statement, wanted in [
                ("INSERT INTO tariff VALUES (?, ?, ?, ?, ?)", ["cover", "since", "until", "cents", "signed"]),
                ("insert into TARIFF values('a',?,2,?,'?'),(?,1,?,?,NULL)", ["since", "cents", "cover", "until", "cents"]),
                ("INSERT INTO tariff (until, cover, since) VALUES (?, ?, ?)", ["until", "cover", "since"]),
                ("INSERT INTO tariff VALUES (1, 2, 3, 4, 5, ?)", [None]),
                ("UPDATE tariff SET cents = ?, signed=? WHERE cover = ? AND since <= ?", ["cents", "signed", "cover", "since"]),
                ("UPDATE tariff FOR PORTION OF validity FROM ? TO ? SET cents = 5 WHERE since>?", ["since", "until", "since"]),
                ("DELETE FROM tariff FOR PORTION OF validity FROM ? TO ?", ["since", "until"]),
                ("DELETE FROM tariff WHERE ? = since", [None]),
                ("SELECT * FROM tariff FOR SYSTEM_TIME AS OF ? WHERE since = ?", ["*", "since"]),
                ("SELECT * FROM tariff FOR SYSTEM_TIME FROM ? TO ?", ["*", "*"]),
                ("3 : SELECT*FROM tariff FOR SYSTEM_TIME BETWEEN ? AND ? WHERE cover='?' AND since < ?;", ["*", "*", "since"]),
                ("SPLIT: KEY tariff (?, ?)", ["cover", "since"]), ("SPLIT: TIME tariff ('a', ?) AT ?", ["since", "*"]),
                ("clock: ?", ["*"]), ("?", [None]), ("x ? y", [None]), ("INSERT INTO none VALUES (?)", [None])]:
            found = ["*" if meaning.is_system_time else meaning.column for meaning in mark_meanings(statement, SCHEMA)]
            self.assertEqual(found, wanted, statement)


class Words(unittest.TestCase):
    def test_a_date_is_written_as_its_column_holds_it(self):
        days = Days(DAYS, SCHEMA)
        self.assertEqual(bind("INSERT INTO tariff VALUES ('fire', ?, ?, 5, ?)", [DAY, datetime.datetime(2027, 1, 1), DAY], days),
                         "INSERT INTO tariff VALUES ('fire', 20260401, 20270101, 5, '2026-04-01')")
        moments = Days({"tariff.cents": "microseconds"}, SCHEMA)
        self.assertEqual(bind("UPDATE tariff SET cents = ?", [MOMENT], moments), f"UPDATE tariff SET cents = {INSTANT}")
        self.assertEqual(bind("SELECT * FROM tariff FOR SYSTEM_TIME AS OF ? WHERE since = ?", [MOMENT, DAY], days),
                         f"SELECT * FROM tariff FOR SYSTEM_TIME AS OF {INSTANT} WHERE since = 20260401")

    def test_a_date_without_a_meaning_is_refused_with_what_to_write(self):
        for statement, schema, words in [
                ("INSERT INTO tariff VALUES ('a', ?, 2, 3, NULL)", SCHEMA, "days={'tariff.since': 'yyyymmdd'}.*such as 20260401"),
                ("UPDATE tariff SET signed = ?", SCHEMA, "'yyyy-mm-dd'.*such as '2026-04-01'"),
                ("INSERT INTO tariff VALUES ('a', ?)", read_schema(TARIFFS.replace("tariff", "x")), "the server's schema"),
                ("WHERE ? = 1", SCHEMA, "not known what the date")]:
            with self.assertRaisesRegex(DataError, words):
                bind(statement, [DAY], Days(None, schema))

    def test_a_day_has_no_time_and_no_zone(self):
        for moment in (datetime.datetime(2026, 4, 1, 0, 0, 1), MOMENT):
            with self.assertRaisesRegex(DataError, "date()"):
                bind("SELECT * FROM tariff WHERE since = ?", [moment], Days(DAYS, SCHEMA))

    def test_words_that_fit_no_column_are_refused(self):
        for words, why in [({"x": "yyyymmdd"}, "no table x"), ({"tariff.x": "yyyymmdd"}, "no column x"),
                           ({"tariff": "ddmmyyyy"}, "none of yyyymmdd"), ({"tariff.signed": "yyyymmdd"}, "type INT"),
                           ({"tariff": "yyyy-mm-dd"}, "type TEXT")]:
            with self.assertRaisesRegex(ProgrammingError, why):
                Days(words, SCHEMA)
        with self.assertRaisesRegex(ProgrammingError, "no period of application time"):
            Days({"emp": "yyyymmdd"}, tsvd.read_schema("CREATE TABLE emp (no INT PRIMARY KEY)"))
        with self.assertRaisesRegex(ProgrammingError, "TABLE=FORM"):
            read_days(["tariff"])
        self.assertEqual(read_days(["tariff=yyyymmdd", "emp.a=yyyy-mm-dd"]), {"tariff": "yyyymmdd", "emp.a": "yyyy-mm-dd"})

    def test_typed_dates_are_replaced_by_what_they_mean(self):
        line = "UPDATE tariff FOR PORTION OF validity FROM 2026-04-01 TO 2027-01-01 SET signed = 2026-03-31 WHERE cover = '2026-01-01'"
        self.assertEqual(replace_dates(line, Days(DAYS, SCHEMA)), line.replace("2026-04-01", "20260401")
                         .replace("TO 2027-01-01", "TO 20270101").replace("2026-03-31", "'2026-03-31'"))
        with self.assertRaisesRegex(DataError, "--days tariff.since=yyyymmdd"):
            replace_dates(line, Days(None, SCHEMA))


@needs_program
class Tables(Files):
    def setUp(self):
        super().setUp()
        self.schema = self.file("tariffs.schema", TARIFFS)
        self.server = Server(["--schema", self.schema], 2)
        self.addCleanup(self.server.__exit__)

    def connect(self, **words):
        connection = tsvd.connect(self.server.port, TARIFFS, timeout=LONGEST, **words)
        self.addCleanup(connection.close)
        return connection

    def test_dates_come_back_and_do_not_overlap_their_numbers(self):
        connection, plain = self.connect(days=DAYS), self.connect()
        until = datetime.date(2027, 1, 1)
        with connection:
            connection.execute("INSERT INTO tariff VALUES ('fire', ?, ?, 12000, ?)", (DAY, until, DAY))
        cursor = connection.execute("SELECT * FROM tariff WHERE since >= ?", (DAY,))
        self.assertEqual(cursor.fetchall(), [("fire", DAY, until, 12000, DAY)])
        self.assertEqual([column[1] == tsvd.DATETIME for column in cursor.description], [False, True, True, False, True])
        self.assertEqual(plain.execute("SELECT * FROM tariff").fetchall(), [("fire", 20260401, 20270101, 12000, "2026-04-01")])
        with self.assertRaises(tsvd.IntegrityError):
            plain.execute("INSERT INTO tariff VALUES ('fire', 20260501, 20270501, 1, NULL)")
        with self.assertRaisesRegex(DataError, "days="):
            plain.execute("INSERT INTO tariff VALUES ('fire', ?, ?, 1, NULL)", (DAY, until))
        plain.rollback()

    def test_a_number_that_is_no_day_is_not_made_one(self):
        connection, plain = self.connect(days=DAYS), self.connect()
        with plain:
            plain.execute("INSERT INTO tariff VALUES ('fire', 20260101, 99999999, 1, NULL)")
        with self.assertRaisesRegex(DataError, "tariff.until holds 99999999"):
            connection.execute("SELECT * FROM tariff")
        connection.rollback()
        with plain:
            plain.execute("DELETE FROM tariff")
        self.assertEqual(connection.execute("SELECT * FROM tariff").fetchall(), [])

    def test_periods_are_datetimes_where_they_are_asked_for(self):
        connection = self.connect(datetimes=True)
        with connection:
            connection.execute("INSERT INTO tariff VALUES ('fire', 1, 2, 3, NULL)")
        first = connection.last_commit
        with connection:
            connection.execute("UPDATE tariff SET cents = 4")
        cursor = connection.execute("SELECT * FROM tariff FOR SYSTEM_TIME FROM ? TO ?", (0, 10 ** 18 - 1))
        self.assertEqual([row[5:] for row in cursor.fetchall()],
                         [(tsvd.moment_of(first), tsvd.moment_of(connection.last_commit)),
                          (tsvd.moment_of(connection.last_commit), None)])
        self.assertEqual(cursor.description[5][1], tsvd.DATETIME)
        as_of = connection.execute("SELECT * FROM tariff FOR SYSTEM_TIME AS OF ?", (tsvd.moment_of(first),))
        self.assertEqual(as_of.fetchall(), [("fire", 1, 2, 3, None)])

    def test_the_shell_takes_and_shows_days(self):
        told = io.StringIO()
        with contextlib.redirect_stdout(told):
            Shell(self.connect(days=DAYS)).run(iter([
                "BEGIN", "INSERT INTO tariff VALUES ('fire', 2026-04-01, 2027-01-01, 5, NULL)", "SELECT * FROM tariff",
                "COMMIT", "\\history tariff fire 2026-04-01"]))
            Shell(self.connect()).run(iter(["SELECT * FROM tariff", "INSERT INTO tariff VALUES ('a', 2026-04-01, 2, 3, NULL)"]))
        self.assertEqual(told.getvalue().count(" fire  | 2026-04-01 | 2027-01-01 |     5 | NULL"), 2)
        self.assertIn(" fire  | 20260401 | 20270101 |     5 | NULL", told.getvalue())
        self.assertIn("--days tariff.since=yyyymmdd", told.getvalue().splitlines()[-1])

    def test_the_words_of_the_shell(self):
        line = b"INSERT INTO tariff VALUES ('fire', 2026-04-01, 2027-01-01, 5, NULL)\n"
        out, err, status = run("shell", "--days", "tariff=yyyymmdd", "--", "--schema", self.schema, text=b"BEGIN\n" + line)
        self.assertEqual((out.splitlines()[1], err, status), ("inserted 1", "", 0))
        for words in ("emp=yyyymmdd", "tariff"):
            out, err, status = run("shell", "--days", words, "--", "--schema", self.schema, text=line)
            self.assertEqual((out, status), ("", 1))
            self.assertIn("days", err)
