import csv
import json
import os

import tsvd
from tests.served import LONGEST, Files, needs_program, run
from tests.test_days import TARIFFS
from tsvd.extract import csv_field
from tsvd.program import Server

TABLES = TARIFFS + """;
CREATE TABLE note (no INT PRIMARY KEY, body TEXT, size INT, done BOOLEAN,
  began TIMESTAMP(6) GENERATED ALWAYS AS ROW START, ended TIMESTAMP(6) GENERATED ALWAYS AS ROW END,
  PERIOD FOR SYSTEM_TIME (began, ended)) WITH SYSTEM VERSIONING"""


@needs_program
class Extracts(Files):
    def setUp(self):
        super().setUp()
        self.schema = self.file("tables.schema", TABLES)
        self.server = Server(["--schema", self.schema], 64)
        self.addCleanup(self.server.__exit__)
        self.connection = tsvd.connect(self.server.port, TABLES, timeout=LONGEST)
        self.addCleanup(self.connection.close)
        before = os.environ.get("TZ")
        self.addCleanup(lambda: os.environ.update(TZ=before) if before else os.environ.pop("TZ"))
        os.environ["TZ"] = "UTC"

    def write(self, *lines):
        """Writes lines in one transaction, and returns its instant."""
        with self.connection:
            for line in lines:
                self.connection.execute(line)
        return self.connection.last_commit

    def extract(self, *words):
        """Runs the command, which succeeds, and returns its lines."""
        out, err, status = run("extract", str(self.server.port), *words, "--schema", self.schema)
        self.assertEqual((err, status), ("", 0))
        return out.split("\n")[:-1]

    def iso(self, instant):
        """Returns an instant in UTC, as the standard library writes it."""
        return tsvd.moment_of(instant).isoformat("T", "microseconds")

    def test_rows_have_dates_and_null_is_not_the_empty_text(self):
        first = self.write("INSERT INTO note VALUES (1, '', NULL, TRUE), (2, NULL, -5, FALSE), (3, 'a, \"b\"', 7, NULL)")
        second = self.write("DELETE FROM note WHERE no = 2", "UPDATE note SET size = 8 WHERE no = 3")
        head, *lines = self.extract("NOTE", "--as-of", str(first))
        self.assertEqual(head, f"# note as of {self.iso(first)} (t = {first}); last commit {self.iso(second)} "
                               f"(S = {second}); final: yes")
        start, end = self.iso(first), self.iso(second)
        self.assertEqual(lines, ["no,body,size,done,began,ended", f'1,"",,true,{start},', f"2,,-5,false,{start},{end}",
                                 f'3,"a, ""b""",7,,{start},{end}'])
        told = json.loads("\n".join(self.extract("note", "--as-of", str(first), "--format", "json")))
        self.assertEqual((told["as_of"], told["last_commit"], told["final"]), (
            {"instant": first, "date": start}, {"instant": second, "date": end}, True))
        self.assertEqual(told["rows"][:2], [
            {"no": 1, "body": "", "size": None, "done": True, "began": start, "ended": None},
            {"no": 2, "body": None, "size": -5, "done": False, "began": start, "ended": end}])

    def test_it_says_whether_it_is_final(self):
        for rows in (0, 1):
            instant = self.write("INSERT INTO note (no) VALUES (1)") if rows else 0
            for t, final in ((instant, True), (instant + 1, False), (999999999999999999, False)):
                head = self.extract("note", "--as-of", str(t))[0]
                self.assertIn(f"(t = {t})", head)
                self.assertIn(f"(S = {instant}); final: {'yes' if final else 'no'}", head)
                lines = self.extract("note", "--as-of", str(t), "--format", "json")
                self.assertEqual(json.loads(lines[0] + "]}")["final"], final)
                self.assertEqual(len(json.loads("".join(lines))["rows"]), rows)

    def test_a_date_in_local_time_is_an_instant(self):
        self.write("INSERT INTO note (no) VALUES (1)")
        self.assertEqual(len(self.extract("note", "--as-of", "2026-04-01")), 2)
        os.environ["TZ"] = "EST5"
        self.assertIn("as of 2026-04-01T00:00:00.000000-05:00 (t = 1775019600000000)", self.extract("note", "--as-of", "2026-04-01")[0])
        self.assertEqual(len(self.extract("note", "--as-of", "2999-01-01T00:00Z")), 3)

    def test_only_rows_about_a_day_come_of_all_entities(self):
        instant = self.write(*(f"INSERT INTO tariff VALUES ('c{n}', {20260101 + day}, {20260101 + day + 1}, {n}, NULL)"
                               for n in range(8) for day in range(20)),
                             "INSERT INTO tariff VALUES ('whole', 20260101, 99991231, 9, '')")
        days = ("--days", "tariff=yyyymmdd")
        lines = self.extract("tariff", "--as-of", str(instant), "--about", "2026-01-15", *days)
        rows = list(csv.DictReader(lines[1:]))
        self.assertEqual([(row["cover"], row["since"], row["until"]) for row in rows],
                         [(f"c{n}", "2026-01-15", "2026-01-16") for n in range(8)] + [("whole", "2026-01-01", "9999-12-31")])
        self.assertEqual(self.extract("tariff", "--as-of", str(instant), "--about", "20260115")[2].split(",")[:3],
                         ["c0", "20260115", "20260116"])
        for about, count in (("20260101", 9), ("20260120", 9), ("20260121", 1), ("20251231", 0), ("-1", 0), ("99991231", 0)):
            self.assertEqual(len(self.extract("tariff", "--as-of", str(instant), f"--about={about}")) - 2, count, about)
        lines = self.extract("tariff", "--as-of", str(instant), "--about", "2026-01-15", "--where", "cover >= 'c7' AND since > 2026-01-01",
                             *days)
        self.assertEqual([line.split(",")[0] for line in lines[2:]], ["c7"])

    def test_what_cannot_be_answered_is_refused_by_name(self):
        self.write("INSERT INTO note (no) VALUES (1)")
        for words, why in [
                (("note", "--as-of", "2026-02-30"), "invalid date"), (("note", "--as-of", "soon"), "neither an instant nor a date"),
                (("note", "--as-of", "1000000000000000000"), "greatest instant"), (("x", "--as-of", "1"), "E2 no table: x"),
                (("note", "--as-of", "1", "--about", "5"), "no period of application time"),
                (("tariff", "--as-of", "1", "--about", "2026-01-15"), "--days tariff.since=yyyymmdd"),
                (("note", "--as-of", "1", "--where", "body = 'x'"), "E3 bad row at column 2"),
                (("note", "--as-of", "1", "--where", "no = 1 OR no = 2"), "E1 syntax"),
                (("note", "--as-of", "1", "--where", "no = 1\nCOMMIT"), "line feed"),
                (("note", "--as-of", "1", "--days", "note=yyyymmdd"), "no period of application time")]:
            out, err, status = run("extract", str(self.server.port), *words, "--schema", self.schema)
            self.assertEqual((out, status), ("", 1), words)
            self.assertIn(why, err)

    def test_fields(self):
        for value, field in [(None, ""), ("", '""'), ("a", "a"), ("a\"b", '"a""b"'), ("a,b", '"a,b"'), (True, "true"), (0, "0"),
                             ("a b", "a b"), ("NULL", "NULL")]:
            self.assertEqual(csv_field(value), field)
