import unittest

from tests.served import SCHEMA, Files, needs_program, run
from tsvd.csv_check import check_csv
from tsvd.csv_records import read_records
from tsvd.errors import ProgrammingError
from tsvd.program import find_program
from tsvd.schema import read_schema

STAFF = read_schema(SCHEMA).table("staff")

# A file of the table staff, and the refusal with which a load answers it; None where it is loaded.
FILES = [
    (b"", "E3 bad row at column 0"),
    (b"\n\r\n", "E3 bad row at column 0"),
    (b"site,no", None),
    (b"SITE,No\na,1\n", None),
    (b"\xef\xbb\xbfno,site\r\n1,a\r\n\r\n2,a\r\n", None),
    (b"site,no,site\na,1,b\n", "E3 bad row at column 0"),
    (b"site,no,recorded\na,1,2\n", "E3 bad row at column 0"),
    (b"site;no\na;1\n", "E3 bad row at column 0"),
    (b"site, no\na,1\n", "E3 bad row at column 0"),
    (b"site,no\na\n", "E3 bad row at column 0"),
    (b"site,no\na,1,\n", "E3 bad row at column 0"),
    (b"no\n1\n", "E3 bad row at column 1"),
    (b"no,site\n,a\n", "E3 bad row at column 2"),
    (b"site,no\na, 1\n", "E3 bad row at column 2"),
    (b"site,no\na,+1\n", "E3 bad row at column 2"),
    (b"site,no\na,1.0\n", "E3 bad row at column 2"),
    (b"site,no\na,-0009223372036854775808\n", None),
    (b"site,no\na,9223372036854775808\n", "E3 bad row at column 2"),
    (b"site,no\na," + b"9" * 40 + b"\n", "E3 bad row at column 2"),
    (b"site,no,active\na,1,TRUE\na,2,fAlse\na,3,\n", None),
    (b"site,no,active\na,1,yes\n", "E3 bad row at column 4"),
    (b"site,no,active\na,x,yes\n", "E3 bad row at column 2"),
    (b"site,no\n,1\n", None),
    (b"site,no\n" + "é".encode() * 20 + b",1\n", None),
    (b"site,no\n" + b"a" * 21 + b",1\n", "E3 bad row at column 1"),
    (b"site,no,name\na,1," + b"x" * 1000 + b"\n", None),
    (b"site,no,name\na,1," + b"x" * 1001 + b"\n", "E3 bad row at column 3"),
    (b"site,no,name\na,1,\xff\n", "E3 bad row at column 3"),
    (b'site,no,name\na,1,"x\ny"\n', "E3 bad row at column 3"),
    (b'site,no,name\na,1,"x ""y"", z"\n', None),
    (b'site,no,name\na,1,x"y"\n', None),
    (b'site,no,name\na,1,"x"y\n', None),
    (b'site,no,name\na,1,"x', None),
    (b"site,no\na,1\nb,1\na,1\n", "E6 duplicate key ('a', 1)"),
    (b"site,no\na,1\na,1\na,x\n", "E3 bad row at column 2"),
    (b"site,no\n" + b"".join(b"a,%d\n" % n for n in range(1000)), None),
    (b"site,no\n" + b"".join(b"a,%d\n" % n for n in range(1001)), "E9 too many writes"),
    (b"site,no\n" + b"".join(b"a,%d\n" % (n % 1000) for n in range(1001)), "E6 duplicate key ('a', 0)"),
]


TARIFFS = """CREATE TABLE tariff (cover TEXT, since INT, until INT, cents INT,
  s TIMESTAMP(12) GENERATED ALWAYS AS ROW START, e TIMESTAMP(12) GENERATED ALWAYS AS ROW END,
  PERIOD FOR SYSTEM_TIME (s, e), PERIOD FOR validity (since, until), PRIMARY KEY (cover, validity WITHOUT OVERLAPS)
) WITH SYSTEM VERSIONING"""
TARIFF = read_schema(TARIFFS).table("tariff")

# The same for a table with a period of application time.
PERIODS = [
    (b"cover,since,until\na,1,5\na,5,9\nb,2,7\n", None),
    (b"cover,since,until\na,5,9\na,1,5\n", None),
    (b"cover,since\na,1\n", "E3 bad row at column 3"),
    (b"cover,since,until\na,5,9\na,1,6\n", "E14 overlap ('a', 1)"),
    (b"cover,since,until\na,5,9\na,6,7\n", "E14 overlap ('a', 6)"),
    (b"cover,since,until\na,5,6\na,8,9\na,1,20\n", "E14 overlap ('a', 1)"),
    (b"cover,since,until\na,5,9\na,6,7\nb,1,2\nb,1,9\n", "E6 duplicate key ('b', 1)"),
    (b"cover,since,until\na,5,9\na,5,7\nb,2,2\n", "E15 bad period"),
    (b"cover,since,until\nb,3,2\nc,x,9\n", "E3 bad row at column 2"),
    (b"cover,since,until\n" + b"".join(b"a,%d,%d\n" % (n, n + 1) for n in range(1000)), None),
    (b"cover,since,until\n" + b"".join(b"a,%d,%d\n" % (n, n + 1) for n in range(1001)), "E9 too many writes"),
    (b"cover,since,until\n" + b"".join(b"a,%d,%d\n" % (n, n + 1 + n // 1000) for n in range(1002)), "E14 overlap ('a', 1001)"),
]


def refusal_of(data, table=STAFF):
    """Returns the refusal of a file, as the check has it."""
    faults = check_csv(table, data).faults
    return faults[0].reply if faults else None


class Checks(Files):
    def test_files_have_the_refusal_of_the_rules(self):
        for data, reply in FILES:
            self.assertEqual(refusal_of(data), reply, data[:60])
        for data, reply in PERIODS:
            self.assertEqual(refusal_of(data, TARIFF), reply, data[:60])

    def test_each_fault_has_its_record_line_and_field(self):
        data = b'name,no,site\n"a\nb",1,s\n\nx,y,s\nx,2\nx,3,s\nz,3,s\n'
        self.assertEqual([fault.text() for fault in check_csv(STAFF, data).faults], [
            "record 2 (line 2), field 1: name: a text has one line: no line feed and no carriage return",
            "record 3 (line 5), field 2: no: 'y' is not a whole number such as -12",
            "record 4 (line 6): the record has 2 fields, and the header 3",
            "record 6 (line 8): the key ('s', 3) is also the key of record 5"])

    def test_the_command_says_what_a_load_will_say(self):
        schema = self.file("tables.schema", SCHEMA)
        good, bad = self.file("good.csv", "site,no\na,1\n"), self.file("bad.csv", "site;no\na;1\n")
        options = ("--schema", schema, "--table", "Staff")
        self.assertEqual(run("check-csv", good, *options), (f"{good}: 1 row, ready to load\n", "", 0))
        out, err, status = run("check-csv", bad, *options)
        self.assertIn("fields are separated by commas", out)
        last = out.split("\n")[-2]
        self.assertEqual((last, err, status), ("a load fails with: load: E3 bad row at column 0", "", 1))
        for words in (("--schema", schema), (*options[:3], "dept")):
            out, err, status = run("check-csv", good, *words)
            self.assertEqual((out, status), ("", 1))
            self.assertIn("note, staff", err)


@needs_program
class Loads(Files):
    def test_the_program_refuses_the_same_files(self):
        staff, tariff = self.file("tables.schema", SCHEMA), self.file("tariffs.schema", TARIFFS)
        files = [(staff, "staff=", *one) for one in FILES] + [(tariff, "tariff=", *one) for one in PERIODS]
        for schema, table, data, reply in files:
            words = ("--schema", schema, "--load", table + self.file("rows.csv", data))
            out, err, status = run(*words, program=find_program())
            if reply is None:
                self.assertEqual((out.split()[0], err, status), ("loaded", "", 0), data[:60])
            else:
                self.assertEqual((out, err, status), ("", f"load: {reply}\n", 1), data[:60])


class Records(unittest.TestCase):
    def test_a_record_has_its_first_line(self):
        self.assertEqual([(r.number, r.line, r.fields) for r in read_records(b'\na,"b\n"\r\n\r\nc\rd')],
                         [(1, 2, (b"a", b"b\n")), (2, 5, (b"c",)), (3, 5, (b"d",))])

    def test_tables_are_named_where_there_are_several(self):
        from tsvd.csv_check import chosen_table
        with self.assertRaises(ProgrammingError):
            chosen_table(read_schema(SCHEMA), None)
