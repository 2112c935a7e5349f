import unittest

from tests.served import SCHEMA
from tsvd.errors import ProgrammingError
from tsvd.schema import Column, Period, read_schema, schema_of


class Schemas(unittest.TestCase):
    def test_columns_keys_and_periods_are_read(self):
        schema = read_schema(SCHEMA)
        self.assertEqual(list(schema.tables), ["staff", "note"])
        staff, note = schema.tables.values()
        self.assertEqual(staff.columns, (
            Column("site", "TEXT", 20, False), Column("no", "INT", None, True), Column("name", "TEXT", None, False),
            Column("active", "BOOLEAN", None, False)))
        self.assertEqual((staff.key, staff.row_start, staff.row_end), (("site", "no"), "recorded", "superseded"))
        self.assertEqual((note.key, note.row_start), (("no",), "sys_start"))

    def test_names_are_found_in_any_case(self):
        staff = read_schema(SCHEMA).table("STAFF")
        self.assertEqual((staff.place("NO"), staff.place("recorded")), (1, None))

    def test_words_touch_signs_and_come_in_any_case(self):
        schema = read_schema("create table t(a int,b varchar(3)not null,primary key(a,b)) with system versioning;;")
        self.assertEqual(schema.table("T").key, ("a", "b"))
        self.assertEqual(schema.table("t").columns[1], Column("b", "TEXT", 3, True))

    def test_a_period_ends_the_key_with_its_start(self):
        schema = read_schema("CREATE TABLE t (a INT, f INT, u INT, PERIOD FOR valid (f, u), "
                             "PRIMARY KEY (a, valid WITHOUT OVERLAPS)) WITH SYSTEM VERSIONING")
        self.assertEqual([column.name for column in schema.table("t").columns], ["a", "f", "u"])
        self.assertEqual(schema.table("t").key, ("a", "f"))
        self.assertEqual(schema.table("t").period, Period("valid", "f", "u"))
        self.assertEqual([column.not_null for column in schema.table("t").columns], [False, True, True])

    def test_entries_of_later_grammars_are_passed_over(self):
        schema = read_schema("CREATE TABLE t (a INT, CHECK (a), PRIMARY KEY (a)) WITH SYSTEM VERSIONING")
        self.assertEqual([column.name for column in schema.table("t").columns], ["a"])

    def test_without_a_text_there_is_the_sample(self):
        self.assertEqual(schema_of(None).table("emp").key, ("no",))

    def test_what_is_no_schema_is_refused(self):
        for text in ("", "-- nothing", "SELECT 1", "CREATE TABLE t", "CREATE TABLE t ()"):
            with self.assertRaises(ProgrammingError):
                read_schema(text)
