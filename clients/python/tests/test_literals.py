import datetime
import decimal
import enum
import fractions
import unittest
import uuid

from tsvd.errors import DataError, ProgrammingError
from tsvd.literals import bind, literal


class Number(enum.IntEnum):
    SEVEN = 7


class Index:
    """A whole number of a kind of its own."""

    def __index__(self):
        return 41


class Literals(unittest.TestCase):
    def test_values_are_literals_of_the_grammar(self):
        for value, written in [
                (None, "NULL"), (True, "TRUE"), (False, "FALSE"), (0, "0"), (-5, "-5"), (Number.SEVEN, "7"),
                (2 ** 63 - 1, "9223372036854775807"), (-2 ** 63, "-9223372036854775808"), ("", "''"),
                ("O'Hara", "'O''Hara'"), ("'", "''''"), ("a\u2028b\x85", "'a\u2028b\x85'"),
                (Index(), "41")]:
            self.assertEqual(literal(value), written)

    def test_what_has_no_literal_is_refused(self):
        for value in (2 ** 63, -2 ** 63 - 1, "a\nb", "a\rb", [1], object()):
            with self.assertRaises(DataError):
                literal(value)

    def test_a_refusal_says_what_to_give_instead(self):
        for value, cure in [
                (decimal.Decimal("1.50"), "smallest unit"), (1.5, "whole numbers"), (2.0, "int.value"),
                (fractions.Fraction(1, 2), "whole numbers"), (1j, "whole numbers"), (float("nan"), "give None"),
                (uuid.UUID(int=1), "str.value"), (b"a", "value.decode"), (datetime.time(1), "isoformat"),
                (datetime.timedelta(1), "value.days"), (datetime.date(2026, 4, 1), "question mark")]:
            with self.assertRaisesRegex(DataError, cure):
                literal(value)

    def test_values_of_numpy_and_pandas(self):
        try:
            import numpy
            import pandas
        except ImportError:
            self.skipTest("numpy and pandas are not installed")
        for value, written in [(numpy.int64(-5), "-5"), (numpy.uint8(255), "255"), (numpy.bool_(True), "TRUE"),
                               (numpy.bool_(False), "FALSE"), (numpy.str_("a'b"), "'a''b'")]:
            self.assertEqual(literal(value), written)
        for value, cure in [(numpy.float64(1.5), "whole numbers"), (numpy.float32(2), "whole numbers"), (numpy.nan, "give None"),
                            (pandas.NA, "give None"), (pandas.NaT, "give None"), (numpy.uint64(2 ** 63), "64 bits"),
                            (numpy.datetime64("2026-04-01"), "no literal")]:
            with self.assertRaisesRegex(DataError, cure):
                literal(value)
        day = pandas.Timestamp("2026-04-01", tz="UTC")
        self.assertEqual(bind("SELECT * FROM emp FOR SYSTEM_TIME AS OF ?", [day]),
                         "SELECT * FROM emp FOR SYSTEM_TIME AS OF 1775001600000000")
        with self.assertRaisesRegex(DataError, "nanoseconds"):
            bind("SELECT * FROM emp FOR SYSTEM_TIME AS OF ?", [day + pandas.Timedelta(1, "ns")])


class Binding(unittest.TestCase):
    def test_question_marks_in_texts_stay(self):
        self.assertEqual(bind("INSERT INTO emp VALUES (?, 'a?''?')", (1,)), "INSERT INTO emp VALUES (1, 'a?''?')")

    def test_a_literal_stays_apart_from_what_it_touches(self):
        for statement, values, line in [
                ("no=?AND no<?", (1, 2), "no=1 AND no<2"), ("emp?", (1,), "emp 1"), ("'a'?", ("b",), "'a' 'b'"),
                ("??", ("a", "b"), "'a' 'b'"), ("-?", (5,), "- 5"), ("?'a'", ("b",), "'b' 'a'"), ("?", (1,), "1")]:
            self.assertEqual(bind(statement, values), line)

    def test_a_text_that_is_not_closed_keeps_its_question_marks(self):
        self.assertEqual(bind("SELECT 'a''?"), "SELECT 'a''?")

    def test_values_are_no_statement(self):
        evil = "x'; DELETE FROM emp; --\u2028"
        self.assertEqual(bind("SET name = ?", (evil,)), "SET name = 'x''; DELETE FROM emp; --\u2028'")

    def test_line_ends_outside_of_texts_are_blanks(self):
        self.assertEqual(bind("\n SELECT *\r\n  FROM emp\n"), "SELECT *    FROM emp")
        with self.assertRaises(DataError):
            bind("INSERT INTO emp VALUES (1, 'a\nb')")

    def test_each_question_mark_has_a_value(self):
        for statement, values in [("?", ()), ("", (1,)), ("? ?", (1,)), ("?", "a"), ("?", {"a": 1}), ("?", 1)]:
            with self.assertRaises(ProgrammingError):
                bind(statement, values)
