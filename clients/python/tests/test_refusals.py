import unittest

import tsvd
from tsvd.errors import InterfaceError
from tsvd.explain import caret_lines, fault_lines
from tsvd.refusals import REFUSALS, number_of, refusal_error
from tsvd.schema import schema_of


class Refusals(unittest.TestCase):
    def test_each_number_has_an_exception_a_cause_and_a_cure(self):
        self.assertEqual(sorted(REFUSALS), list(range(1, 17)))
        for refusal in REFUSALS.values():
            self.assertTrue(issubclass(refusal.kind, tsvd.Error) and refusal.cause and refusal.cure)

    def test_what_a_refusal_names_is_read(self):
        for head, kind, name, value in [
                ("E1 syntax at 18", tsvd.ProgrammingError, "byte", 18),
                ("E3 bad row at column 2", tsvd.DataError, "column", 2),
                ("E6 duplicate key (1, 'a')", tsvd.IntegrityError, "key", (1, "a")),
                ("E7 conflict (1001, 'fire') at 5", tsvd.ConflictError, "key", (1001, "fire")),
                ("E7 conflict ('x at 7') at 5", tsvd.ConflictError, "instant", 5),
                ("E14 overlap (1)", tsvd.IntegrityError, "key", (1,)),
                ("E10 memory", tsvd.OperationalError, "number", 10), ("E17 anything", tsvd.DatabaseError, "number", 17)]:
            fault = refusal_error(head, "a line")
            self.assertIs(type(fault), kind)
            self.assertEqual((getattr(fault, name), fault.reply, fault.line), (value, head, "a line"))
            self.assertIn(head, str(fault))

    def test_other_replies_are_no_refusals(self):
        self.assertEqual([number_of(head) for head in ("ok", "E", "Ex", "e1 x", "rows 1", "E1x")], [None] * 6)
        for head in ("ok", "E7 conflict", "E1 syntax at x", "E1", "E6 duplicate key"):
            with self.assertRaises(InterfaceError):
                refusal_error(head, "")

    def test_the_caret_is_under_the_byte(self):
        self.assertEqual(caret_lines("a é x", 5), ["  a é x", "      ^"])
        self.assertEqual(caret_lines("a 漢 x", 6), ["  a 漢 x", "       ^"])
        self.assertEqual(caret_lines("a", 1), ["  a", "   ^"])

    def test_a_column_is_named(self):
        fault = refusal_error("E3 bad row at column 2", "UPDATE emp SET name = 5")
        self.assertIn("  column 2 of emp is name", fault_lines(fault, schema_of(None)))
