import unittest

from tsvd.errors import InterfaceError
from tsvd.rows import read_row, read_values


class Rows(unittest.TestCase):
    def test_values_are_typed(self):
        self.assertEqual(read_row("(1, -2, 'O''Hara, (x)', true, false, null, '')"),
                         ((1, -2, "O'Hara, (x)", True, False, None, ""), None))

    def test_periods_follow_rows(self):
        self.assertEqual(read_row("('a from 1 to 2') from 3 to 4"), (("a from 1 to 2",), (3, 4)))
        self.assertEqual(read_row("(1) from 3 to forever"), ((1,), (3, None)))

    def test_no_place_in_a_text_is_taken_for_the_end(self):
        text = "x' from 1 to 2)\u2028\x0b\x85"
        self.assertEqual(read_row("('" + text.replace("'", "''") + "')"), ((text,), None))

    def test_other_lines_are_no_rows(self):
        for line in ("", "()", "(1", "(1,2)", "(1) ", "(1) from 2 to", "('a)", "(x)", "(1)(2)", "rows 1"):
            with self.assertRaises(InterfaceError):
                read_row(line)

    def test_a_key_is_read_within_a_reply(self):
        self.assertEqual(read_values("E7 conflict (1, 'a') at 5", 12), ((1, "a"), 20))
