import unittest

from tsvd.errors import DataError, ProgrammingError
from tsvd.lines import checked, has_reply


class Lines(unittest.TestCase):
    def test_a_line_without_a_reply_is_not_sent(self):
        for line in ("", " ", "\t \t", "\r", " \r", "--", " -- x", "--\r", b""):
            with self.assertRaises(ProgrammingError):
                checked(line)

    def test_a_line_with_two_replies_or_none_is_not_sent(self):
        for line in ("BEGIN\nCOMMIT", "\n", "BEGIN\n", "x" * 8193, "é" * 4097, "\udc80", " " * 8193):
            with self.assertRaises(DataError):
                checked(line)

    def test_other_lines_are_sent_as_they_are(self):
        for line in ("BEGIN", "x" * 8192, "é" * 4096, "- -", "\r\r", "a\u2028b", ";", "BEGIN\r"):
            self.assertEqual(checked(line), line.encode("utf-8"))
        self.assertEqual(checked(b"\xff"), b"\xff")

    def test_a_line_too_long_has_a_reply_also_where_it_is_a_comment(self):
        self.assertFalse(has_reply(b"--" + b"x" * 8190))
        self.assertTrue(has_reply(b"--" + b"x" * 8191))
