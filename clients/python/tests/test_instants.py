import datetime
import os
import time
import unittest

from tsvd.errors import DataError
from tsvd.instants import date_text, instant_of, moment_of, read_instant, system_instant
from tsvd.literals import replace_dates


class Instants(unittest.TestCase):
    def setUp(self):
        before = os.environ.get("TZ")
        self.addCleanup(self.set_zone, before)
        self.set_zone("EST5")

    @staticmethod
    def set_zone(zone):
        """Sets the local time zone, or that of the machine."""
        if zone is None:
            os.environ.pop("TZ", None)
        else:
            os.environ["TZ"] = zone
        time.tzset()

    def test_a_day_is_its_first_moment_in_local_time(self):
        self.assertEqual(instant_of(datetime.date(2026, 4, 1)), 1775019600000000)
        self.assertEqual(read_instant("2026-04-01"), 1775019600000000)

    def test_parts_of_a_date_are_read(self):
        for text, instant in [
                ("2026-04-01T00:00Z", 1775001600000000), ("2026-04-01 01:00+01:00", 1775001600000000),
                ("2026-04-01T00:00:01.5Z", 1775001601500000), ("2026-03-31 19:00:00.000001", 1775001600000001),
                ("17", 17)]:
            self.assertEqual(read_instant(text), instant)

    def test_a_date_that_is_shown_is_read_back(self):
        for instant in (1775001600000000, 1795381782854991, 10 ** 14):
            self.assertEqual(read_instant(date_text(instant)), instant)
            self.assertEqual(instant_of(moment_of(instant)), instant)

    def test_numbers_of_the_callers_own_are_no_dates(self):
        self.assertEqual([date_text(1), date_text(20260401), date_text(999999999999999999)], [None] * 3)
        with self.assertRaises(DataError):
            moment_of(999999999999999999)

    def test_what_is_no_date_is_refused(self):
        for text in ("2026-02-30", "1969-12-31T00:00Z", "2026-04-01T25:00", "tomorrow", "-5", "2026-04-01x"):
            with self.assertRaises(DataError):
                read_instant(text)

    def test_dates_in_texts_stay(self):
        self.assertEqual(replace_dates("SELECT * FROM t FOR SYSTEM_TIME AS OF 2026-04-01 WHERE d = '2026-04-01'"),
                         "SELECT * FROM t FOR SYSTEM_TIME AS OF 1775019600000000 WHERE d = '2026-04-01'")
        self.assertEqual(replace_dates("select*from t for system_time BETWEEN 2026-04-01T00:00Z AND 2026-04-01 01:00+01:00;"),
                         "select*from t for system_time BETWEEN 1775001600000000 AND 1775001600000000;")
        self.assertEqual(replace_dates("(a2026-04-01, 12026-04-01)"), "(a2026-04-01, 12026-04-01)")
        self.assertEqual(replace_dates("SPLIT: TIME emp (1) AT 2026-04-01"), "SPLIT: TIME emp (1) AT 1775019600000000")
        self.assertEqual(replace_dates("clock: 2026-04-01"), "clock: 1775019600000000")

    def test_system_time_does_not_begin_before_1970(self):
        for moment in (datetime.date(1969, 12, 31), datetime.datetime(1969, 12, 31, 18, 59, 59, 999999)):
            with self.assertRaisesRegex(DataError, "before 1970"):
                system_instant(moment)
        self.assertEqual(system_instant(datetime.datetime(1969, 12, 31, 19)), 0)
