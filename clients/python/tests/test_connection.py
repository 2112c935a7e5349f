import datetime
import unittest

import tsvd
from tests.served import Served

HISTORY = "SELECT * FROM staff FOR SYSTEM_TIME BETWEEN ? AND ?"


class Connections(Served):
    def test_values_come_back(self):
        rows = [("Köln", -2, "a\u2028b\x0b\x85c", None), ("Köln", 1, "O'Hara, (x) ' from 1 to 2", True),
                ("Wien", -2 ** 63, "", None), ("Wien", 2 ** 63 - 1, None, False)]
        with self.first:
            inserted = self.first.cursor().executemany("INSERT INTO staff VALUES (?, ?, ?, ?)", rows)
        self.assertEqual(inserted.rowcount, 4)
        cursor = self.second.execute("SELECT * FROM staff")
        self.assertEqual(cursor.rowcount, 4)
        self.assertEqual(next(cursor), rows[0])
        self.assertEqual(cursor.fetchmany(2), rows[1:3])
        self.assertEqual(list(cursor), rows[3:])
        self.assertIsNone(cursor.fetchone())

    def test_the_description_is_the_schemas(self):
        cursor = self.first.execute("select*from Staff for system_time from 1 to 2")
        self.assertEqual([(column[0], column[1], column[6]) for column in cursor.description], [
            ("site", "TEXT", False), ("no", "INT", False), ("name", "TEXT", True), ("active", "BOOLEAN", True),
            ("recorded", "INT", False), ("superseded", "INT", True)])
        self.assertEqual(cursor.description[0][1], tsvd.STRING)
        self.assertEqual(cursor.fetchall(), [])
        self.assertEqual(len(self.first.execute("SELECT * FROM note WHERE no = 1").description), 2)

    def test_periods_are_two_values_more(self):
        self.first.execute("INSERT INTO staff VALUES ('a', 1, 'Ann', TRUE)")
        first = self.first.commit()
        self.first.execute("""UPDATE staff
                              SET name = ? WHERE no = ?""", ("Bea", 1))
        second = self.first.commit()
        self.assertEqual(self.second.execute(HISTORY, (first, second)).fetchall(),
                         [("a", 1, "Ann", True, first, second), ("a", 1, "Bea", True, second, None)])
        as_of = "SELECT * FROM staff FOR SYSTEM_TIME AS OF ?"
        self.assertEqual(self.second.execute(as_of, (tsvd.moment_of(first),)).fetchone()[2], "Ann")
        self.assertEqual(self.second.execute(as_of, (datetime.date(2020, 1, 1),)).fetchall(), [])

    def test_commit_returns_the_instant(self):
        self.assertIsNone(self.first.commit())
        snapshot = self.first.begin()
        self.assertEqual((snapshot, self.first.snapshot, self.first.in_transaction), (0, 0, True))
        self.assertIsNone(self.first.commit())
        self.first.execute("INSERT INTO note VALUES (1, 'x')")
        instant = self.first.commit()
        self.assertEqual(self.first.last_commit, instant)
        self.assertEqual(self.second.begin(), instant)

    def test_with_commits_or_rolls_back(self):
        with self.first:
            self.first.execute("INSERT INTO note VALUES (1, 'x')")
        with self.assertRaises(KeyError), self.first:
            self.first.execute("INSERT INTO note VALUES (2, 'y')")
            raise KeyError
        self.assertFalse(self.first.in_transaction)
        self.assertEqual(self.second.execute("SELECT * FROM note").fetchall(), [(1, "x")])

    def test_a_conflict_names_key_and_instant(self):
        self.first.execute("INSERT INTO staff VALUES ('a', 1, 'Ann', TRUE)")
        self.first.commit()
        self.first.execute("UPDATE staff SET name = 'x'")
        self.second.execute("UPDATE staff SET name = 'y'")
        won = self.first.commit()
        with self.assertRaises(tsvd.ConflictError) as caught:
            self.second.commit()
        self.assertEqual((caught.exception.key, caught.exception.instant), (("a", 1), won))
        self.assertFalse(self.second.in_transaction)

    def test_transact_begins_again_after_a_conflict(self):
        self.first.execute("INSERT INTO note VALUES (1, '')")
        self.first.commit()

        def work(cursor):
            text = cursor.execute("SELECT * FROM note WHERE no = 1").fetchone()[1]
            cursor.execute("UPDATE note SET body = ? WHERE no = 1", (text + "b",))
            if not text:
                self.first.execute("UPDATE note SET body = 'a' WHERE no = 1")
                self.first.commit()
            return text

        self.assertEqual(self.second.transact(work), "a")
        self.assertEqual(self.first.execute("SELECT * FROM note").fetchall(), [(1, "ab")])

    def test_transact_gives_up_and_rolls_back(self):
        self.first.execute("INSERT INTO note VALUES (1, 'x')")
        self.first.commit()

        def beaten(cursor):
            cursor.execute("UPDATE note SET body = 'b'")
            self.first.execute("UPDATE note SET body = 'a'")
            self.first.commit()

        with self.assertRaises(tsvd.ConflictError):
            self.second.transact(beaten, tries=2)
        with self.assertRaises(ZeroDivisionError):
            self.second.transact(lambda cursor: 1 // 0)
        self.assertFalse(self.second.in_transaction)
        self.second.begin()
        with self.assertRaises(tsvd.ProgrammingError):
            self.second.transact(beaten)

    def test_the_replies_say_what_is_open(self):
        for line, is_open in [("begin ;", True), ("COMMIT WORK", False), ("START TRANSACTION", True),
                              ("ROLLBACK WORK;", False), ("BEGIN", True)]:
            self.first.execute(line)
            self.assertEqual(self.first.in_transaction, is_open, line)
        with self.assertRaises(tsvd.ProgrammingError) as caught:
            self.first.execute("BEGIN")
        self.assertEqual(caught.exception.number, 5)
        self.assertTrue(self.first.in_transaction)

    def test_refusals_are_exceptions(self):
        with self.assertRaises(tsvd.ProgrammingError) as caught:
            self.first.execute("SELECT * FROM staff ORDER BY no")
        self.assertEqual(caught.exception.byte, 20)
        with self.assertRaises(tsvd.DataError) as caught:
            self.first.execute("SELECT * FROM staff WHERE name = 'x'")
        self.assertEqual(caught.exception.column, 3)
        self.first.execute("INSERT INTO staff VALUES ('a', 1, 'Ann', TRUE)")
        with self.assertRaises(self.first.IntegrityError) as caught:
            self.first.execute("INSERT INTO staff VALUES ('a', 1, 'Ann', TRUE)")
        self.assertEqual((caught.exception.number, caught.exception.key), (6, ("a", 1)))

    def test_nothing_is_sent_that_shifts_replies(self):
        for bad in ("", "  ", "-- x", "\n"):
            with self.assertRaises(tsvd.ProgrammingError):
                self.first.execute(bad)
        for bad in ("a\nb", "a\rb", "x" * 9000):
            with self.assertRaises(tsvd.DataError):
                self.first.execute("INSERT INTO staff VALUES ('a', 1, ?, TRUE)", (bad,))
        self.first.rollback()
        evil = "x'; DELETE FROM staff; --"
        self.first.execute("INSERT INTO staff VALUES ('a', 1, ?, TRUE)", (evil,))
        self.first.commit()
        self.assertEqual(self.second.execute("SELECT * FROM staff WHERE no = ?", (1,)).fetchone()[2], evil)

    def test_a_select_is_not_executed_many_times(self):
        with self.assertRaises(tsvd.ProgrammingError):
            self.first.cursor().executemany("SELECT * FROM note WHERE no = ?", [(1,), (2,)])
        self.assertEqual(self.first.cursor().executemany("INSERT INTO note VALUES (?, 'x')", []).rowcount, 0)

    def test_a_closed_cursor_and_a_closed_connection_take_nothing(self):
        cursor = self.first.cursor()
        with self.assertRaises(tsvd.InterfaceError):
            cursor.fetchone()
        cursor.close()
        self.first.close()
        for closed in (cursor, self.first):
            with self.assertRaises(tsvd.InterfaceError):
                closed.execute("INSERT INTO note VALUES (1, 'x')")


class Module(unittest.TestCase):
    def test_the_module_is_of_pep_249(self):
        self.assertEqual((tsvd.apilevel, tsvd.threadsafety, tsvd.paramstyle), ("2.0", 1, "qmark"))
        for error in (tsvd.InterfaceError, tsvd.DatabaseError):
            self.assertTrue(issubclass(error, tsvd.Error))
        for name in ("DataError", "OperationalError", "IntegrityError", "InternalError", "ProgrammingError",
                     "NotSupportedError"):
            self.assertTrue(issubclass(getattr(tsvd, name), tsvd.DatabaseError))
            self.assertIs(getattr(tsvd.Connection, name), getattr(tsvd, name))
        for name in tsvd.__all__:
            self.assertTrue(hasattr(tsvd, name), name)
