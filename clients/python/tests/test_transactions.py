import threading
import unittest

import tsvd
from tests.served import LONGEST, Served, needs_program
from tests.test_protocol import Answers
from tsvd.errors import ConflictError, InterfaceError, OperationalError, ProgrammingError
from tsvd.program import Server


class Begun(Served):
    def test_a_select_begins_a_transaction_and_reads_one_snapshot(self):
        self.assertEqual(self.first.execute("SELECT * FROM note").fetchall(), [])
        self.assertTrue(self.first.in_transaction)
        with self.second:
            self.second.execute("INSERT INTO note VALUES (1, 'x')")
        self.assertEqual(self.first.execute("SELECT * FROM note").fetchall(), [])
        self.assertIsNone(self.first.commit())
        self.assertEqual(self.first.execute("SELECT * FROM note").fetchall(), [(1, "x")])

    def test_a_change_of_what_was_read_meanwhile_is_a_conflict(self):
        with self.first:
            self.first.execute("INSERT INTO note VALUES (1, 'x')")
        read = self.first.execute("SELECT * FROM note WHERE no = 1").fetchone()[1]
        with self.second:
            self.second.execute("UPDATE note SET body = 'y' WHERE no = 1")
        self.first.execute("UPDATE note SET body = ? WHERE no = 1", (read + "z",))
        with self.assertRaises(ConflictError):
            self.first.commit()

    def test_a_statement_that_cannot_be_sent_begins_nothing(self):
        for statement, values in [("SELECT * FROM note WHERE no = ?", ()), ("INSERT INTO note VALUES (1, ?)", ("x" * 9000,)),
                                  ("INSERT INTO note VALUES (1, ?)", ("x\ny",)), ("", ()), ("-- SELECT", ())]:
            with self.assertRaises(tsvd.DatabaseError):
                self.first.execute(statement, values)
            self.assertFalse(self.first.in_transaction)


class Alone(Served):
    def setUp(self):
        super().setUp()
        self.first.autocommit = True

    def test_each_statement_is_a_transaction_by_itself(self):
        self.first.execute("INSERT INTO note VALUES (1, 'x')")
        self.assertFalse(self.first.in_transaction)
        first = self.first.last_commit
        self.assertEqual(self.second.execute("SELECT * FROM note").fetchall(), [(1, "x")])
        self.second.commit()
        self.assertEqual(self.first.execute("UPDATE note SET body = 'y'").rowcount, 1)
        self.assertGreater(self.first.last_commit, first)
        self.assertEqual(self.first.execute("SELECT * FROM note").fetchall(), [(1, "y")])
        self.assertFalse(self.first.in_transaction)

    def test_a_refused_statement_leaves_no_transaction(self):
        self.first.execute("INSERT INTO note VALUES (1, 'x')")
        with self.assertRaises(tsvd.IntegrityError):
            self.first.execute("INSERT INTO note VALUES (2, 'y'), (1, 'y')")
        self.assertFalse(self.first.in_transaction)
        self.assertEqual(self.first.execute("SELECT * FROM note").fetchall(), [(1, "x")])

    def test_begin_and_with_hold_several_statements_together(self):
        self.first.begin()
        self.first.execute("INSERT INTO note VALUES (1, 'x')")
        self.first.rollback()
        with self.assertRaises(KeyError), self.first:
            self.first.execute("INSERT INTO note VALUES (2, 'x')")
            raise KeyError
        with self.first:
            self.first.execute("INSERT INTO note VALUES (3, 'x')")
        self.assertEqual(self.first.execute("SELECT * FROM note").fetchall(), [(3, "x")])
        self.assertEqual(self.first.transact(lambda cursor: cursor.execute("SELECT * FROM note").fetchall()), [(3, "x")])

    def test_the_mode_is_not_changed_in_a_transaction(self):
        self.first.begin()
        with self.assertRaisesRegex(ProgrammingError, "commit.. or rollback"):
            self.first.autocommit = False
        self.assertTrue(self.first.autocommit)
        self.first.autocommit = True
        self.first.rollback()
        self.first.autocommit = False
        self.first.execute("SELECT * FROM note")
        self.assertTrue(self.first.in_transaction)


@needs_program
class Counted(unittest.TestCase):
    def test_no_increment_of_many_threads_is_lost(self):
        threads, turns = 8, 25
        with Server(sessions=threads + 1) as server:
            first = tsvd.connect(server.port, timeout=LONGEST)
            with first:
                first.execute("INSERT INTO emp VALUES (1, '0')")
            tried = []

            def count():
                connection, done = tsvd.connect(server.port, timeout=LONGEST), 0
                while done < turns:
                    number = int(connection.execute("SELECT * FROM emp WHERE no = 1").fetchone()[1])
                    connection.execute("UPDATE emp SET name = ? WHERE no = 1", (str(number + 1),))
                    try:
                        connection.commit()
                        done += 1
                    except ConflictError as conflict:
                        tried.append(conflict.instant)
                connection.close()

            running = [threading.Thread(target=count) for _ in range(threads)]
            for thread in running:
                thread.start()
            for thread in running:
                thread.join(LONGEST * 5)
            self.assertEqual(first.execute("SELECT * FROM emp").fetchall(), [(1, str(threads * turns))])
            first.close()
            server.end(LONGEST)

    def test_the_word_of_connect_sets_the_mode(self):
        with Server(sessions=1) as server:
            with_it = tsvd.connect(server.port, autocommit=True)
            with_it.execute("SELECT * FROM emp")
            self.assertEqual((with_it.autocommit, with_it.in_transaction), (True, False))
            with_it.close()


class Closed(Served):
    def test_a_closed_connection_refuses_everything_by_name(self):
        self.first.execute("INSERT INTO note VALUES (1, 'x')")
        cursor = self.first.cursor()
        self.first.close()
        self.first.close()
        for call in (self.first.commit, self.first.rollback, self.first.cursor, self.first.begin,
                     self.first.__enter__, lambda: cursor.execute("SELECT * FROM note"),
                     lambda: self.first.execute("SELECT * FROM note"), lambda: self.first.transact(len),
                     lambda: cursor.executemany("INSERT INTO note VALUES (?, 'x')", [(1,)])):
            with self.assertRaisesRegex(InterfaceError, "closed"):
                call()
        self.assertFalse(self.first.in_transaction)


class Replies(unittest.TestCase):
    def connection(self, *answers):
        server = Answers(*answers)
        self.addCleanup(server.close)
        connection = tsvd.connect(server.port, timeout=10)
        self.addCleanup(connection.close)
        return connection

    def test_a_refusal_of_any_number_raises(self):
        for head in (b"E17 anything", b"E17", b"E100 x y", b"E0 x"):
            connection = self.connection(head + b"\n", b"committed nothing\n")
            connection.in_transaction = True
            with self.assertRaises(tsvd.DatabaseError) as caught:
                connection.commit()
            self.assertEqual(caught.exception.number, int(head.split()[0][1:]))
            self.assertEqual(caught.exception.reply, head.decode())
            self.assertTrue(connection.in_transaction)
            self.assertIsNone(connection.commit())

    def test_a_word_that_no_reply_begins_with_ends_the_session(self):
        for head in (b"done", b"", b"commited 5", b"committed", b"committed x", b"begun -1", b"rows", b"rows -1", b"OK",
                     b"inserted 1 row", b"ok 1", b"Error: x", b"E", b"e1 syntax at 0", "inserted \u0663".encode()):
            connection = self.connection(head + b"\n", b"ok\n")
            with self.assertRaisesRegex(InterfaceError, "session is ended"):
                connection.execute("MIGRATE:")
            with self.assertRaisesRegex(InterfaceError, "closed"):
                connection.execute("MIGRATE:")

    def test_a_reply_to_another_line_is_not_taken_for_success(self):
        for line, head in [("COMMIT", b"ok"), ("BEGIN", b"rolled back"), ("ROLLBACK", b"committed 5"), ("MIGRATE:", b"begun 1"),
                           ("begin ;", b"rows 0"), ("SELECT * FROM emp", b"inserted 1"), ("UPDATE emp SET name = 'x'", b"rows 0")]:
            connection = self.connection(head + b"\n", b"ok\n")
            connection.in_transaction = True
            with self.assertRaises(InterfaceError):
                connection.execute(line)
            self.assertFalse(connection.in_transaction)
            with self.assertRaises(InterfaceError):
                connection.rollback()

    def test_a_lost_connection_leaves_no_transaction(self):
        connection = self.connection(b"begun 0\n")
        with self.assertRaises(OperationalError):
            with connection:
                connection.execute("SELECT * FROM emp")
        self.assertFalse(connection.in_transaction)
        with self.assertRaises(InterfaceError):
            connection.commit()
