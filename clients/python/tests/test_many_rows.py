import unittest
import warnings

import tsvd
from tests.served import LONGEST, Files, Served, needs_program
from tsvd.errors import DataError, IntegrityError, NotSupportedError, OperationalError, ProgrammingError
from tsvd.inserts import lines_of, row_start
from tsvd.literals import Statement
from tsvd.program import Server

INSERT = "INSERT INTO note VALUES (?, ?)"


class Lines(unittest.TestCase):
    def test_rows_share_lines_of_at_most_8192_bytes(self):
        # 24 bytes of statement, 7 for each row beside its text, and 2 between rows: 8161 and 2 times 4076 fill a line
        for text, rows, wanted in [("x", 3, [3]), ("é" * 500, 9, [8, 1]), ("x" * 1000, 8, [8]), ("'" * 500, 8, [8]),
                                   ("x" * 8192, 1, None), ("x" * 8161, 1, [1]), ("x" * 8160, 2, [1, 1]), ("x" * 8162, 1, None),
                                   ("x" * 4076, 2, [2]), ("x" * 4077, 2, [1, 1]), ("x", 0, [])]:
            values = [(number, text) for number in range(rows)]
            if wanted is None:
                with self.assertRaisesRegex(DataError, "8192 bytes"):
                    lines_of(Statement(INSERT), values)
                continue
            lines = lines_of(Statement(INSERT), values)
            self.assertLessEqual(max([0] + [len(line.encode("utf-8")) for line in lines]), 8192)
            self.assertEqual([line.count("'), (") + 1 for line in lines], wanted, text[:5])
            self.assertTrue(all(line.startswith("INSERT INTO note VALUES (") for line in lines))

    def test_what_is_not_one_row_is_sent_as_it_is(self):
        for statement in ("INSERT INTO note VALUES (?, ?), (2, 'x')", "INSERT INTO ? VALUES (1, 'x')", "INSERT INTO note VALUES",
                          "INSERT INTO note VALUES (1, 'x') x", "UPDATE note SET body = ? WHERE no = ?", "INSERT INTO note (?) VALUES (1)",
                          "INSERT INTO note VALUES ?", "INSERT INTO note VALUES ((?, ?)"):
            self.assertIsNone(row_start(Statement(statement)), statement)
        for statement in (INSERT, "insert into note(no,body)values(?,?)", " INSERT INTO \"note\"\n(\"no\") VALUES (?) ",
                          "INSERT INTO note VALUES (?, ') VALUES (')"):
            self.assertIsNotNone(row_start(Statement(statement)), statement)
        self.assertEqual(lines_of(Statement('INSERT INTO "note" ("no","body") VALUES (?,?)'), [(1, '"a"'), (2, "b")]),
                         ["INSERT INTO note (no,body) VALUES (1,'\"a\"'), (2,'b')"])


class Many(Served):
    def test_a_transaction_takes_a_thousand_rows_in_few_lines(self):
        rows = [(number, "x" * 100) for number in range(1000)]
        sent = []
        ask = self.first.session.ask
        self.first.session.ask = lambda line: sent.append(line) or ask(line)
        with self.first:
            self.assertEqual(self.first.cursor().executemany(INSERT, iter(rows)).rowcount, 1000)
        # 100 and some 9 bytes for a row: at least 70 rows in a line
        self.assertLess(len(sent), 1000 / 70 + 3)
        self.assertEqual(self.second.execute("SELECT * FROM note").fetchall(), rows)

    def test_more_are_refused_before_anything_is_sent(self):
        with self.assertRaisesRegex(OperationalError, "nothing was sent.*autocommit=True"):
            self.first.cursor().executemany(INSERT, ((number, "x") for number in range(1001)))
        with self.assertRaises(DataError):
            self.first.cursor().executemany(INSERT, [(1, "x"), (2, "a\nb")])
        with self.assertRaises(ProgrammingError):
            self.first.cursor().executemany(INSERT, [(1, "x"), (2,)])
        self.assertFalse(self.first.in_transaction)
        self.assertEqual(self.first.execute("SELECT * FROM note").fetchall(), [])

    def test_with_autocommit_any_number_is_committed_in_parts(self):
        self.first.autocommit = True
        cursor = self.first.cursor().executemany(INSERT, ((number, "x") for number in range(2500)))
        self.assertEqual((cursor.rowcount, self.first.in_transaction), (2500, False))
        rows = self.second.execute("SELECT * FROM note FOR SYSTEM_TIME BETWEEN ? AND ?", (0, 10 ** 18 - 1)).fetchall()
        self.second.commit()
        starts = [row[2] for row in rows]
        self.assertEqual([starts.count(start) for start in sorted(set(starts))], [1000, 1000, 500])
        with self.assertRaises(IntegrityError) as caught:
            cursor.executemany(INSERT, [(number, "y") for number in range(3499, 2498, -1)])
        self.assertEqual((caught.exception.rows, cursor.rowcount, caught.exception.key), (1000, 1000, (2499,)))
        self.assertEqual(self.second.execute("SELECT * FROM note").rowcount, 3500)

    def test_other_statements_are_sent_one_by_one(self):
        with self.first:
            self.first.cursor().executemany(INSERT, [(1, "a"), (2, "b")])
            changed = self.first.cursor().executemany("UPDATE note SET body = ? WHERE no = ?", [(str(n), n % 3) for n in range(1100)])
        # of 0 to 1099, 367 leave the rest 1 and 366 the rest 2
        self.assertEqual(changed.rowcount, 733)
        self.first.autocommit = True
        before = self.first.last_commit
        self.first.cursor().executemany("DELETE FROM note WHERE no = ?", [(1,), (2,)])
        self.assertEqual(self.second.execute("SELECT * FROM note FOR SYSTEM_TIME AS OF ?", (self.first.last_commit - 1,)).rowcount, 1)
        self.assertGreater(self.first.last_commit, before + 1)

    def test_statements_of_tables_are_refused_by_name(self):
        for line in ("CREATE TABLE x (a INT)", "drop table note"):
            with self.assertRaisesRegex(NotSupportedError, "--schema FILE"):
                self.first.execute(line)
        self.assertFalse(self.first.in_transaction)


TABLE = """CREATE TABLE sums (no BIGINT PRIMARY KEY, amount INT, paid BOOLEAN, holder TEXT,
  s TIMESTAMP(6) GENERATED ALWAYS AS ROW START, e TIMESTAMP(6) GENERATED ALWAYS AS ROW END,
  PERIOD FOR SYSTEM_TIME (s, e)) WITH SYSTEM VERSIONING"""


@needs_program
class Libraries(Files):
    def connect(self, sessions=1, **words):
        server = Server(["--schema", self.file("sums.schema", TABLE)], sessions)
        self.addCleanup(server.__exit__)
        return lambda: tsvd.connect(server.port, TABLE, timeout=LONGEST, **words)

    def test_frames_of_pandas_are_written_and_read(self):
        try:
            import pandas
        except ImportError:
            self.skipTest("pandas is not installed")
        connection = self.connect(autocommit=True)()
        self.addCleanup(connection.close)
        frame = pandas.DataFrame({"no": range(2500), "amount": range(5000, 2500, -1), "paid": [True, False] * 1250,
                                  "holder": ["O'Hara", None] * 1250})
        with warnings.catch_warnings():
            warnings.simplefilter("ignore")
            self.assertEqual(frame.to_sql("sums", connection, if_exists="append", index=False), 2500)
            read = pandas.read_sql("SELECT * FROM sums", connection)
            some = pandas.read_sql("SELECT * FROM sums WHERE no >= ?", connection, params=[2499])
            with self.assertRaisesRegex(ValueError, "already exists"):
                frame.to_sql("sums", connection, index=False)
            with self.assertRaises(NotSupportedError):
                frame.to_sql("other", connection, index=False)
        pandas.testing.assert_frame_equal(read, frame)
        self.assertEqual(list(some.itertuples(index=False, name=None)), [(2499, 2501, False, None)])
        starts = {row[4] for row in connection.execute("SELECT * FROM sums FOR SYSTEM_TIME FROM 0 TO 999999999999999999")}
        self.assertEqual(len(starts), 3)

    def test_a_pool_of_sqlalchemy_holds_connections(self):
        try:
            from sqlalchemy.pool import QueuePool
        except ImportError:
            self.skipTest("sqlalchemy is not installed")
        pool = QueuePool(self.connect(2), pool_size=2, max_overflow=0, timeout=LONGEST)
        for number in range(5):
            connection = pool.connect()
            connection.cursor().execute("INSERT INTO sums (no) VALUES (?)", (number,))
            if number % 2:
                connection.commit()
            connection.close()
        first, second = pool.connect(), pool.connect()
        self.assertEqual(first.cursor().execute("SELECT * FROM sums").rowcount, 2)
        self.assertEqual(second.cursor().execute("SELECT * FROM sums").rowcount, 2)
        first.close()
        second.close()
        pool.dispose()
