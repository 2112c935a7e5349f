import socket
import threading
import unittest

import tsvd
from tsvd.errors import DataError, DisconnectError, InterfaceError, OperationalError, ProgrammingError
from tsvd.protocol import Session


class Answers:
    """A server of one connection that answers each line behind the first with bytes of the test's own."""

    def __init__(self, *answers):
        self.listener = socket.create_server(("127.0.0.1", 0))
        self.port = self.listener.getsockname()[1]
        self.lines = []
        self.thread = threading.Thread(target=self.serve, args=(answers,), daemon=True)
        self.thread.start()

    def serve(self, answers):
        connection, _ = self.listener.accept()
        with connection, connection.makefile("rb") as lines:
            lines.readline()
            connection.sendall(b"E4 no transaction\n")
            for answer in answers:
                self.lines.append(lines.readline())
                connection.sendall(answer)
            lines.read() if answers and answers[-1] == b"" else None

    def close(self):
        self.listener.close()
        self.thread.join(10)


class Sessions(unittest.TestCase):
    def session(self, *answers, timeout=10.0):
        server = Answers(*answers)
        self.addCleanup(server.close)
        session = Session(server.port, timeout=timeout)
        self.addCleanup(session.close)
        self.lines = server.lines
        return session

    def test_line_feeds_alone_end_a_row(self):
        rows = ["('a\u2028b')", "('\x0b\x0c\x1c\x85')"]
        session = self.session(("rows 2\n" + "\n".join(rows) + "\n").encode("utf-8"), b"ok\n")
        self.assertEqual(session.ask("SELECT * FROM emp"), ["rows 2", *rows])
        self.assertEqual(session.ask("MIGRATE:"), ["ok"])

    def test_what_has_not_one_reply_is_not_sent(self):
        session = self.session(b"ok\n")
        for line in ("BEGIN\nCOMMIT", "x" * 9000):
            with self.assertRaises(DataError):
                session.ask(line)
        for line in ("", " ", "-- x"):
            with self.assertRaises(ProgrammingError):
                session.ask(line)
        self.assertEqual(session.ask("MIGRATE:"), ["ok"])
        self.assertEqual(self.lines, [b"MIGRATE:\n"])

    def test_after_a_reply_that_broke_off_no_line_is_sent(self):
        session = self.session(b"rows 2\n(1, 'a')\n")
        with self.assertRaises(DisconnectError):
            session.ask("SELECT * FROM emp")
        with self.assertRaises(InterfaceError):
            session.ask("BEGIN")
        self.assertEqual(len(self.lines), 1)

    def test_after_a_reply_that_took_too_long_no_line_is_sent(self):
        session = self.session(b"", timeout=0.2)
        with self.assertRaises(DisconnectError) as caught:
            session.ask("COMMIT")
        self.assertEqual(caught.exception.line, "COMMIT")
        with self.assertRaises(InterfaceError):
            session.ask("BEGIN")

    def test_a_reply_that_is_none_ends_the_session(self):
        for answer in (b"rows x\n", b"\xff\n"):
            session = self.session(answer)
            with self.assertRaises(InterfaceError):
                session.ask("BEGIN")
            with self.assertRaises(InterfaceError):
                session.ask("BEGIN")

    def test_a_port_where_nobody_listens_is_tried_and_given_up(self):
        with socket.create_server(("127.0.0.1", 0)) as listener:
            port = listener.getsockname()[1]
        with self.assertRaises(OperationalError):
            tsvd.connect(port, wait=0)

    def test_rows_of_another_schema_are_refused(self):
        session = self.session(b"rows 1\n(1, 'a', true)\n", b"rows 1\n(1, 'a') from 1 to 2\n")
        connection = tsvd.Connection(session)
        for _ in range(2):
            with self.assertRaises(InterfaceError):
                connection.execute("SELECT * FROM emp")
