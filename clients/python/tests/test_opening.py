import contextlib
import socket
import struct
import threading
import time
import unittest

import tsvd
from tests.served import LONGEST, has_option, needs_program, run
from tsvd.errors import InterfaceError, OperationalError
from tsvd.program import Server

FIRST = b"E4 no transaction\n"


class Listener:
    """A listener whose connections are dealt with one after another, each by a function of the test's own."""

    def __init__(self, *turns):
        self.listener = socket.create_server(("127.0.0.1", 0))
        self.port = self.listener.getsockname()[1]
        self.lines = []
        self.thread = threading.Thread(target=self.serve, args=(turns,), daemon=True)
        self.thread.start()

    def serve(self, turns):
        for turn in turns:
            connection, _ = self.listener.accept()
            with connection, connection.makefile("rb") as lines:
                turn(connection, lines, self.lines)

    def close(self):
        self.listener.close()
        self.thread.join(LONGEST)


def answers(reply):
    """Returns a turn that answers the first line with a reply."""
    def turn(connection, lines, seen):
        seen.append(lines.readline())
        connection.sendall(reply)
        lines.read()
    return turn


def answers_late(connection, lines, seen):
    """Answers the first line after a while."""
    time.sleep(0.5)
    answers(FIRST)(connection, lines, seen)


def resets(connection, lines, seen):
    """Breaks the connection off."""
    seen.append(lines.readline())
    connection.setsockopt(socket.SOL_SOCKET, socket.SO_LINGER, struct.pack("ii", 1, 0))


def closes(connection, lines, seen):
    """Closes the connection within its first reply."""
    seen.append(lines.readline())
    connection.sendall(b"E4 no")


class Turns(unittest.TestCase):
    def listener(self, *turns):
        made = Listener(*turns)
        self.addCleanup(made.close)
        return made

    def test_a_turn_that_does_not_come_is_told(self):
        with socket.create_server(("127.0.0.1", 0)) as listener:
            began = time.monotonic()
            with self.assertRaisesRegex(OperationalError, "serves 64 connections at once"):
                tsvd.connect(listener.getsockname()[1], wait=1.2)
            self.assertLess(1.1, time.monotonic() - began)

    def test_a_reply_that_comes_late_is_waited_for_whatever_the_timeout_of_later_ones(self):
        listener = self.listener(answers_late)
        connection = tsvd.connect(listener.port, wait=LONGEST, timeout=0.1)
        self.assertEqual(connection.session.socket.gettimeout(), 0.1)
        connection.close()
        self.assertEqual(listener.lines, [b"ROLLBACK\n"])

    def test_a_connection_that_is_broken_off_before_the_first_reply_is_tried_again(self):
        listener = self.listener(resets, closes, answers(FIRST))
        tsvd.connect(listener.port).close()
        self.assertEqual(listener.lines, [b"ROLLBACK\n"] * 3)
        for turn in (resets, closes):
            with self.assertRaisesRegex(OperationalError, "ended before the first reply"):
                tsvd.connect(self.listener(turn).port, wait=0)

    def test_a_port_that_is_refused_at_first_is_tried_again(self):
        with socket.create_server(("127.0.0.1", 0)) as listener:
            port = listener.getsockname()[1]

        def listen():
            time.sleep(0.3)
            with socket.create_server(("127.0.0.1", port)) as late:
                connection, _ = late.accept()
                with connection, connection.makefile("rb") as lines:
                    answers(FIRST)(connection, lines, [])

        thread = threading.Thread(target=listen)
        thread.start()
        tsvd.connect(port).close()
        thread.join(LONGEST)
        with self.assertRaisesRegex(OperationalError, "nothing listens"):
            tsvd.connect(port, wait=0.1)

    def test_a_refusal_to_serve_is_raised_at_once(self):
        listener = self.listener(answers(b"E10 memory\n"))
        with self.assertRaises(OperationalError) as caught:
            tsvd.connect(listener.port)
        self.assertEqual((caught.exception.number, len(listener.lines)), (10, 1))

    def test_what_is_not_tsvd_is_told(self):
        for reply in (b"220 hello\r\n", b"rolled back\n", b"\xff\n", b"x" * 300):
            with self.assertRaisesRegex(InterfaceError, "is not tsvd"):
                tsvd.connect(self.listener(answers(reply)).port, wait=LONGEST)

    @needs_program
    def test_the_first_line_takes_no_entry_of_the_journal(self):
        with Server(sessions=2) as server:
            tsvd.connect(server.port).close()
            out, err, status = run("health", str(server.port))
            self.assertEqual((out, err, status), (f"the server at port {server.port} answers\n", "", 0))
            self.assertEqual(server.end(LONGEST), "closed 0\n")
            out, err, status = run("health", str(server.port), "--wait", "0")
            self.assertEqual((out, status), ("", 1))
            self.assertRegex(err, r"\Ahealth: nothing listens at port .*\n\Z")

    @unittest.skipUnless(has_option("--connections"), "the program has no --connections")
    def test_the_65th_connection_waits_until_one_has_ended(self):
        with contextlib.ExitStack() as stack:
            server = stack.enter_context(Server(counted="--connections", sessions=66))
            held = [stack.enter_context(contextlib.closing(tsvd.connect(server.port))) for _ in range(64)]
            with self.assertRaisesRegex(OperationalError, "serves 64 connections at once"):
                tsvd.connect(server.port, wait=1)
            timer = threading.Timer(0.5, held[5].close)
            timer.start()
            connection = tsvd.connect(server.port, wait=LONGEST)
            self.assertEqual(connection.execute("SELECT * FROM emp").fetchall(), [])
            connection.close()
            timer.join(LONGEST)
