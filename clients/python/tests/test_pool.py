import threading
import time
import unittest
from unittest import mock

import tsvd
from tests.served import LONGEST, SCHEMA, Files, needs_program
from tsvd.errors import DataError, DisconnectError, InterfaceError, OperationalError, ProgrammingError
from tsvd.places import Places
from tsvd.program import Server

QUERY = "SELECT * FROM note"


def started(work):
    """Starts a thread, and returns it."""
    thread = threading.Thread(target=work, daemon=True)
    thread.start()
    return thread


def until(holds):
    """Waits until something holds."""
    end = time.monotonic() + LONGEST
    while not holds():
        if time.monotonic() > end:
            raise AssertionError("it did not come")
        time.sleep(0.002)


class Waiting(unittest.TestCase):
    def test_places_are_given_in_the_order_in_which_threads_ask(self):
        places, order = Places(1), []
        self.assertTrue(places.take(None))

        def wait(number):
            places.take(None)
            order.append(number)
            places.give_back()

        threads = []
        for number in range(20):
            threads.append(started(lambda number=number: wait(number)))
            until(lambda: len(places.waiting) == number + 1)
        places.give_back()
        for thread in threads:
            thread.join(LONGEST)
        self.assertEqual((order, places.free, len(places.waiting)), (list(range(20)), 1, 0))

    def test_who_waits_too_long_leaves_and_takes_no_place(self):
        places = Places(1)
        places.take(None)
        self.assertFalse(places.take(0.01))
        self.assertFalse(places.take(0))
        places.give_back()
        self.assertTrue(places.take(0))
        self.assertFalse(places.take(0))

    def test_a_wait_that_is_interrupted_loses_no_place(self):
        for comes in (False, True):
            places = Places(1)
            places.take(None)

            class Interrupted(threading.Event):
                def wait(self, timeout=None):
                    if comes:
                        places.give_back()
                    raise KeyboardInterrupt

            with mock.patch.object(threading, "Event", Interrupted), self.assertRaises(KeyboardInterrupt):
                places.take(None)
            if not comes:
                places.give_back()
            self.assertEqual((places.free, len(places.waiting)), (1, 0))


@needs_program
class Pools(Files):
    sessions = 64

    def setUp(self):
        super().setUp()
        self.server = Server(["--schema", self.file("tables.schema", SCHEMA)], self.sessions)
        self.addCleanup(self.server.__exit__)

    def pool(self, size, **words):
        made = tsvd.pool(self.server.port, size, schema=SCHEMA, **words)
        self.addCleanup(made.close)
        return made

    def test_threads_share_few_connections_and_lose_nothing(self):
        pool, seen, most = self.pool(3), set(), []

        def count(cursor):
            body = int(cursor.execute("SELECT * FROM note WHERE no = 1").fetchone()[1])
            cursor.execute("UPDATE note SET body = ? WHERE no = 1", (str(body + 1),))

        def work():
            for _ in range(20):
                with pool.connection() as connection:
                    seen.add(connection.session.socket.getsockname())
                    most.append(3 - pool.places.free)
                    connection.transact(count, 1000)

        with pool.connection() as connection, connection:
            connection.execute("INSERT INTO note VALUES (1, '0')")
        threads = [started(work) for _ in range(12)]
        for thread in threads:
            thread.join(LONGEST)
        with pool.connection() as connection:
            self.assertEqual(connection.execute(QUERY).fetchall(), [(1, "240")])
        self.assertLessEqual(len(seen), 3)
        self.assertLessEqual(max(most), 3)

    def test_what_was_not_committed_is_rolled_back(self):
        pool = self.pool(1)
        with pool.connection() as connection:
            connection.execute("INSERT INTO note VALUES (1, 'a')")
        with pool.connection() as connection:
            self.assertEqual(connection.execute(QUERY).fetchall(), [])
            connection.autocommit = False
        with self.assertRaises(KeyError), pool.connection() as connection:
            connection.execute("INSERT INTO note VALUES (2, 'b')")
            raise KeyError
        with pool.connection() as connection, connection:
            connection.execute("INSERT INTO note VALUES (3, 'c')")
        with pool.connection() as connection:
            self.assertEqual(connection.execute(QUERY).fetchall(), [(3, "c")])

    def test_the_words_of_connect_hold_for_each_loan(self):
        pool = self.pool(1, autocommit=True, timeout=LONGEST)
        with pool.connection() as connection:
            self.assertTrue(connection.autocommit)
            self.assertEqual(connection.session.socket.gettimeout(), LONGEST)
            connection.autocommit = False
        with pool.connection() as connection:
            self.assertTrue(connection.autocommit)
            self.assertEqual(connection.session.socket.gettimeout(), LONGEST)

    def test_who_keeps_a_connection_can_neither_use_nor_close_it(self):
        pool = self.pool(1)
        with pool.connection() as kept:
            cursor = kept.execute(QUERY)
        with pool.connection() as connection:
            for use in (kept.commit, kept.cursor, kept.rollback, lambda: cursor.execute(QUERY)):
                with self.assertRaises(InterfaceError):
                    use()
            kept.close()
            self.assertEqual(connection.execute(QUERY).fetchall(), [])
        self.assertEqual(len(pool.idle), 1)

    def test_a_closed_connection_is_replaced(self):
        pool = self.pool(1)
        with pool.connection() as connection:
            connection.close()
        self.assertEqual(pool.idle, [])
        with pool.connection() as connection:
            self.assertEqual(connection.execute(QUERY).fetchall(), [])

    def test_a_session_that_ended_with_its_server_is_replaced_by_one_of_the_next_server(self):
        pool = self.pool(2, wait=LONGEST)
        with pool.connection() as one, pool.connection() as other:
            one.execute(QUERY)
            other.execute(QUERY)
        self.assertEqual(len(pool.idle), 2)
        with pool.connection() as connection:
            self.server.process.kill()
            self.server.process.wait()
            with self.assertRaises(DisconnectError):
                connection.execute(QUERY)
        with Server(["--schema", self.file("tables.schema", SCHEMA)], 2) as server:
            pool.port = server.port
            with pool.connection() as one, pool.connection() as other:
                self.assertEqual((one.execute(QUERY).fetchall(), other.execute(QUERY).fetchall()), ([], []))

    def test_a_borrower_waits_at_most_as_long_as_it_says(self):
        pool = self.pool(1)
        with pool.connection() as connection:
            with self.assertRaisesRegex(OperationalError, "no connection of the pool came free in 0.05 seconds"):
                with pool.connection(timeout=0.05):
                    self.fail("lent twice")
            self.assertEqual(connection.execute(QUERY).fetchall(), [])
        with pool.connection(timeout=0.05) as connection:
            self.assertEqual(connection.execute(QUERY).fetchall(), [])

    def test_a_closed_pool_lends_nothing_and_keeps_nothing(self):
        with self.pool(2) as pool:
            with pool.connection():
                pass
            idle = pool.idle[0]
        self.assertTrue(idle.has_ended())
        with self.assertRaisesRegex(InterfaceError, "the pool is closed"):
            with pool.connection():
                self.fail("lent by a closed pool")
        pool = self.pool(1)
        told = []

        def wait():
            try:
                with pool.connection():
                    pass
            except InterfaceError as fault:
                told.append(str(fault))

        with pool.connection() as connection:
            waiting = started(wait)
            until(lambda: pool.places.waiting)
            pool.close()
            self.assertEqual(connection.execute(QUERY).fetchall(), [])
        waiting.join(LONGEST)
        self.assertEqual((told, pool.idle), (["the pool is closed"], []))

    def test_a_fault_of_connect_takes_no_place(self):
        pool = self.pool(1, wait=0)
        self.server.process.kill()
        self.server.process.wait()
        for _ in range(3):
            with self.assertRaisesRegex(OperationalError, "nothing listens"):
                with pool.connection(timeout=0.05):
                    self.fail("lent without a server")

    def test_words_that_do_not_fit_are_refused_when_the_pool_is_made(self):
        for size in (0, -1, 65):
            with self.assertRaisesRegex(DataError, "a pool has 1 to 64 connections"):
                tsvd.pool(self.server.port, size)
        with self.assertRaises(TypeError):
            tsvd.pool(self.server.port, 1, patience=1)
        with self.assertRaises(ProgrammingError):
            self.pool(1, days={"nothing": "yyyymmdd"})
