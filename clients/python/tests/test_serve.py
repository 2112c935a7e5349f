import argparse
import contextlib
import os
import pathlib
import signal
import socket
import subprocess
import sys
import time
import unittest

import tsvd
from tests.served import LONGEST, SCHEMA, Files, has_option, run
from tests.supervised import Supervised, until
from tsvd.errors import OperationalError
from tsvd.kept_files import KeptFiles, last_instant
from tsvd.processes import server_at
from tsvd.program import find_program
from tsvd.serve import count_of, fault_of, parts, seconds_of, value_of
from tsvd.state_folder import age_text


class Words(unittest.TestCase):
    def test_words_are_parted_at_the_first_dashes(self):
        self.assertEqual(parts(["--state", "s", "--", "--listen", "1", "--"]), (["--state", "s"], ["--listen", "1", "--"]))
        self.assertEqual(parts(["--help"]), (["--help"], []))

    def test_what_the_program_must_not_be_given_is_refused(self):
        for words, told in ((["--after", "x"], "--after"), (["--listen", "1", "--dump=x"], "--dump=x"),
                            (["--load", "a=b"], "load FILE"), ([], "--listen PORT"), (["--sessions", "1"], "--listen PORT"),
                            (["--listen"], "--listen PORT"), (["--listen", "1", "--connections", "5"], "--connections 0"),
                            (["--listen", "1", "--schema=x"], "before --"), (["--listen", "1", "-h"], "no server"),
                            (["--listen", "1", "--connections=70"], "--connections 0")):
            self.assertIn(told, fault_of(words), words)
        for words in (["--listen", "1"], ["--listen=1", "--connections", "0"], ["--listen", "1", "--connections=00"],
                      ["--listen", "0", "--sessions=3", "--export", "emp"]):
            self.assertEqual(fault_of(words), "", words)
        self.assertEqual(value_of(["--a", "--b=c"], "--b"), "c")

    def test_times_and_counts_are_read(self):
        self.assertEqual([seconds_of(text) for text in ("2s", "15m", "1h", "1d")], [2, 900, 3600, 86400])
        for text in ("", "1", "0s", "h", "1.5h", "1h30m", "-1h", "1w", "\u0661h"):
            with self.assertRaises(argparse.ArgumentTypeError):
                seconds_of(text)
        self.assertEqual(count_of("7"), 7)
        for text in ("0", "-1", "x", "", "1.5"):
            with self.assertRaises(argparse.ArgumentTypeError):
                count_of(text)

    def test_the_command_tells_what_is_wrong(self):
        for words in ((), ("--state", "/tmp"), ("--state", "/tmp", "--keep", "0", "--", "--listen", "1"),
                      ("--state", "/tmp", "--backup-every", "x", "--", "--listen", "1"), ("--", "--listen", "1")):
            out, err, status = run("serve", *words)
            self.assertEqual((out, status), ("", 2), words)
            self.assertIn("usage: python3 -m tsvd serve --state FOLDER", err)
        out, err, status = run("serve", "--help")
        self.assertEqual((err, status), ("", 0))
        self.assertIn("--backup-every TIME", out)


class KeptNames(Files):
    def test_the_last_commit_of_a_script_is_found_in_any_length(self):
        pair = "clock: 5\n1: BEGIN\n1: INSERT INTO note VALUES (1, 'clock: 9')\n1: COMMIT\n"
        for text, last in (("", 0), ("1: BEGIN\n1: COMMIT\n", 0), (pair, 5), ("-- x\n" + pair + "clock: 12", 5),
                           (pair + "clock: 77\r\n" + "1: x\n" * 100000, 77),
                           ("clock: 8\n" + "1: x\n" * 13107 + pair[9:], 8)):
            self.assertEqual(last_instant(pathlib.Path(self.file("a.script", text))), last)
        self.assertEqual(last_instant(self.folder / "none"), 0)
        self.assertEqual(last_instant(self.folder), 0)

    def test_names_rise_also_within_a_second_and_others_are_left(self):
        kept = KeptFiles(self.folder, "state")
        self.file("state-20990101T000000Z.script", "old")
        self.file("state-x.script", "other")
        for number in range(3):
            kept.part().write_text(str(number))
            kept.keep_part()
        self.assertEqual([path.name for path in kept.files()],
                         [f"state-20990101T00000{number}Z.script" for number in range(4)])
        self.assertEqual(kept.newest().read_text(), "2")
        kept.drop_old(2)
        self.assertEqual(sorted(os.listdir(str(self.folder))),
                         ["state-20990101T000002Z.script", "state-20990101T000003Z.script", "state-x.script"])

    def test_ages_are_in_the_greatest_unit(self):
        self.assertEqual([age_text(seconds) for seconds in (-5, 0.4, 1, 60, 7300, 86400 * 3)],
                         ["just now", "just now", "1 second ago", "1 minute ago", "2 hours ago", "3 days ago"])


class Serves(Supervised):
    def test_a_stop_writes_all_and_the_next_start_goes_on(self):
        for number, last in ((signal.SIGTERM, [1]), (signal.SIGINT, [1, 2])):
            serving = self.start("--sessions", "8")
            port = serving.port()
            self.insert(port, len(last))
            self.assertEqual(self.rows(port), last)
            self.assertEqual(serving.stop(number), 0, serving.told())
            self.assertRegex(serving.out(), r"\Alistening \d+\nclosed \d+\n\Z")
            self.assertRegex(serving.told(), r"\Aserve: the server goes on from .*\nserve: stopping: .*\n"
                                             r"serve: stopped; its dump is .*\n\Z")
            self.assertEqual(self.text().count("INSERT"), len(last))
        self.assertEqual(len(self.names("dumps")), 1)
        self.assertNotIn("state.script.part", self.names("."))

    def test_a_run_that_has_ended_is_followed_by_the_next_and_the_last_dumps_are_kept(self):
        serving = self.start("--sessions", "1", own=("--keep", "2"))
        for number in range(1, 6):
            self.insert(serving.port(number), number)
        self.assertEqual(self.rows(serving.port(6)), [1, 2, 3, 4, 5])
        serving.port(7)
        until(lambda: len(self.names("dumps")) == 2)
        self.assertEqual(serving.stop(), 0, serving.told())
        self.assertEqual([self.text(f"dumps/{name}").count("COMMIT") for name in self.names("dumps")], [4, 5])
        self.assertEqual(serving.out().count("closed"), 7)

    def test_no_dump_is_dropped_where_the_newest_cannot_be_read_back(self):
        program = self.folder / "program"
        program.write_text(f"""#!/bin/sh
case "$*" in *dumps/*) echo "after: line 1: E1 syntax at 0" >&2; exit 1;; esac
exec {find_program()} "$@"
""")
        program.chmod(0o755)
        serving = self.start("--sessions", "1", own=("--keep", "1", "--program", str(program)))
        for number in range(1, 4):
            port = serving.port(number)
            until(lambda: serving.told().count("so no older dump is dropped") == max(0, number - 2))
            self.insert(port, number)
        serving.port(4)
        until(lambda: serving.told().count("so no older dump is dropped") == 2)
        self.assertEqual(serving.stop(), 0, serving.told())
        self.assertEqual([self.text(f"dumps/{name}").count("COMMIT") for name in self.names("dumps")], [1, 2, 3])
        self.assertRegex(serving.told(), r"\nserve: .*/dumps/state-\w+\.script cannot be read back, so no older dump is "
                                         r"dropped: after: line 1: E1 syntax at 0\n")

    def test_the_export_of_the_program_is_passed_through(self):
        serving = self.start("--sessions", "2", "--export", "note")
        instant = self.insert(serving.port(), 1, "O'Hara \u00fc")
        self.assertEqual(serving.stop(), 0)
        self.assertEqual(serving.out().splitlines()[2:], ["no,body,sys_start,sys_end", f"1,O'Hara \u00fc,{instant},forever"])

    def test_after_a_crash_the_backup_is_named_and_nothing_goes_on_without_it(self):
        serving = self.start("--sessions", "64", own=("--backup-every", "1s", "--keep", "2"))
        port = serving.port()
        self.insert(port, 1)
        until(lambda: any("VALUES (1" in self.text(f"backups/{name}") for name in self.backups()))
        os.kill(server_at(port).number, signal.SIGKILL)
        self.assertEqual(serving.wait(), 128 + 9)
        newest = self.path("backups") / self.backups()[-1]
        self.assertIn("the program ended with status 137, without its dump", serving.told())
        self.assertIn(f"the newest backup is {newest} (to the commit of ", serving.told())
        self.assertIn(f"cp {newest} {self.path('state.script')}", serving.told())
        self.assertEqual(self.text(), "")
        again = self.start("--sessions", "1")
        self.assertEqual(again.wait(), 1)
        self.assertIn(f"cp {newest} {self.path('state.script')}", again.told())
        self.assertEqual((again.out(), self.text()), ("", ""))
        self.path("state.script").write_bytes(newest.read_bytes())
        last = self.start("--sessions", "2")
        self.assertEqual(self.rows(last.port()), [1])
        self.assertEqual(last.stop(), 0, last.told())

    def test_the_last_backups_are_kept_and_each_is_whole(self):
        serving = self.start("--sessions", "64", own=("--backup-every", "1s", "--keep", "2"))
        port, seen = serving.port(), set()
        for number in range(1, 5):
            self.insert(port, number)
            until(lambda: set(self.backups()) - seen)
            seen |= set(self.backups())
        self.assertEqual(serving.stop(), 0, serving.told())
        kept = self.names("backups")
        self.assertEqual(len(kept), 2, kept)
        for name in kept:
            self.assertRegex(name, r"\Abackup-\d{8}T\d{6}Z\.script\Z")
            path = str(self.path("backups") / name)
            out, err, status = run("--schema", self.schema, "--after", path, program=find_program())
            self.assertEqual((out, err, status), ("", "", 0))

    def test_a_backup_that_cannot_be_taken_is_told_and_the_server_goes_on(self):
        serving = self.start("--sessions", "64", own=("--backup-every", "1s"))
        port = serving.port()
        self.path("backups").rmdir()
        self.path("backups").write_text("no folder")
        until(lambda: "no backup: " in serving.told())
        self.insert(port, 1)
        self.assertEqual(self.rows(port), [1])
        self.path("backups").unlink()
        self.path("backups").mkdir()
        until(self.backups)
        self.assertEqual(serving.stop(), 0, serving.told())
        self.assertNotIn("Traceback", serving.told())

    def test_a_damaged_state_is_left_as_it_is_and_the_last_good_dump_is_named(self):
        serving = self.start("--sessions", "1")
        self.insert(serving.port(), 1)
        serving.port(2)
        self.assertEqual(serving.stop(), 0)
        kept = self.names("dumps")
        self.assertEqual(len(kept), 1)
        damaged = self.text() + "1: INSERT INTO note VALUES (1, 'twice')\n"
        self.path("state.script").write_text(damaged)
        again = self.start("--sessions", "1", own=("--keep", "1"))
        self.assertEqual(again.wait(), 1)
        self.assertRegex(again.told(), r"\nafter: line \d+: E4 no transaction\n"
                                       r"serve: the program ended with status 1 before it listened")
        self.assertIn(f"state.script cannot be read: after: line ", again.told())
        self.assertIn(f"the last good one is {self.path('dumps') / kept[0]} (to the commit of ", again.told())
        self.assertEqual((self.text(), self.names("dumps")), (damaged, kept))

    def test_a_state_that_is_lost_or_goes_less_far_than_a_dump_is_not_gone_on_from(self):
        serving = self.start("--sessions", "1")
        self.insert(serving.port(), 1)
        serving.port(2)
        self.assertEqual(serving.stop(), 0)
        dump = self.path("dumps") / self.names("dumps")[0]
        for lose in (self.path("state.script").unlink, lambda: self.path("state.script").write_text("")):
            lose()
            again = self.start("--sessions", "1")
            self.assertEqual(again.wait(), 1)
            self.assertIn(f"Further go: {dump} (to the commit of ", again.told())
            self.assertEqual(again.out(), "")

    def test_a_port_that_is_taken_is_told_and_the_state_is_whole(self):
        with socket.create_server(("127.0.0.1", 0)) as listener:
            words = ["--state", str(self.state), "--", "--listen", str(listener.getsockname()[1]), "--sessions", "1"]
            out, err, status = run("serve", *words)
        self.assertEqual((out, status), ("", 1))
        self.assertIn("ended with status 1 before it listened; nothing has changed", err)
        self.assertIn("the state is whole", err)

    def test_a_dump_that_cannot_be_written_leaves_the_state_as_it_was(self):
        serving = self.start("--sessions", "2")
        port = serving.port()
        self.insert(port, 1)
        self.path("state.script.part").mkdir()
        self.assertEqual(serving.stop(), 1)
        self.assertIn("\nwrite fault\nserve: the program ended with status 1, without its dump", serving.told())
        self.assertIn("is what it was when the run began: with no commit", serving.told())
        self.assertIn("there is no backup", serving.told())
        self.assertEqual(self.text(), "")

    def test_words_that_the_program_refuses_end_the_supervisor_with_its_status(self):
        serving = self.start("--sessions", "1", "--no-such-option")
        self.assertEqual(serving.wait(), 2)
        self.assertIn("ended with status 2 before it listened", serving.told())

    def test_two_supervisors_never_have_one_folder_nor_one_beside_a_program_that_is_left(self):
        serving = self.start("--sessions", "1")
        port = serving.port()
        other = self.start("--sessions", "1")
        self.assertEqual(other.wait(), 1)
        self.assertIn(f"another supervisor, process {serving.process.pid}, has {self.state}", other.told())
        serving.process.kill()
        serving.wait()
        server = server_at(port)
        other = self.start("--sessions", "1")
        self.assertEqual(other.wait(), 1)
        self.assertIn("or the program that it started has not ended", other.told())
        self.insert(port, 1)
        until(lambda: not pathlib.Path(f"/proc/{server.number}").exists())
        last = self.start("--sessions", "2")
        self.assertEqual(self.rows(last.port()), [1])
        self.assertEqual(last.stop(), 0, last.told())

    def test_a_second_signal_ends_the_program_at_once(self):
        serving = self.start("--sessions", "2")
        held = self.connect(serving.port())
        serving.process.send_signal(signal.SIGTERM)
        until(lambda: "stopping" in serving.told())
        time.sleep(0.2)
        self.assertIsNone(serving.process.poll())
        self.assertEqual(held.execute("SELECT * FROM note").fetchall(), [])
        self.assertEqual(serving.stop(), 128 + 15)
        self.assertIn("the server is ended at once, without its dump", serving.told())
        self.assertIn("the program ended with status 143, without its dump", serving.told())

    def test_a_stop_while_the_program_starts_is_a_stop(self):
        for pause in (0, 0.002, 0.005, 0.01, 0.03):
            serving = self.start("--sessions", "3")
            until(lambda: "goes on from" in serving.told())
            time.sleep(pause)
            self.assertEqual(serving.stop(), 0, serving.told())
            self.assertIn("serve: stopped; its dump is", serving.told())

    def test_a_reader_of_the_output_that_goes_away_ends_nothing(self):
        command = [sys.executable, "-m", "tsvd", "serve", "--state", str(self.state), "--", "--listen", "0",
                   "--sessions", "2", "--export", "emp"]
        process = subprocess.Popen(command, stdout=subprocess.PIPE, stderr=subprocess.PIPE)
        self.addCleanup(process.stderr.close)
        port = int(process.stdout.readline().split()[1])
        process.stdout.close()
        out, err, status = run("health", str(port))
        self.assertEqual((err, status), ("", 0))
        process.send_signal(signal.SIGTERM)
        self.assertEqual(process.wait(LONGEST), 0)
        self.assertIn(b"standard output takes nothing more", process.stderr.read())

    def test_folders_that_cannot_be_used_are_told(self):
        self.file("file", "x")
        for path, told in ((self.folder / "file", "is not a folder"), (self.folder / "file" / "below", "cannot be used"),
                           (pathlib.Path("/proc/none"), "cannot be used")):
            out, err, status = run("serve", "--state", str(path), "--", "--listen", "0")
            self.assertEqual((out, status), ("", 1))
            self.assertRegex(err, rf"\Aserve: .*{told}.*\n\Z")
        self.state = self.folder / "a" / "b"
        serving = self.start("--sessions", "1")
        serving.port()
        self.assertEqual(serving.stop(), 0, serving.told())
        self.assertEqual(self.names("."), ["backups", "dumps", "lock", "state.script"])

    def test_a_schema_that_is_no_file_or_does_not_fit_is_not_taken_for_damage(self):
        out, err, status = run("serve", "--state", str(self.state), "--schema", "/nowhere", "--", "--listen", "0")
        self.assertEqual((out, err, status), ("", "serve: [Errno 2] No such file or directory: '/nowhere'\n", 1))
        self.assertFalse(self.state.exists())
        self.schema = self.file("wrong.schema", "CREATE")
        serving = self.start("--sessions", "1")
        self.assertEqual(serving.wait(), 1)
        self.assertRegex(serving.told(), r"\nserve: whether .* is whole could not be tried: schema: syntax at \d+\n\Z")

    def test_a_program_that_is_not_found_is_told(self):
        out, err, status = run("serve", "--state", str(self.state), "--program", "/nowhere/tsvd", "--", "--listen", "0")
        self.assertEqual((out, err, status), ("", "serve: the program is not found: /nowhere/tsvd\n", 1))
        self.assertFalse(self.state.exists())


@unittest.skipUnless(has_option("--entries"), "the program has no --entries")
class ServesFullJournals(Supervised):
    def test_a_full_journal_is_followed_by_the_next_run_with_all_that_was_acknowledged(self):
        serving = self.start("--entries", "40", own=("--keep", "2"))
        # each run has a port of its own, so nobody waits long at that of the run before
        with contextlib.closing(tsvd.pool(serving.port(), 2, schema=SCHEMA, wait=2)) as pool:
            acknowledged = []
            for number in range(100):
                pool.port = serving.ports()[-1]
                with contextlib.suppress(OperationalError), pool.connection() as connection:
                    connection.execute("INSERT INTO note VALUES (?, 'x')", (number,))
                    connection.commit()
                    acknowledged.append(number)
        self.assertEqual(serving.stop(), 0, serving.told())
        self.assertGreater(len(serving.ports()), 3)
        self.assertGreater(len(acknowledged), 80)
        for number in acknowledged:
            self.assertIn(f"VALUES ({number}, 'x')\n", self.text())
        self.assertEqual(len(self.names("dumps")), 2)


@unittest.skipUnless(has_option("--connections"), "the program has no --connections")
class ServesConnections(Supervised):
    def test_a_stop_ends_open_sessions_and_keeps_what_was_committed(self):
        serving = self.start()
        port = serving.port()
        for number in range(70):
            self.insert(port, number)
        held = self.connect(port)
        held.execute("INSERT INTO note VALUES (100, 'never committed')")
        self.assertEqual(serving.stop(), 0, serving.told())
        self.assertTrue(held.session.has_ended())
        again = self.start()
        self.assertEqual(self.rows(again.port()), list(range(70)))
        self.assertEqual(again.stop(signal.SIGINT), 0, again.told())

    def test_the_command_that_uses_up_sessions_says_how_such_a_server_is_stopped(self):
        serving = self.start()
        port = serving.port()
        out, err, status = run("stop", str(port))
        self.assertEqual((out, status), ("", 1))
        self.assertRegex(err, r"\Astop: the server at port \d+ takes over 64 connections: .*"
                              r"python3 -m tsvd serve by TERM.*\n\Z")
        self.insert(port, 1)
        self.assertEqual(serving.stop(), 0, serving.told())
        self.assertIn("VALUES (1, 'x')", self.text())

    def test_a_supervisor_that_is_killed_leaves_a_server_that_ends_well(self):
        serving = self.start()
        port = serving.port()
        self.insert(port, 1)
        server = server_at(port)
        serving.process.kill()
        serving.wait()
        until(lambda: not pathlib.Path(f"/proc/{server.number}").exists())
        self.assertIn("VALUES (1, 'x')", self.text())

    def test_a_stop_while_the_program_starts_is_a_stop(self):
        for pause in (0, 0.002, 0.005, 0.01, 0.03):
            serving = self.start()
            until(lambda: "goes on from" in serving.told())
            time.sleep(pause)
            self.assertEqual(serving.stop(), 0, serving.told())
