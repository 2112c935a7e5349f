import contextlib
import os
import pathlib
import re
import subprocess
import sys
from unittest import mock

import tsvd
from tests.served import SCHEMA, Files, Served, run
from tsvd import transcript
from tsvd.errors import DataError, OperationalError
from tsvd.stop import use_sessions
from tsvd.transcript import Transcript
from tsvd.transcript_reading import read_transcripts

HEAD = "tsvd transcript 1 port 7411\n"
WHOLE = HEAD + "> 10 BEGIN\n< 11 begun 0\n> 12 SELECT * FROM emp\n< 13 rows 2\n  (1, 'a')\n  (2, 'b')\n> 14 COMMIT\n. 15\n"


def timeless(path):
    """Returns the text of a transcript with its times left out."""
    return re.sub(r"(?m)^(>|>x|<|!|\.) [0-9]+ ?", r"\1 ", pathlib.Path(path).read_text(encoding="utf-8"))


class Keeps(Served):
    sessions = 8

    def end(self):
        """Uses up the sessions that are left."""
        self.first.close()
        self.second.close()
        with contextlib.suppress(OperationalError):
            use_sessions(self.server.port)
        super().end()

    def test_a_connection_keeps_what_it_sent_and_was_sent(self):
        path = str(self.folder / "kept")
        connection = tsvd.connect(self.server.port, SCHEMA, keep=path)
        with connection:
            connection.execute("INSERT INTO note VALUES (?, ?)", (1, "a\u2028b\tc"))
        with self.assertRaises(tsvd.ProgrammingError):
            connection.ask("SELECT * FROM nothing")
        self.assertEqual(connection.session.ask("SELECT * FROM note")[1], "(1, 'a\u2028b\tc')")
        with self.assertRaises(tsvd.OperationalError):
            tsvd.connect(self.server.port, SCHEMA, keep=path)
        connection.close()
        self.assertEqual(timeless(path), f"tsvd transcript 1 port {self.server.port}\n> BEGIN\n< begun 0\n> INSERT INTO note VALUES "
                         f"(1, 'a\u2028b\tc')\n< inserted 1\n> COMMIT\n< committed {connection.last_commit}\n"
                         "> SELECT * FROM nothing\n< E2 no table\n> SELECT * FROM note\n< rows 1\n  (1, 'a\u2028b\tc')\n. \n")
        times = [int(time) for time in re.findall(r"(?m)^[><.] ([0-9]+)", pathlib.Path(path).read_text(encoding="utf-8"))]
        self.assertEqual(times, sorted(times))
        self.assertTrue(times[4] <= connection.last_commit <= times[5])

    def test_a_line_of_any_bytes_is_kept_and_read_back(self):
        path = str(self.folder / "kept")
        lines = [b"\xff", b"BEGIN\r", b"COMMIT", b"x\x00y", "SELECT '\u00e4".encode("utf-8")]
        with tsvd.Session(self.server.port, transcript=Transcript(path, self.server.port)) as session:
            replies = [session.ask(line) for line in lines]
        kept, = read_transcripts([path])
        self.assertEqual([exchange.line for exchange in kept.exchanges], lines)
        self.assertEqual([[line.decode() for line in exchange.reply] for exchange in kept.exchanges], replies)
        self.assertTrue(kept.has_end)

    def test_send_keeps_a_transcript_and_makes_no_file_for_a_session_that_was_not_opened(self):
        path = str(self.folder / "kept")
        out, err, status = run("send", str(self.server.port), "--keep", path, text=b"BEGIN\n\n-- x\nCOMMIT")
        self.assertEqual((out, err, status), ("begun 0\ncommitted nothing\n", "", 0))
        self.assertTrue(timeless(path).endswith("> BEGIN\n< begun 0\n> COMMIT\n< committed nothing\n. \n"))
        out, err, status = run("send", str(self.server.port), "--keep", path, text=b"BEGIN\n")
        self.assertEqual((out, err, status), ("", f"send: the transcript {path} exists; each session has a file of its own\n", 1))
        with self.assertRaises(OperationalError):
            tsvd.connect(1, wait=0, keep=path + "2")
        self.assertFalse(os.path.exists(path + "2"))
        with self.assertRaisesRegex(OperationalError, "cannot be made: Not a directory"):
            tsvd.connect(self.server.port, keep=path + "/x")

    def test_each_session_of_a_pool_has_the_next_name_that_is_free(self):
        path = self.folder / "kept"
        self.file("kept.1", "taken")
        with tsvd.pool(self.server.port, 2, keep=path) as pool:
            with pool.connection() as first, pool.connection() as second:
                first.ask("BEGIN")
                second.ask("BEGIN")
            with pool.connection() as first:
                first.ask("MIGRATE:")
        self.assertEqual(timeless(f"{path}.1"), "taken")
        kept = sorted(timeless(f"{path}.{number}").split("\n", 1)[1] for number in (2, 3))
        self.assertEqual(kept, ["> BEGIN\n< begun 0\n> ROLLBACK\n< rolled back\n. \n",
                                "> BEGIN\n< begun 0\n> ROLLBACK\n< rolled back\n> MIGRATE:\n< ok\n. \n"])

    def test_a_fault_in_writing_loses_no_reply_and_is_told_before_the_next_line_is_sent(self):
        path = str(self.folder / "kept")
        session = tsvd.Session(self.server.port, transcript=Transcript(path, self.server.port))
        with mock.patch.object(transcript.os, "write", side_effect=OSError(28, "No space left on device")):
            with self.assertRaisesRegex(OperationalError, "kept cannot be written: No space left on device"):
                session.ask("BEGIN")
        with self.assertRaises(OperationalError):
            session.ask("BEGIN")
        with self.assertRaises(OperationalError):
            session.close()
        self.assertFalse(session.is_open)
        session = tsvd.Session(self.server.port, transcript=Transcript(path + "2", self.server.port))
        with mock.patch.object(session.transcript, "received", side_effect=lambda _: setattr(
                session.transcript, "fault", OSError(28, "No space left on device"))):
            self.assertEqual(session.ask("BEGIN"), ["begun 0"])
        with self.assertRaises(OperationalError):
            session.ask("COMMIT")
        with self.assertRaises(OperationalError):
            session.close()
        self.assertTrue(timeless(path + "2").endswith("> BEGIN\n"))

    def test_a_client_that_is_killed_leaves_all_but_the_last_entry(self):
        path = str(self.folder / "kept")
        command = [sys.executable, "-m", "tsvd", "send", str(self.server.port), "--keep", path]
        with subprocess.Popen(command, stdin=subprocess.PIPE, stdout=subprocess.PIPE) as client:
            client.stdin.write(b"BEGIN\nSELECT * FROM note\n")
            client.stdin.flush()
            self.assertEqual([client.stdout.readline() for _ in range(2)], [b"begun 0\n", b"rows 0\n"])
            client.kill()
        kept, = read_transcripts([path])
        self.assertEqual([exchange.head for exchange in kept.exchanges], ["begun 0", "rows 0"])
        self.assertFalse(kept.has_end)


class Refuses(Files):
    def refusal(self, *names):
        """Returns the words with which transcripts are refused, without the folder."""
        with self.assertRaises(DataError) as told:
            read_transcripts([str(self.folder / name) for name in names])
        return str(told.exception).replace(f"{self.folder}{os.sep}", "")

    def test_what_is_no_transcript_is_refused_by_name(self):
        second = HEAD.replace("7411", "7412") + "> 10 BEGIN\n"
        for text, wanted in [
                ("", "a is empty: a transcript begins with a line 'tsvd transcript 1 port P'"),
                (HEAD.encode() + b"> 10 \xff\n", "a is not UTF-8, from byte 33 on, and so not a transcript"),
                ("clock: 5\n1: BEGIN\n", "a is not a transcript of this form: its first line is 'clock: 5', and not 'tsvd transcript 1 "
                 "port P'"),
                (HEAD.replace("1 port", "2 port"), "a is not a transcript of this form: its first line is 'tsvd transcript 2 port 7411', "
                 "and not 'tsvd transcript 1 port P'"),
                (HEAD + "> 10 BEG", "a is cut off: its last line, 2, has no line feed"),
                (WHOLE[:WHOLE.index("  (2")], "a, line 5: it is cut off: there are not 2 rows below it"),
                (WHOLE.replace("< 13", "< 9"), "a, line 5: its time is 3 microseconds before that of the entry above: the clock was set "
                 "back, so what came first is not known"),
                (HEAD + "> BEGIN\n", "a, line 2: an entry without a time: 'BEGIN'"),
                (HEAD + "BEGIN\n", "a, line 2: not an entry of a transcript: 'BEGIN'"),
                (HEAD + "< 10 ok\n", "a, line 2: a reply without a line"),
                (HEAD + "> 10 BEGIN\n> 11 COMMIT\n", "a, line 3: the line above it has no reply, and is not the last one"),
                (HEAD + "> 10 -- x\n< 11 ok\n", "a, line 2: no session sends such a line: it does not have one reply"),
                (HEAD + ">x 10 0g\n", "a, line 2: not hexadecimal digits: '0g'"),
                (WHOLE + "> 16 BEGIN\n", "a, line 10: there is more behind the end of the session")]:
            self.file("a", text)
            self.assertEqual(self.refusal("a"), wanted)
        self.file("a", WHOLE)
        self.file("b", WHOLE)
        self.file("c", second)
        self.assertEqual(self.refusal("a", "a"), "a and a are the same transcript")
        self.assertEqual(self.refusal("a", "b"), "a and b are the same transcript")
        self.assertEqual(self.refusal("a", "c"), "a is of a server at port 7411 and c of one at port 7412: these are transcripts of two "
                         "runs")

    def test_a_transcript_that_is_cut_anywhere_is_refused_or_read_up_to_there(self):
        for size in range(len(HEAD), len(WHOLE)):
            path = self.file("a", WHOLE[:size])
            try:
                kept, = read_transcripts([path])
            except DataError as fault:
                self.assertIn("cut off", str(fault))
                continue
            self.assertEqual(WHOLE[size - 1], "\n")
            self.assertFalse(kept.has_end)
