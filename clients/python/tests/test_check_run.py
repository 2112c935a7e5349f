import contextlib
import io
import os
import pathlib

import tsvd
from tests.faulty_server import FaultyServer, OwnWritesAreSeenByOthers
from tests.served import LONGEST, Files, needs_program
from tests.storming import SCHEMA, audit, cut_off, storm
from tsvd import check_run
from tsvd.check_run import EXPLAINED, NOT_DECIDED, NOT_EXPLAINED, REFUSED
from tsvd.program import Server
from tsvd.transcript import Transcript

HEAD = "tsvd transcript 1 port 7411\n"
# Key 1 comes at 1050, and is changed at 1150.
FIRST = """> 1000 BEGIN
< 1010 begun 0
> 1020 INSERT INTO emp VALUES (1, 'Ann'), (2, 'Bo')
< 1030 inserted 2
> 1040 COMMIT
< 1060 committed 1050
> 1100 BEGIN
< 1110 begun 1050
> 1120 UPDATE emp SET name = 'Bea' WHERE no = 1
< 1130 updated 1
> 1140 COMMIT
< 1160 committed 1150
. 1170
"""
BEGUN = "> 1115 BEGIN\n< 1118 begun 1050\n"


def asked(time, line, *reply):
    """Returns a line with its reply, a microsecond later."""
    rows = "".join(f"  {row}\n" for row in reply[1:])
    return f"> {time} {line}\n< {time + 1} {reply[0]}\n{rows}"


@needs_program
class Checks(Files):
    def checked(self, *texts, words=()):
        """Checks transcripts, whose names are a, b and so on, and returns the status and what was told."""
        paths = [self.file(chr(ord("a") + number), HEAD + text) for number, text in enumerate(texts)]
        told = io.StringIO()
        with contextlib.redirect_stdout(told), contextlib.redirect_stderr(told):
            status = check_run.main([*words, *paths])
        return status, told.getvalue().replace(f"{self.folder}{os.sep}", "")

    def explained(self, *texts, words=()):
        """Checks transcripts that one order explains, and returns the history's script without its comments."""
        path = str(self.folder / "history")
        status, told = self.checked(*texts, words=(*words, "--write", path))
        self.assertEqual((status, told.split(":")[0]), (EXPLAINED, "one order explains all replies"), told)
        lines = pathlib.Path(path).read_bytes().split(b"\n")[:-1]
        return [line.decode("utf-8", "replace") for line in lines if not line.startswith(b"--")]

    def test_the_one_order_is_written_as_a_script(self):
        second = (BEGUN + asked(1119, "UPDATE emp SET name = 'Cy' WHERE no = 1", "updated 1")
                  + asked(1170, "SELECT * FROM emp WHERE no = 1", "rows 1", "(1, 'Cy')")
                  + asked(1180, "COMMIT", "E7 conflict (1) at 1150") + asked(1190, "SELECT * FROM emp WHERE no = 1", "rows 1", "(1, 'Bea')"))
        self.assertEqual(self.explained(FIRST, second), [
            "1: BEGIN", "1: INSERT INTO emp VALUES (1, 'Ann'), (2, 'Bo')", "clock: 1050", "1: COMMIT",
            "1: BEGIN", "1: UPDATE emp SET name = 'Bea' WHERE no = 1",
            "2: BEGIN", "2: UPDATE emp SET name = 'Cy' WHERE no = 1", "2: SELECT * FROM emp WHERE no = 1", "clock: 1150", "1: COMMIT",
            "2: COMMIT", "2: SELECT * FROM emp WHERE no = 1"])
        status, told = self.checked(FIRST, second)
        self.assertEqual((status, told), (EXPLAINED, "one order explains all replies: 11 of 2 sessions, 2 commits, 1 conflict; "
                                                     "1 transcript without an end\n"))

    def test_a_select_may_be_answered_from_any_instant_that_real_time_allows(self):
        for answer in ("(1, 'Ann')", "(1, 'Bea')"):
            self.explained(FIRST, f"> 1135 SELECT * FROM emp WHERE no = 1\n< 1170 rows 1\n  {answer}\n")
        for time, answer in ((1130, "(1, 'Bea')"), (1165, "(1, 'Ann')")):
            status, told = self.checked(FIRST, asked(time, "SELECT * FROM emp WHERE no = 1", "rows 1", answer))
            self.assertEqual((status, told.split("\n")[0]), (NOT_EXPLAINED, "no order explains this reply: b, line 2"))

    def test_each_wrong_reply_is_named(self):
        wrong = [
            ("an uncommitted write is seen", BEGUN + asked(1135, "SELECT * FROM emp WHERE no = 1", "rows 1", "(1, 'Bea')"),
             "b, line 4", "began at the snapshot 1050"),
            ("a conflict is missed", BEGUN + asked(1119, "UPDATE emp SET name = 'Cy' WHERE no = 1", "updated 1")
             + asked(1170, "COMMIT", "committed 1170"), "b, line 6", "expected: E7 conflict (1) at 1150"),
            ("a commit is lost", asked(1170, "SELECT * FROM emp", "rows 2", "(1, 'Ann')", "(2, 'Bo')"), "b, line 2",
             "the answer at no instant of the history from 1150 to 1150"),
            ("an answer is of another instant", asked(1170, "SELECT * FROM emp FOR SYSTEM_TIME AS OF 1150 WHERE no = 1", "rows 1",
                                                      "(1, 'Ann')"), "b, line 2", "(1, 'Bea')"),
            ("a snapshot is older than what was told", asked(1170, "BEGIN", "begun 1050"), "b, line 2", "begun 1150 or later"),
            ("a snapshot is of a commit that was not sent yet", asked(1130, "BEGIN", "begun 1150"), "b, line 2", "was sent after this reply was read"),
            ("a server began anew", asked(1170, "BEGIN", "begun 0"), "b, line 2", "transcripts of two runs"),
            ("reads go back in time", "> 1135 SELECT * FROM emp WHERE no = 1\n< 1151 rows 1\n  (1, 'Bea')\n"
             + asked(1155, "SELECT * FROM emp WHERE no = 1", "rows 1", "(1, 'Ann')"), "b, line 5", "from 1150 to 1150"),
            ("an instant is given twice", BEGUN + asked(1119, "INSERT INTO emp VALUES (3, 'Cy')", "inserted 1")
             + asked(1170, "COMMIT", "committed 1150"), "b, line 6", "an instant of its own"),
            ("an instant is below one that was told", BEGUN + asked(1119, "INSERT INTO emp VALUES (3, 'Cy')", "inserted 1")
             + asked(1170, "COMMIT", "committed 1120"), "b, line 6", "an instant above 1150"),
            ("a transcript is missing", asked(1170, "BEGIN", "begun 1165"), "b, line 2", "a transcript is missing"),
            ("a transaction is begun twice", BEGUN + asked(1120, "BEGIN", "begun 1050"), "b, line 4", "E5 in transaction"),
            ("nothing is rolled back", asked(1170, "ROLLBACK", "rolled back"), "b, line 2", "E4 no transaction"),
            ("a conflict is of nobody", BEGUN + asked(1119, "INSERT INTO emp VALUES (3, 'Cy')", "inserted 1")
             + asked(1170, "COMMIT", "E7 conflict (3) at 1150"), "b, line 6", "committed"),
            ("there is no clock's end", BEGUN + asked(1119, "INSERT INTO emp VALUES (3, 'Cy')", "inserted 1")
             + asked(1170, "COMMIT", "E8 clock end"), "b, line 6", "another reply"),
            ("a line is refused at another byte", asked(1170, "SELECT * FROM emp x", "E1 syntax at 17"), "b, line 2", "E1 syntax at 18"),
            ("ALTER is taken", asked(1170, "ALTER TABLE emp ADD COLUMN x INT", "altered"), "b, line 2", "E1 syntax at 0"),
            ("what comes is no reply", "> 1170 BEGIN\n! 1171 not a reply of tsvd: 'hello'\n", "b, line 2", "not a reply of tsvd: 'hello'"),
        ]
        for what, text, place, because in wrong:
            with self.subTest(what):
                status, told = self.checked(FIRST, text)
                self.assertEqual((status, told.split("\n")[0]), (NOT_EXPLAINED, f"no order explains this reply: {place}"), told)
                self.assertIn(because, told)

    def test_an_instant_is_the_clocks_within_the_slack_or_the_one_after_the_last(self):
        hour = 3_600_000_000
        text = FIRST.replace("committed 1150", f"committed {1150 + hour}")
        for slack, is_right in ((1, False), (3599, False), (3601, True)):
            status, told = self.checked(text, words=("--slack", str(slack)))
            self.assertEqual(status, EXPLAINED if is_right else NOT_EXPLAINED, told)
            self.assertEqual("3598.999990 seconds behind that" in told, slack == 1, told)
        after = ("> 1170 BEGIN\n< 1171 begun 1051\n> 1172 DELETE FROM emp\n< 1173 deleted 2\n> 9001172 COMMIT\n< 9001173 committed 1052\n")
        status, told = self.checked(FIRST.replace("committed 1150", "committed 1051"), after)
        self.assertEqual((status, "8.000120 seconds before that" in told), (NOT_EXPLAINED, True))
        self.explained(FIRST.replace("committed 1150", "committed 1051"), after, words=("--slack", "10"))
        late = self.file("late.script", f"clock: {hour}\n1: BEGIN\n1: INSERT INTO emp VALUES (9, 'z')\n1: COMMIT\n")
        followed = FIRST.replace("begun 0", f"begun {hour}").replace("1050", f"{hour + 1}").replace("1150", f"{hour + 2}")
        self.explained(followed, words=("--after", late))

    def test_a_run_goes_on_from_a_load_and_a_script(self):
        script = self.file("before.script", "clock: 500\n1: BEGIN\n1: INSERT INTO emp VALUES (7, 'z')\n1: COMMIT\n")
        load = "emp=" + self.file("a.csv", "no,name\n8,y\n")
        self.explained(asked(1000, "SELECT * FROM emp", "rows 1", "(8, 'y')") + asked(1010, "BEGIN", "begun 1"), words=("--load", load))
        self.explained(asked(1000, "SELECT * FROM emp", "rows 1", "(7, 'z')") + asked(1010, "BEGIN", "begun 500"),
                       words=("--after", script))
        status, told = self.checked(asked(1000, "BEGIN", "begun 0"), words=("--after", script))
        self.assertEqual((status, "begun 500 or later" in told), (NOT_EXPLAINED, True))

    def test_a_commit_without_its_reply_is_decided_by_what_others_saw(self):
        lost = BEGUN + asked(1119, "UPDATE emp SET name = 'Cy' WHERE no = 2", "updated 1") + "> 1170 COMMIT\n"
        other = BEGUN + asked(1119, "INSERT INTO emp VALUES (3, 'Di')", "inserted 1") + "> 1169 COMMIT\n"
        for name, effect in (("Bo", 0), ("Cy", 1)):
            for text in (asked(1300, "SELECT * FROM emp WHERE no = 2", "rows 1", f"(2, '{name}')"),
                         asked(1300, "SELECT * FROM emp FOR SYSTEM_TIME BETWEEN 1190 AND 2000 WHERE no = 2", "rows 1",
                               "(2, 'Cy') from 1180 to forever" if effect else "(2, 'Bo') from 1050 to forever")):
                status, told = self.checked(FIRST, lost, text)
                self.assertEqual((status, f"1 COMMIT without a reply, of which {effect} took effect" in told), (EXPLAINED, True), told)
        seen = asked(1300, "SELECT * FROM emp FOR SYSTEM_TIME BETWEEN 1190 AND 2000 WHERE no > 1", "rows 2",
                     "(2, 'Cy') from 1190 to forever", "(3, 'Di') from 1180 to forever")
        status, told = self.checked(FIRST, lost, other, seen)
        self.assertEqual((status, "2 COMMITs without a reply, of which 2 took effect" in told), (EXPLAINED, True), told)
        for wrong in (seen.replace("1190", "1180"), seen.replace("'Cy'", "'Di'"), asked(1300, "BEGIN", "begun 1181") + seen):
            status, told = self.checked(FIRST, lost, other, wrong)
            self.assertNotEqual(status, EXPLAINED, told)
        status, told = self.checked(FIRST, lost, asked(1165, "SELECT * FROM emp WHERE no = 2", "rows 1", "(2, 'Cy')"))
        self.assertEqual(status, NOT_EXPLAINED, told)

    def test_what_too_many_lost_commits_may_explain_is_not_decided(self):
        lost = [BEGUN + asked(1119, f"INSERT INTO emp VALUES ({number}, 'x')", "inserted 1") + "> 1170 COMMIT\n" for number in range(10, 18)]
        status, told = self.checked(FIRST, *lost, asked(1300, "SELECT * FROM emp WHERE no = 9", "rows 1", "(9, 'x')"))
        self.assertEqual((status, told.split(":")[0]), (NOT_DECIDED, "not decided"), told)
        status, told = self.checked(FIRST, *lost, asked(1300, "ROLLBACK", "rolled back"))
        self.assertEqual((status, "E4 no transaction" in told), (NOT_EXPLAINED, True), told)

    def test_where_all_versions_were_shown_no_lost_commit_is_hidden(self):
        lost = BEGUN + asked(1119, "INSERT INTO emp VALUES (9, 'x')", "inserted 1") + "> 1170 COMMIT\n"
        later = "".join(asked(1500 + 10 * number, "BEGIN", f"begun {1150 if number == 0 else 1494 + 10 * number}")
                        + asked(1502 + 10 * number, f"INSERT INTO emp VALUES ({20 + number}, 'z')", "inserted 1")
                        + asked(1504 + 10 * number, "COMMIT", f"committed {1504 + 10 * number}") for number in range(6))
        wrong = asked(1600, "SELECT * FROM emp WHERE no = 8", "rows 1", "(8, 'x')")
        rows = ["(1, 'Ann') from 1050 to 1150", "(1, 'Bea') from 1150 to forever", "(2, 'Bo') from 1050 to forever",
                *(f"({20 + number}, 'z') from {1504 + 10 * number} to forever" for number in range(6))]
        for form, count, wanted in (("BETWEEN 0 AND 1554", 9, NOT_EXPLAINED), ("FROM 1 TO 1555", 9, NOT_EXPLAINED),
                                    ("FROM 0 TO 1554", 8, NOT_EXPLAINED), ("BETWEEN 1 AND 1150", 3, NOT_DECIDED)):
            audit = asked(1700, "BEGIN", "begun 1554") + asked(1702, f"SELECT * FROM emp FOR SYSTEM_TIME {form};", f"rows {count}",
                                                               *rows[:count])
            status, told = self.checked(FIRST, lost, later, wrong, audit)
            self.assertEqual(status, wanted, told)
            self.assertEqual(told.count(f"{self.file('d', '')}, line 2".replace(f"{self.folder}{os.sep}", "")), 1, told)

    def test_more_sessions_than_a_script_has_numbers_are_checked(self):
        texts = [asked(2000 + 10 * number, "BEGIN", "begun 0") + asked(2002 + 10 * number, "INSERT INTO emp VALUES (1, 'x')", "inserted 1")
                 + asked(2004 + 10 * number, "ROLLBACK", "rolled back") for number in range(65)]
        texts += [asked(1000, "BEGIN", "begun 0") + asked(1001, f"INSERT INTO emp VALUES ({number}, 'x')", "inserted 1")
                  + asked(5000 + 10 * number, "COMMIT", f"committed {5000 + 10 * number}") for number in range(1, 64)]
        self.assertEqual(len([line for line in self.explained(*texts) if line.startswith("64: ")]), 65 * 3)

    def test_any_line_that_a_session_sends_is_checked(self):
        long = "SELECT * FROM emp WHERE " + " AND ".join(["no = 1"] * 300)
        wide = f"SELECT * FROM emp WHERE no = 1{' ' * (8191 - 30)};"
        self.assertEqual(len(wide), 8192)
        lines = self.explained("".join([
            ">x 1000 ff\n< 1001 E1 syntax at 0\n", asked(1002, "  COMMIT x", "E4 no transaction").replace("E4 no transaction", "E1 syntax at 9"),
            asked(1004, "SPLIT: KEY emp (1)", "ok"), asked(1006, " migrate :", "ok"), asked(1008, "\tALTER TABLE emp", "E1 syntax at 1"),
            asked(1010, wide, "rows 0"), asked(1012, "BEGIN", "E13 journal full"), asked(1014, "SELECT * FROM emp", "E10 memory"),
            asked(1016, "clock: 7", "E1 syntax at 0"), asked(1018, "1: BEGIN", "E1 syntax at 0"), ">x 1020 424547494e0d\n< 1021 begun 0\n",
            asked(1022, long, "rows 0"), asked(1024, "COMMIT", "E13 journal full"), asked(1026, "COMMIT", "committed nothing")]))
        self.assertEqual([line for line in lines if len(line) < 100], [
            "1: \ufffd", "1:   COMMIT x", "SPLIT: KEY emp (1)", " migrate :", "1:SELECT * FROM emp WHERE no=1;", "1: clock: 7",
            "1: 1: BEGIN", "1: BEGIN\r", "1: COMMIT"])
        for line, reply in (("ROLLBACK", "E10 memory"), ("ROLLBACK", "E13 journal full"), ("INSERT INTO emp VALUES (1, 'x')", "E13 journal full")):
            self.assertEqual(self.checked(asked(1000, line, reply))[0], NOT_EXPLAINED)

    def test_words_and_transcripts_that_are_refused_are_told(self):
        self.assertEqual(self.checked("> 10 -- x\n")[0], REFUSED)
        with self.assertRaises(SystemExit) as told, contextlib.redirect_stderr(io.StringIO()):
            check_run.main([])
        self.assertEqual(told.exception.code, 2)
        for words, wanted in ((("--schema", self.file("x", "CREATE")), "the program ended with status 1: schema"),
                              (("--schema", "/nowhere"), "the program ended with status 1: read fault"),
                              (("--program", "/nowhere/tsvd"), "No such file")):
            status, told = self.checked(FIRST, words=words)
            self.assertEqual((status, wanted in told), (REFUSED, True), told)
        status, told = self.checked("")
        self.assertEqual((status, told), (EXPLAINED, "one order explains all replies: 0 of 1 session, 0 commits, 0 conflicts; 1 transcript "
                                                     "without an end\n"))


@needs_program
class Served(Files):
    """A server of the storm's tables, by whose transcripts `check-run` is tried."""

    def setUp(self):
        super().setUp()
        self.schema = self.file("tables.schema", SCHEMA)
        self.paths = []

    def kept(self, port):
        """Opens a session that keeps a transcript."""
        self.paths.append(str(self.folder / f"kept{len(self.paths)}"))
        session = tsvd.Session(port, timeout=LONGEST, transcript=Transcript(self.paths[-1], port))
        self.addCleanup(session.end)
        return session

    def checked(self):
        """Checks what was kept, and returns the status and what was told."""
        with contextlib.redirect_stdout(io.StringIO()) as told:
            status = check_run.main(["--schema", self.schema, *self.paths])
        return status, told.getvalue()

    def test_one_order_explains_a_run_of_many_clients(self):
        with Server(["--schema", self.schema], 5) as server:
            self.paths = storm(server.port, str(self.folder), 4, 60, 7)
        status, told = self.checked()
        self.assertEqual((status, told.split(":")[0]), (EXPLAINED, "one order explains all replies"), told)

    def test_a_server_that_shows_own_writes_to_others_is_found(self):
        with Server(["--schema", self.schema], 2) as server, FaultyServer(server.port, OwnWritesAreSeenByOthers()) as front:
            first, second = self.kept(front.port), self.kept(front.port)
            for line in ("BEGIN", "INSERT INTO thing VALUES (1, 2, 'x')"):
                first.ask(line)
            self.assertEqual(second.ask("SELECT * FROM thing"), ["rows 1", "(1, 2, 'x')"])
            first.ask("ROLLBACK")
        status, told = self.checked()
        self.assertEqual((status, told.split("\n")[0]), (NOT_EXPLAINED, f"no order explains this reply: {self.paths[1]}, line 2"))

    def test_a_client_that_is_cut_off_behind_its_commit_is_checked(self):
        with Server(["--schema", self.schema], 2) as server:
            session = self.kept(server.port)
            for line in ("BEGIN", "INSERT INTO thing VALUES (1, 2, 'x')"):
                session.ask(line)
            cut_off(session)
            self.paths.append(str(self.folder / "audit"))
            audit(server.port, self.paths[-1])
        status, told = self.checked()
        self.assertEqual((status, "1 COMMIT without a reply, of which" in told), (EXPLAINED, True), told)
