"""The one order of a run: each step is placed at an instant of the history at which it had its reply.

See README.md, "check-run". The history goes from commit to commit by their instants. At each instant everything is placed
that can be: a BEGIN at its snapshot, a SELECT with no transaction open where the program gives the same answer, a refused
COMMIT behind the instant that it names. A step is placed only when each step is whose reply had been read before its line
was sent. Whatever can be placed is placed at the first instant at which it can, so that it holds up the others as little as
possible, and no choice but those about lost commits is taken back.
"""

from __future__ import annotations

from typing import Dict, List, NamedTuple, Optional, Sequence, Tuple

from .choices import Choices
from .limits import GREATEST_INSTANT
from .script_run import ScriptRun, own_refusal, script_line, served
from .served_steps import BEGIN, CLOCK_END, COMMITTED, CONFLICT, LINE, LOST, READ, Step, Steps
from .session_numbers import SessionNumbers
from .told_instants import Mention
from .transcript_reading import Exchange
from .walk import Walk
from .wrong import Wrong, seconds, text_of

NEVER = 2 ** 63


class Entry(NamedTuple):
    """Holds a line of the history's script and its reply there, and the line that was served, if there is one."""

    text: bytes
    reply: Sequence[bytes]
    exchange: Optional[Exchange] = None


class Ask(NamedTuple):
    """Holds a line that is asked of the program for a session, and what its reply rests on.

    It has no text where no script has the line, and no exchange where no session sent it.
    """

    session: Walk
    exchange: Optional[Exchange]
    text: bytes
    shift: int
    why: str
    is_certain: bool


class Limits(NamedTuple):
    """Holds how far a clock may seem to be off, in microseconds, and two instants.

    They are the last one before the run, and the one up to which replies show all versions.
    """

    slack: int
    base: int
    audited: int


class SerialOrder:
    """Places the steps of all sessions."""

    def __init__(self, runs: Sequence[Steps], commits: Dict[int, Exchange], mentions: Dict[int, Mention],
                 program: ScriptRun, choices: Choices, limits: Limits) -> None:
        self.sessions = [Walk(index, run) for index, run in enumerate(runs)]
        self.commits, self.mentions = commits, mentions
        self.program, self.choices, self.limits = program, choices, limits
        self.numbers = SessionNumbers(len(runs))
        self.last = limits.base
        self.script: List[Entry] = []
        self.uncompared = 0
        self.lost_found = 0
        # Whether a lost commit was not tried in each place that it can have.
        self.gave_up_lost = False
        self.by_exchange = {id(step.exchange): session for session in self.sessions for step in session.steps}

    def place_all(self) -> None:
        """Places all steps, or raises Wrong at the first that no order explains."""
        for instant in sorted({*self.commits, *self.mentions}):
            self.fill()
            self.place_hidden(instant)
            if instant in self.commits:
                self.place_commit(instant)
            else:
                self.place_lost(instant)
        self.fill()
        self.place_hidden(NEVER)
        self.check_end()
        self.drop_lost()

    # What is placed between two commits.

    def bound(self) -> int:
        """Returns when the first reply was read of those that are not placed; what was sent later has to wait."""
        return min((step.exchange.received for step in self.fronts() if step.kind != LOST), default=NEVER)

    def fronts(self) -> List[Step]:
        """Returns the next step of each session that has one."""
        return [session.steps[session.at] for session in self.sessions if session.at < len(session.steps)]

    def fill(self) -> None:
        """Places all that can be at the last instant."""
        while self.place_passing() or self.place_begins():
            pass

    def place_passing(self) -> bool:
        """Places what leaves no more transactions open than before; returns whether anything was placed."""
        bound = self.bound()
        asks: List[Ask] = []
        for session in self.sessions:
            step = session.front()
            if step and (step.kind == LINE or step.exchange.sent <= bound):
                asks.extend(self.passing_asks(session, step))
        return self.take_all(asks)

    def passing_asks(self, session: Walk, step: Step) -> List[Ask]:
        """Returns what is to be asked for a step that leaves no transaction open, if it can be placed here."""
        number = session.number or self.numbers.passing(session.index)
        if not number:
            return []
        if step.kind == LINE:
            return self.asks_of(session, session.lines_from(session.at), number)
        if step.kind == READ and session.asked_at != self.last:
            return self.asks_of(session, [step], number)
        if step.kind == CONFLICT and step.instant <= self.last or step.kind == CLOCK_END and self.last == GREATEST_INSTANT:
            return self.asks_of(session, [step], number)
        if step.kind == BEGIN and self.is_at_snapshot(step) and session.ends_by_itself():
            return self.asks_of(session, [step, *session.lines_from(session.at + 1)], number)
        return []

    def is_at_snapshot(self, step: Step) -> bool:
        """Returns whether the last instant is the snapshot of a BEGIN; raises where that is over."""
        if step.instant < self.last:
            anew = ", or the server began anew, and these are transcripts of two runs" if step.instant == self.limits.base else ""
            raise Wrong(step.exchange, f"begun {self.last} or later",
                        f"what was told before this line was sent is later than {step.instant}{anew}")
        return step.instant == self.last

    def place_begins(self) -> bool:
        """Places the BEGINs of transactions that stay open; with numbers to look after, one at a time."""
        bound = self.bound()
        asks: List[Ask] = []
        for session in self.sessions:
            step = session.front()
            if not step or step.kind != BEGIN or step.exchange.sent > bound or not self.is_at_snapshot(step):
                continue
            session.number = self.numbers.take(session.index) or self.number_of_lost(session.index)
            session.snapshot = step.instant
            if session.number:
                asks.extend(self.asks_of(session, [step, *session.lines_from(session.at + 1)], session.number))
            if asks and not self.numbers.are_fixed:
                break
        return self.take_all(asks)

    def number_of_lost(self, index: int) -> int:
        """Ends the lost transaction whose COMMIT was sent first, and takes its number, or returns 0."""
        lost = [session for session in self.sessions if session.number and session.is_lost()]
        if not lost:
            return 0
        self.drop(min(lost, key=lambda it: it.steps[it.at].exchange.sent))
        self.gave_up_lost = True
        return self.numbers.take(index)

    def asks_of(self, session: Walk, steps: Sequence[Step], number: int) -> List[Ask]:
        """Returns the lines of steps as a script's session has them; one that no script has keeps its text empty."""
        why, is_certain = self.why(session, steps[0]), steps[0].kind == LINE
        asks = []
        for step in steps:
            line = script_line(step.exchange, number)
            asks.append(Ask(session, step.exchange, line.text if line else b"", line.shift if line else 0, why, is_certain))
        if steps[0].kind == BEGIN and session.is_dropped():
            asks.append(Ask(session, None, f"{number}: ROLLBACK".encode("ascii"), 0, why, False))
        return asks

    def why(self, session: Walk, step: Step) -> str:
        """Says what the replies to a step and the lines behind it rest on."""
        if step.kind == BEGIN:
            return f"the transaction began at the snapshot {step.instant}"
        if step.kind == LINE:
            return "no transaction is open, and the reply is the same at every instant"
        return f"the transaction began at the snapshot {session.snapshot}, and the last commit before this line is {self.last}"

    def take_all(self, asks: Sequence[Ask]) -> bool:
        """Asks the program, and takes what it answers; returns whether anything was placed."""
        replies = iter(self.program.ask([ask.text for ask in asks if ask.text]))
        placed = [self.take(ask, next(replies) if ask.text else None) for ask in asks]
        return any(placed)

    def take(self, ask: Ask, reply: Optional[List[bytes]]) -> bool:
        """Takes the program's reply to a line: the step is placed if it is the one that was served."""
        if ask.exchange is None:
            self.script.append(Entry(ask.text, [b"rolled back"]))
            return True
        step = ask.session.steps[ask.session.at]
        if reply is None:
            self.take_own(ask.exchange)
        elif served(reply, ask.shift) == ask.exchange.reply:
            self.script.append(Entry(ask.text, reply, ask.exchange))
        elif step.kind == READ:
            return self.wait(ask.session, reply)
        else:
            raise Wrong(ask.exchange, text_of(served(reply, ask.shift)), ask.why, ask.is_certain)
        ask.session.at += 1
        ask.session.asked_at = ask.session.asked_from = -1
        if step.kind in (CONFLICT, CLOCK_END):
            self.give_back(ask.session)
        return True

    def take_own(self, exchange: Exchange) -> None:
        """Takes a line that no script has: its reply is known, or it is told that it was not compared."""
        expected = own_refusal(exchange.line)
        if expected is None:
            self.uncompared += 1
        elif [expected] != exchange.reply:
            raise Wrong(exchange, expected.decode("ascii"), "the line is not of the grammar of served lines", True)

    def wait(self, session: Walk, reply: List[bytes]) -> bool:
        """Leaves a SELECT for a later instant."""
        if session.asked_from < 0:
            session.asked_from = self.last
        session.asked_at, session.answer = self.last, reply
        return False

    def give_back(self, session: Walk) -> None:
        """Takes the number of a session whose transaction has ended."""
        self.numbers.give_back(session.number)
        session.number = 0

    # Commits.

    def place_commit(self, instant: int) -> None:
        """Places the commit with the next instant."""
        exchange = self.commits[instant]
        session = self.by_exchange[id(exchange)]
        self.check_turn(session, exchange, instant)
        self.check_clock(exchange, instant)
        why = self.why(session, session.steps[session.at])
        reply = self.commit_at(session, exchange, instant)
        if reply != exchange.reply:
            raise Wrong(exchange, text_of(reply), why)
        session.at += 1
        self.give_back(session)
        self.last = instant

    def commit_at(self, session: Walk, exchange: Exchange, instant: int) -> List[bytes]:
        """Commits at an instant, and returns the reply."""
        line = script_line(exchange, session.number)
        assert line
        clock = f"clock: {instant}".encode("ascii")
        reply = self.program.ask([clock, line.text])[1]
        self.script += [Entry(clock, [b"ok"]), Entry(line.text, reply, exchange)]
        return reply

    def check_turn(self, session: Walk, exchange: Exchange, instant: int) -> None:
        """Raises where something that comes before a commit cannot be placed before it."""
        if instant <= self.last:
            raise Wrong(exchange, f"an instant above {self.last}", "the history had come so far when the run began")
        bound = self.bound()
        front = session.steps[session.at]
        is_own = front.exchange is not exchange and front.exchange.sent <= bound
        if front.exchange is exchange and exchange.sent <= bound:
            return
        blocking = session if is_own else self.first_read(bound)
        other = blocking.steps[blocking.at]
        if other.kind in (BEGIN, CONFLICT) and other.instant == instant:
            raise Wrong(other.exchange, f"an instant up to {self.last}",
                        f"the COMMIT of {instant}, at {exchange.place()}, was sent after this reply was read")
        if other.kind == BEGIN and other.instant > self.last or other.kind in (COMMITTED, CONFLICT):
            raise Wrong(exchange, f"an instant above {other.instant}", f"the instant {other.instant} was told before this line "
                        f"was sent, in the reply to {other.exchange.place()}")
        comes = "is of the same session, behind it" if is_own else "was sent after this reply was read"
        raise self.stuck(blocking, f"the next commit, of {instant}, {comes}")

    def first_read(self, bound: int) -> Walk:
        """Returns the session whose reply was read first of those that are not placed."""
        return next(it for it in self.sessions if it.at < len(it.steps) and it.steps[it.at].exchange.received == bound
                    and it.steps[it.at].kind != LOST)

    def check_clock(self, exchange: Exchange, instant: int) -> None:
        """Raises where an instant is no reading of the clock between a COMMIT and its reply, and not the one after the last."""
        least, greatest = exchange.sent - self.limits.slack, exchange.received + self.limits.slack
        why = ("a commit's instant is the clock's reading between COMMIT and its reply, or the one after the last instant if "
               "that is later; this one is")
        if instant < least:
            raise Wrong(exchange, f"an instant of {least} or later", f"{why} {seconds(least - instant)} before that", True)
        if instant > greatest and instant != self.last + 1:
            raise Wrong(exchange, f"an instant up to {greatest}, or {self.last + 1}",
                        f"{why} {seconds(instant - greatest)} behind that")

    def stuck(self, session: Walk, why: str) -> Wrong:
        """Makes the fault for a session whose next step cannot be placed in time."""
        step = session.steps[session.at]
        if step.kind == READ and session.asked_from >= 0:
            return Wrong(step.exchange, text_of(session.answer), "no transaction is open; it is the answer at no instant of the "
                         f"history from {session.asked_from} to {session.asked_at}: {why}")
        if step.kind in (READ, BEGIN) and not self.numbers.passing(session.index):
            why = f"64 transactions are open at {self.last}, and a server has no more"
        return Wrong(step.exchange, "another reply", why)

    # Commits whose replies were not read.

    def can_be_lost(self, session: Walk, instant: int) -> bool:
        """Returns whether a lost commit can have an instant, by its snapshot, by real time and by the clock."""
        if not session.is_lost() or not session.number:
            return False
        sent = session.steps[session.at].exchange.sent
        return sent <= self.bound() and session.snapshot < instant and sent - self.limits.slack <= instant

    def place_lost(self, instant: int) -> None:
        """Places a lost commit at an instant that others told of."""
        mention = self.mentions[instant]
        found = [session for session in self.sessions if self.can_be_lost(session, instant) and self.shows(session, mention)]
        if not found:
            raise Wrong(mention.exchange, "instants of the history", f"it tells of the instant {instant}, which no COMMIT was "
                        "answered with, and no lost one fits: a transcript is missing, or is of another run")
        found.sort(key=lambda it: nearness(it.steps[it.at].exchange.sent, instant))
        session = found[self.choices.choose(len(found))]
        if not self.commit_lost(session, instant):
            raise Wrong(mention.exchange, "instants of the history", f"it tells of the instant {instant}, and the COMMIT at "
                        f"{session.steps[session.at].exchange.place()}, whose reply was not read, is refused there")

    def shows(self, session: Walk, mention: Mention) -> bool:
        """Returns whether a transaction leaves the rows that were shown to begin and to end at an instant."""
        for table in sorted({version.table for version in mention.versions}):
            view = self.program.ask([f"{session.number}: SELECT * FROM {table}".encode("utf-8")])[0][1:]
            began = {version.row for version in mention.versions if version.table == table and version.begins}
            ended = {version.row for version in mention.versions if version.table == table and not version.begins}
            if not began <= set(view) or not (ended - began).isdisjoint(view):
                return False
        return True

    def commit_lost(self, session: Walk, instant: int) -> bool:
        """Commits a lost transaction at an instant; returns whether that was taken."""
        reply = self.commit_at(session, session.steps[session.at].exchange, instant)
        if reply[0] != f"committed {instant}".encode("ascii"):
            return False
        session.at += 1
        self.lost_found += 1
        self.give_back(session)
        self.last = instant
        return True

    def place_hidden(self, following: int) -> None:
        """Tries lost commits of which no reply tells the instant, in the first few places that they can have."""
        for session in self.sessions:
            least = max(self.last, self.limits.audited) + 1
            if least >= following or not self.can_be_lost(session, following - 1):
                continue
            if not session.places_left:
                self.gave_up_lost = True
                continue
            session.places_left -= 1
            sent = session.steps[session.at].exchange.sent
            instant = max(least, min(following - 1, sent, GREATEST_INSTANT))
            if self.choices.choose(2) == 1:
                if not self.commit_lost(session, instant):
                    self.drop_refused(session)
                self.fill()

    def drop_refused(self, session: Walk) -> None:
        """Leaves a lost commit out that is refused where it was tried."""
        session.at += 1
        self.give_back(session)

    def drop(self, session: Walk) -> None:
        """Ends a lost transaction that did not commit."""
        text = f"{session.number}: ROLLBACK".encode("ascii")
        self.program.ask([text])
        self.script.append(Entry(text, [b"rolled back"]))
        session.at += 1
        self.give_back(session)

    def drop_lost(self) -> None:
        """Ends the lost transactions of which nothing was seen."""
        for session in self.sessions:
            if session.is_lost():
                self.drop(session)

    # The end.

    def check_end(self) -> None:
        """Raises where a step is left that was placed nowhere."""
        left = [session for session in self.sessions if session.front() and not session.is_lost()]
        if left:
            first = min(left, key=lambda it: it.steps[it.at].exchange.received)
            raise self.stuck(first, "there is no later one")


def nearness(sent: int, instant: int) -> Tuple[bool, int]:
    """Orders lost commits: those that were sent right before an instant come first."""
    return sent > instant, abs(instant - sent)
