"""Checks a run by the transcripts of its sessions: whether one history, and one order, explains every reply."""

from __future__ import annotations

import argparse
import contextlib
import os
import subprocess
import sys
import tempfile
from typing import Dict, Iterator, List, NamedTuple, Optional, Sequence

from .choices import Choices
from .errors import DataError, Error
from .layout import visible
from .program import program_path
from .schema import schema_file
from .script_run import ScriptRun
from .serial_order import Entry, Limits, SerialOrder
from .served_steps import COMMITTED, CONFLICT, LOST, Steps, broken_in, steps_of
from .told_instants import Twice, audited_to, commits_of, unexplained
from .transcript_reading import Exchange, read_transcripts
from .wrong import Wrong, text_of

EXPLAINED, NOT_EXPLAINED, REFUSED, NOT_DECIDED = 0, 1, 2, 3
# Ways to place lost commits that are tried before it is said that nothing is decided.
MOST_WAYS = 64
SHOWN_LINES, SHOWN_BYTES = 4, 200
STATUSES = """exit status: 0 one order explains every reply; 1 no order explains the reply that is shown; 2 words or files are
refused, or the program is not found; 3 not decided, for commits whose replies were not read."""


class Checked(NamedTuple):
    """Holds the order that was found, or the first reply that none explains, and whether all ways were tried."""

    order: SerialOrder
    wrong: Optional[Wrong]
    is_decided: bool


def words_of(given: argparse.Namespace) -> List[str]:
    """Returns the command that begins as the server did."""
    schema = ["--schema", given.schema] if given.schema else []
    after = ["--after", given.after] if given.after else []
    load = ["--load", given.load] if given.load else []
    return [given.program or program_path(), *schema, *after, *load]


def base_of(program: ScriptRun) -> int:
    """Returns the last instant before the run."""
    begun, _ = program.ask([b"1: BEGIN", b"1: ROLLBACK"])
    return int(begun[0].split()[1])


def place(given: argparse.Namespace, runs: Sequence[Steps], choices: Choices) -> Checked:
    """Goes through the history once, with one choice of what became of lost commits."""
    commits = commits_of(runs)
    with ScriptRun(words_of(given), 1 if given.load else 0) as program:
        base = base_of(program)
        tables = schema_file(given.schema).tables
        limits = Limits(int(given.slack * 1_000_000), base, audited_to(runs, tables))
        order = SerialOrder(runs, commits, unexplained(runs, commits, base), program, choices, limits)
        try:
            order.place_all()
        except Wrong as wrong:
            return Checked(order, wrong, wrong.is_certain or not order.gave_up_lost)
    return Checked(order, None, True)


def find_order(given: argparse.Namespace, runs: Sequence[Steps]) -> Checked:
    """Looks for an order, by another choice about lost commits where one does not lead to the end."""
    choices = Choices()
    found: List[Checked] = []
    is_decided = False
    while len(found) < MOST_WAYS and not is_decided:
        found.append(place(given, runs, choices))
        wrong = found[-1].wrong
        if not wrong or wrong.is_certain:
            return found[-1]
        is_decided = not choices.change()
    furthest = max(found, key=lambda it: len(it.order.script))
    return furthest._replace(is_decided=is_decided and all(it.is_decided for it in found))


def script_lines(runs: Sequence[Steps], script: Sequence[Entry]) -> Iterator[bytes]:
    """Yields the history as a script, with a comment where another session's lines begin."""
    places: Dict[str, int] = {}
    for number, run in enumerate(runs, 1):
        places[run.kept.path] = number
        yield f"-- {number} is {visible(run.kept.path)}".encode("utf-8", "replace")
    last = 0
    for entry in script:
        number = places[entry.exchange.path] if entry.exchange else last
        if entry.exchange and number != last:
            yield f"-- {number}, from line {entry.exchange.number} on".encode("ascii")
            last = number
        yield entry.text


@contextlib.contextmanager
def script_file(path: Optional[str], lines: Iterator[bytes]) -> Iterator[str]:
    """Writes the script to a file, or to one that is removed again."""
    with tempfile.TemporaryDirectory() as folder:
        name = path or os.path.join(folder, "history.script")
        with open(name, "wb") as file:
            file.writelines(line + b"\n" for line in lines)
        yield name


def run_over(given: argparse.Namespace, script: Sequence[Entry], path: str) -> Optional[Wrong]:
    """Runs the program over the script, and compares all that it writes."""
    ran = subprocess.run([*words_of(given), "--script", path], stdin=subprocess.DEVNULL, stdout=subprocess.PIPE, check=False)
    lines = ran.stdout.split(b"\n")
    at = 1 if given.load else 0
    for entry in script:
        got = lines[at:at + len(entry.reply)]
        at += len(entry.reply)
        if got != list(entry.reply):
            exchange = entry.exchange or Exchange(path, 0, entry.text, 0)
            return Wrong(exchange, text_of(got), "the program answers the script in another way than line by line")
    if ran.returncode != 0 or lines[at:] != [b""]:
        raise DataError(f"the program ended with status {ran.returncode} over the script")
    return None


def shortened(text: str) -> str:
    """Returns a reply for a message, without most of its rows."""
    lines = [visible(line)[:SHOWN_BYTES] for line in text.split("\n")]
    more = [f".. and {len(lines) - SHOWN_LINES} more lines"] if len(lines) > SHOWN_LINES + 1 else []
    kept = lines[:SHOWN_LINES] if more else lines
    return "\n            ".join([*kept, *more])


def first_difference(expected: str, got: str) -> str:
    """Says which row is the first that differs, where a message would not show it."""
    wanted, rows = expected.split("\n"), got.split("\n")
    at = next((at for at, (one, other) in enumerate(zip(wanted, rows)) if one != other), min(len(wanted), len(rows)))
    if at == 0 or max(len(wanted), len(rows)) <= SHOWN_LINES + 1:
        return ""
    one, other = (visible(lines[at])[:SHOWN_BYTES] if at < len(lines) else "no more rows" for lines in (wanted, rows))
    return f"\n  row {at}:    {one}\n  and not:  {other}"


def report(wrong: Wrong, is_decided: bool) -> str:
    """Returns the message for the first reply that is not explained."""
    exchange = wrong.exchange
    got = exchange.broken or text_of(exchange.reply)
    head = "no order explains this reply" if is_decided else "not decided: the order that was found goes as far as this reply"
    return (f"{head}: {exchange.place()}\n"
            f"  sent:     {visible(exchange.line.decode('utf-8', 'replace'))[:SHOWN_BYTES]}\n"
            f"  expected: {shortened(wrong.expected)}\n"
            f"  got:      {shortened(got)}{first_difference(wrong.expected, got)}\n"
            f"  because:  {wrong.why}")


def count(number: int, what: str) -> str:
    """Returns a number of things."""
    return f"{number} {what}{'s' * (number != 1)}"


def summary(runs: Sequence[Steps], order: SerialOrder) -> str:
    """Returns the line for a run that is explained, and what was not compared."""
    kinds = [step.kind for run in runs for step in run.steps]
    refused = sum(len(run.refused) for run in runs)
    replies = sum(bool(exchange.reply) for run in runs for exchange in run.kept.exchanges) - refused - order.uncompared
    notes = []
    if LOST in kinds:
        notes.append(f"{count(kinds.count(LOST), 'COMMIT')} without a reply, of which {order.lost_found} took effect")
    if refused:
        notes.append(f"{count(refused, 'line')} refused for memory or a full journal")
    if order.uncompared:
        notes.append(f"{count(order.uncompared, 'line')} not compared, too long for a script")
    open_ends = sum(not run.kept.has_end for run in runs)
    if open_ends:
        notes.append(f"{count(open_ends, 'transcript')} without an end")
    told = (f"one order explains all replies: {replies} of {count(len(runs), 'session')}, "
            f"{count(kinds.count(COMMITTED), 'commit')}, {count(kinds.count(CONFLICT), 'conflict')}")
    return "; ".join([told, *notes])


def first_broken(runs: Sequence[Steps]) -> Optional[Wrong]:
    """Returns the fault of a line that was answered with what is not a reply."""
    found = [exchange for exchange in (broken_in(run.kept) for run in runs) if exchange]
    return Wrong(found[0], "a reply", "this is not one") if found else None


def check(given: argparse.Namespace) -> int:
    """Checks the run, and prints what was found."""
    runs = [steps_of(kept) for kept in read_transcripts(given.transcripts)]
    try:
        wrong = first_broken(runs)
        found = None if wrong else find_order(given, runs)
    except Twice as twice:
        wrong, found = Wrong(twice.second, "an instant of its own", f"{twice.first.place()} was answered with it too"), None
    if found:
        with script_file(given.write, script_lines(runs, found.order.script)) as path:
            wrong = found.wrong or run_over(given, found.order.script, path)
    if wrong:
        is_decided = found is None or found.is_decided
        print(report(wrong, is_decided))
        return NOT_EXPLAINED if is_decided else NOT_DECIDED
    assert found
    print(summary(runs, found.order))
    return EXPLAINED


def main(words: Sequence[str]) -> int:
    """Runs `check-run [OPTIONS] TRANSCRIPT..`."""
    parser = argparse.ArgumentParser(prog="python3 -m tsvd check-run", epilog=STATUSES)
    parser.add_argument("transcripts", nargs="+", metavar="TRANSCRIPT", help="the transcripts of all sessions of the run")
    parser.add_argument("--schema", metavar="FILE", help="the server's schema; without it the sample table emp (no, name)")
    parser.add_argument("--after", metavar="FILE", help="the script that the server went on from")
    parser.add_argument("--load", metavar="TABLE=FILE", help="the table that the server loaded")
    parser.add_argument("--write", metavar="FILE", help="the file for the history, as a script")
    parser.add_argument("--program", metavar="PATH", help="the program; without it TSVD_PROGRAM, or the one that is found")
    parser.add_argument("--slack", type=float, default=1.0, metavar="SECONDS",
                        help="how far the clocks of server and client may seem to differ (1)")
    given = parser.parse_args(words)
    try:
        return check(given)
    except (Error, OSError) as fault:
        print(f"check-run: {fault}", file=sys.stderr)
        return REFUSED
