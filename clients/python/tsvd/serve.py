"""Keeps a server going: `python3 -m tsvd serve --state FOLDER -- --listen PORT`."""

from __future__ import annotations

import argparse
import pathlib
import re
import shutil
from typing import List, Sequence, Tuple

from .caretaker import Care
from .errors import OperationalError
from .program import program_path
from .running import Program
from .state_folder import StateFolder
from .supervisor import Supervisor

SECONDS = {"s": 1, "m": 60, "h": 3600, "d": 86400}
TIME = re.compile(r"([1-9][0-9]*)([smhd])", re.A)
COUNTS = ("--sessions", "--connections")

REFUSED = {
    "--after": "is what serve gives: FOLDER/state.script",
    "--dump": "is what serve gives: FOLDER/state.script",
    "--schema": "stands before --, since backups need it too",
    "--script": "is for a run without a server",
    "--load": "would load the rows again at each start: use python3 -m tsvd load FILE --port PORT",
    "--help": "starts no server", "-h": "starts no server", "--version": "starts no server", "-V": "starts no server",
}
EPILOG = """Standard output is the program's. SIGTERM and Ctrl-C are the stop: the server ends and writes its dump,
FOLDER/state.script, from which the next start goes on. A second signal ends it at once, without a dump. A run that ends by
itself, as one with a full journal does, is followed by the next. Exit status: 0 stopped, with the dump; 1 a fault of the
folder or of serve; 2 wrong words; else that of the program, 128 and the signal's number where a signal ended it."""


def seconds_of(text: str) -> float:
    """Returns the seconds of a time such as 30s, 15m, 1h or 1d."""
    found = TIME.fullmatch(text)
    if not found:
        raise argparse.ArgumentTypeError(f"not a time such as 30s, 15m, 1h or 1d: {text!r}")
    return float(int(found.group(1)) * SECONDS[found.group(2)])


def count_of(text: str) -> int:
    """Returns a number from 1 on."""
    if not text.isdecimal() or int(text) == 0:
        raise argparse.ArgumentTypeError(f"not a number from 1 on: {text!r}")
    return int(text)


def parts(words: Sequence[str]) -> Tuple[List[str], List[str]]:
    """Splits words at the first `--`: those of serve, and those of the program."""
    listed = list(words)
    at = listed.index("--") if "--" in listed else len(listed)
    return listed[:at], listed[at + 1:]


def value_of(words: Sequence[str], option: str) -> str:
    """Returns the value of an option among the program's words, or an empty text."""
    for place, word in enumerate(words):
        name, sign, value = word.partition("=")
        if name == option:
            return value if sign else "".join(words[place + 1:place + 2])
    return ""


def fault_of(words: Sequence[str]) -> str:
    """Returns what is wrong with the program's words, or an empty text."""
    for word in words:
        cause = REFUSED.get(word.partition("=")[0])
        if cause:
            return f"{word} {cause}"
    if not value_of(words, "--listen"):
        return "give the program's words behind --, --listen PORT among them"
    if value_of(words, "--connections").strip("0"):
        return "--connections N has no stop before N connections have come: give --connections 0, or leave it out"
    return ""


def parser() -> argparse.ArgumentParser:
    """Makes the parser of the words before `--`."""
    made = argparse.ArgumentParser(
        prog="python3 -m tsvd serve", epilog=EPILOG, usage="%(prog)s --state FOLDER [--schema FILE] [--keep NUMBER] "
        "[--backup-every TIME] [--program PATH] -- --listen PORT [OPTIONS OF tsvd]",
        description="Starts tsvd over the history of a folder, and again with its dump when a run has ended.")
    made.add_argument("--state", required=True, metavar="FOLDER",
                      help="the folder of the history; it is made where it is not there")
    made.add_argument("--schema", metavar="FILE", help="the schema file; without it the sample table emp (no, name)")
    made.add_argument("--keep", type=count_of, default=7, metavar="NUMBER",
                      help="how many dumps, in FOLDER/dumps, and backups are kept (7)")
    made.add_argument("--backup-every", type=seconds_of, metavar="TIME",
                      help="takes a backup from the running server into FOLDER/backups, each 30s, 15m, 1h or 1d; "
                      "without it none")
    made.add_argument("--program", metavar="PATH", help="the program tsvd; without it the one that other commands start")
    return made


def main(words: Sequence[str]) -> int:
    """Runs `serve --state FOLDER .. -- --listen PORT ..`."""
    own, theirs = parts(words)
    made = parser()
    given = made.parse_args(own)
    fault = fault_of(theirs)
    if fault:
        made.error(fault)
    if given.schema:
        pathlib.Path(given.schema).read_bytes()
    path = shutil.which(given.program or program_path())
    if not path:
        raise OperationalError(f"the program is not found: {given.program or program_path()}")
    if not any(word.partition("=")[0] in COUNTS for word in theirs):
        theirs += ["--connections", "0"]
    program = Program(path, given.schema, theirs)
    return Supervisor(program, StateFolder(given.state), Care(given.keep, given.backup_every)).supervise()
