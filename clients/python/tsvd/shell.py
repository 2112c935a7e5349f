"""The shell: `python3 -m tsvd shell PORT`, or with a server of its own."""

from __future__ import annotations

import argparse
import os
import pathlib
import sys
from typing import Callable, Dict, Iterable, Iterator, List, Optional, Sequence, Tuple

from .connection import Connection, connect
from .cursor import Cursor, Row
from .days import Days, read_days
from .errors import Error
from .explain import fault_lines
from .instants import date_text
from .layout import table_lines, visible
from .lines import encoded, has_reply
from .literals import replace_dates
from .program import Server
from .schema import schema_of
from .shell_commands import is_command, run_command

MOST_LINES = 1000
GREETING = "tsvd shell: \\? for help, \\q to end. Nothing is kept when the server ends."
WORDS = ("AND AS BEGIN BETWEEN COMMIT DELETE FALSE FOR FROM INSERT INTO MIGRATE NULL OF ROLLBACK SELECT SET "
         "SPLIT SYSTEM_TIME TO TRANSACTION TRUE UPDATE VALUES WHERE").split()


class Shell:
    """Runs typed lines over a connection and shows their replies."""

    def __init__(self, connection: Connection) -> None:
        self.connection = connection
        self.with_dates = True

    def prompt(self) -> str:
        """Returns the prompt, with a star while a transaction is open."""
        return "tsvd*> " if self.connection.in_transaction else "tsvd> "

    def cursor(self) -> Cursor:
        """Makes a cursor over the connection."""
        return self.connection.cursor()

    def print_lines(self, lines: Iterable[str]) -> None:
        """Prints lines."""
        for line in lines:
            print(line)

    def show(self, cursor: Cursor) -> None:
        """Prints the reply to a statement, as a table if it has rows."""
        if cursor.description is None:
            print(self.reply_text(cursor.reply))
        else:
            self.show_rows(cursor, cursor.fetchall())

    def reply_text(self, reply: str) -> str:
        """Returns a reply, with the date of the instant at its end, if any."""
        instant = reply.split()[-1]
        date = date_text(int(instant)) if self.with_dates and instant.isdecimal() else None
        return f"{reply} ({date})" if date else visible(reply)

    def show_rows(self, cursor: Cursor, rows: Sequence[Row]) -> None:
        """Prints rows under their column names."""
        names = [column[0] for column in cursor.description or []]
        self.print_lines(table_lines(names, rows, cursor.has_periods, self.with_dates))

    def take(self, line: str) -> bool:
        """Runs a line, and returns whether the shell continues."""
        line = line.strip(" \t\r")
        try:
            if is_command(line):
                return run_command(self, line)
            if has_reply(encoded(line)):
                self.show(self.cursor().ask(replace_dates(line, self.connection.days)))
        except Error as fault:
            self.print_lines(fault_lines(fault, self.connection.schema))
        return self.connection.session.is_open

    def run(self, lines: Iterator[str]) -> int:
        """Runs lines to the end, and returns the exit status."""
        try:
            for line in lines:
                if not self.take(line):
                    break
        except KeyboardInterrupt:
            print("interrupted while reading a reply; the session has ended")
        if not self.connection.session.is_open:
            return 1
        if self.connection.in_transaction:
            print("the open transaction is dropped")
        return 0


def typed_lines(shell: Shell) -> Iterator[str]:
    """Yields the lines typed at the prompt, until Ctrl-D; Ctrl-C discards a line."""
    while True:
        try:
            yield input(shell.prompt())
        except EOFError:
            print()
            return
        except KeyboardInterrupt:
            print("^C")


def piped_lines() -> Iterator[str]:
    """Yields the lines of standard input; only line feeds end a line."""
    for line in sys.stdin.buffer:
        yield line.decode("utf-8", "surrogateescape").rstrip("\n")


def history_file() -> pathlib.Path:
    """Returns the file of typed lines: TSVD_HISTORY, or a file in the home folder."""
    return pathlib.Path(os.environ.get("TSVD_HISTORY") or pathlib.Path.home() / ".tsvd_history")


def completions(shell: Shell) -> List[str]:
    """Returns the words offered for completion."""
    tables = list(shell.connection.schema.tables.values())
    return WORDS + [table.name for table in tables] + [column.name for table in tables for column in table.columns]


def edit_lines(shell: Shell) -> None:
    """Enables line editing, history and completion, if this Python has readline."""
    try:
        import atexit
        import readline
    except ImportError:
        return
    words = completions(shell)

    def complete(text: str, turn: int) -> Optional[str]:
        found = [word for word in words if text and word.lower().startswith(text.lower())]
        return found[turn] + " " if turn < len(found) else None

    readline.set_completer(complete)
    readline.parse_and_bind("tab: complete")
    readline.set_history_length(MOST_LINES)
    try:
        readline.read_history_file(str(history_file()))
    except OSError:
        pass
    atexit.register(keep_history, readline.write_history_file)


def keep_history(write: Callable[[str], None]) -> None:
    """Writes the typed lines to their file, if possible."""
    try:
        write(str(history_file()))
    except OSError:
        pass


def run_shell(connection: Connection) -> int:
    """Runs a shell over a connection and returns the exit status; without a terminal it shows no prompt."""
    shell = Shell(connection)
    try:
        if not sys.stdin.isatty():
            return shell.run(piped_lines())
        edit_lines(shell)
        print(GREETING)
        return shell.run(typed_lines(shell))
    finally:
        connection.close()


def schema_text(path: Optional[str]) -> Optional[str]:
    """Reads a schema file, if one is given."""
    return pathlib.Path(path).read_text(encoding="utf-8") if path else None


def option_of(options: Sequence[str], name: str) -> Optional[str]:
    """Returns the value of an option in a command line, or None."""
    for word, behind in zip(options, [*options[1:], ""]):
        if word == name:
            return behind
        if word.startswith(name + "="):
            return word[len(name) + 1:]
    return None


def own_server(options: Sequence[str], days: Dict[str, str]) -> int:
    """Starts a server, runs a shell over it, and prints the server's output."""
    schema = schema_text(option_of(options, "--schema"))
    Days(days, schema_of(schema))
    with Server(options) as server:
        print("".join(server.before), end="", flush=True)
        status = run_shell(connect(server.port, schema, days=days))
        print(server.end(), end="")
        return status or server.process.returncode


def split_words(words: Sequence[str]) -> Tuple[List[str], Optional[List[str]]]:
    """Splits the command line at `--`, which the options of a new server follow."""
    if "--" not in words:
        return list(words), None
    at = list(words).index("--")
    return list(words[:at]), list(words[at + 1:])


def main(words: Sequence[str]) -> int:
    """Runs `shell PORT [--schema FILE] [--days NAME=FORM]` or `shell [--days NAME=FORM] -- OPTIONS`."""
    own, options = split_words(words)
    parser = argparse.ArgumentParser(prog="python3 -m tsvd shell", usage="%(prog)s [--days NAME=FORM] "
                                     "(PORT [--schema FILE] | -- OPTIONS)")
    parser.add_argument("port", type=int, nargs="?", help="the port of a running server")
    parser.add_argument("--schema", help="the schema file of the server")
    parser.add_argument("--days", action="append", metavar="NAME=FORM", help="how a table or a column holds dates, "
                        "such as tariff=yyyymmdd or emp.since=yyyy-mm-dd")
    given = parser.parse_args(own)
    if (given.port is None) == (options is None):
        parser.error("give a port, or -- and the options of a new server")
    if options is not None:
        return own_server(options, read_days(given.days))
    return run_shell(connect(given.port, schema_text(given.schema), days=read_days(given.days)))
