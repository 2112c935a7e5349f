"""The commands of the package: python3 -m tsvd COMMAND."""

from __future__ import annotations

import sys
from typing import Callable, Dict, List, Sequence

from . import (backup, check_run, csv_check, extract, health, load, replay, send, serve, shell, side_by_side, stop,
               timeline)
from .errors import Error

COMMANDS: Dict[str, Callable[[Sequence[str]], int]] = {
    "shell": shell.main, "send": send.main, "timeline": timeline.main, "side-by-side": side_by_side.main,
    "check-csv": csv_check.main, "check-run": check_run.main, "load": load.main, "extract": extract.main,
    "backup": backup.main, "replay": replay.main,
    "serve": serve.main, "health": health.main, "stop": stop.main,
}
INTERRUPTED = 130
USAGE = """usage: python3 -m tsvd COMMAND

  shell PORT | shell -- OPTIONS   runs statements at a prompt, with tables and dates
  send PORT                       sends the lines of standard input, one at a time, and prints the replies
  timeline FILE                   turns an export into an HTML page with a bar for each version
  side-by-side SCRIPT             runs a script and prints each line with its reply
  check-csv FILE                  reports the records and fields that a load would refuse, and why
  check-run TRANSCRIPT..          checks what sessions kept: whether one order explains every reply
  load FILE                       loads a CSV file of any length into a server, or makes a script of it
  extract PORT TABLE              writes what was on record as of a date, as CSV or JSON
  backup PORT                     writes all versions of all tables as a script that leaves the same history
  replay TABLE=FILE               makes such a script of CSV files with periods, also those of other systems
  serve --state FOLDER -- OPTIONS keeps a server going, with its history in a folder, until a signal stops it
  health PORT                     asks whether a server answers, without an entry in its journal
  stop PORT                       ends a server by using up its remaining sessions, and waits for its end

COMMAND --help says more."""


def main(words: List[str]) -> int:
    """Runs a command and returns its exit status, 2 for an unknown command."""
    command = COMMANDS.get(words[0]) if words else None
    if not command:
        asked = words in (["--help"], ["-h"])
        print(USAGE, file=sys.stdout if asked else sys.stderr)
        return 0 if asked else 2
    try:
        return command(words[1:])
    except (Error, OSError, UnicodeDecodeError) as fault:
        print(f"{words[0]}: {fault}", file=sys.stderr)
        return 1
    except KeyboardInterrupt:
        print(f"{words[0]}: interrupted", file=sys.stderr)
        return INTERRUPTED


if __name__ == "__main__":
    sys.exit(main(sys.argv[1:]))
