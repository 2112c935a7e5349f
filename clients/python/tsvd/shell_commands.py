"""The commands of the shell, such as \\d."""

from __future__ import annotations

import re
from typing import TYPE_CHECKING, Callable, Dict, Iterator, List

from .cursor import Cursor, Row
from .days import Days
from .errors import ProgrammingError
from .explain import cause_lines
from .instants import DATE, date_text, read_instant, read_moment
from .limits import GREATEST_INSTANT
from .literals import literal, text_literal
from .meanings import Meaning
from .refusals import REFUSALS
from .schema import Column, Table

if TYPE_CHECKING:
    from .shell import Shell

KEY_PART = re.compile(r"'(?:[^']|'')*'|[^\s,]+")
HELP = """\
Type a statement on one line, such as  SELECT * FROM emp FOR SYSTEM_TIME AS OF 2026-04-01
  \\d              lists the tables; \\d TABLE lists columns
  \\history T KEY  lists the versions of a key, as in  \\history policy 1001 fire
  \\between T A B  lists the versions that began or ended from A to B
  \\e N            explains the refusal EN
  \\dates on|off   shows instants as dates or numbers
  \\at DATE        converts a date to an instant, or an instant to a date
  \\q              quits, like Ctrl-D; an open transaction is dropped
Behind FOR SYSTEM_TIME, a date such as 2026-04-01 or 2026-04-01T09:30 is an instant, in local time; elsewhere
it is what --days says of its column, such as --days tariff=yyyymmdd, or it is refused."""


def type_text(column: Column) -> str:
    """Returns a column's type as in a schema."""
    name = "VARCHAR" if column.characters is not None else column.type
    return name + (f"({column.characters})" if column.characters is not None else "")


def table_of(shell: "Shell", name: str) -> Table:
    """Returns the table with a name, or raises."""
    table = shell.connection.schema.table(name)
    if not table:
        raise ProgrammingError(f"unknown table {name}; start the shell with the server's --schema FILE")
    return table


def column_lines(table: Table) -> Iterator[str]:
    """Yields a line for each column of a table."""
    yield f"{table.name}, with the key ({', '.join(table.key)})"
    for column in table.columns:
        yield f"  {column.name} {type_text(column)}{' NOT NULL' if column.not_null else ''}"
    yield f"  {table.row_start}, {table.row_end}: the period"


def show_tables(shell: "Shell", words: str) -> None:
    """Prints the tables, or the columns of one."""
    if words:
        shell.print_lines(column_lines(table_of(shell, words)))
        return
    for table in shell.connection.schema.tables.values():
        print(f"{table.name} ({', '.join(column.name for column in table.columns)})")


def key_parts(text: str) -> List[str]:
    """Splits the values of a key at commas and blanks outside texts."""
    return KEY_PART.findall(text)


def key_literal(days: Days, table: Table, column: Column, part: str) -> str:
    """Returns the literal of a key value; a text may be given without quotes."""
    if DATE.fullmatch(part) and (column.type != "TEXT" or days.form(table.name, column.name)):
        return literal(days.value_of(read_moment(part), Meaning(False, table.name, column.name)))
    return text_literal(part) if column.type == "TEXT" and not part.startswith("'") else part


def show_history(shell: "Shell", words: str) -> None:
    """Prints all versions of a key, or of all keys with the given first values."""
    name, _, rest = words.partition(" ")
    table, parts = table_of(shell, name), key_parts(rest)
    columns = table.key_columns()
    if not 0 < len(parts) <= len(columns):
        raise ProgrammingError(f"\\history {name} needs the key: {', '.join(table.key)}")
    days = shell.connection.days
    where = " AND ".join(f"{column.name} = {key_literal(days, table, column, part)}"
                         for column, part in zip(columns, parts))
    form = f"FOR SYSTEM_TIME BETWEEN 0 AND {GREATEST_INSTANT}"
    shell.show(shell.cursor().ask(f"SELECT * FROM {table.name} {form} WHERE {where}"))


def touches(row: Row, first: int, last: int) -> bool:
    """Returns whether a version began or ended between two instants, inclusive."""
    return any(isinstance(bound, int) and first <= bound <= last for bound in row[-2:])


def show_between(shell: "Shell", words: str) -> None:
    """Prints the versions that began or ended between two instants, inclusive."""
    parts = words.split()
    if len(parts) != 3:
        raise ProgrammingError("\\between needs a table and two instants or dates without blanks")
    table, first, last = table_of(shell, parts[0]), read_instant(parts[1]), read_instant(parts[2])
    # A version that ends at the first instant ends after the one before it.
    form = f"FOR SYSTEM_TIME BETWEEN {max(0, first - 1)} AND {last}"
    cursor: Cursor = shell.cursor().ask(f"SELECT * FROM {table.name} {form}")
    shell.show_rows(cursor, [row for row in cursor.fetchall() if touches(row, first, last)])


def show_refusal(_: "Shell", words: str) -> None:
    """Prints the cause and the cure of a refusal."""
    number = words.lstrip("Ee")
    if not number.isdecimal() or int(number) not in REFUSALS:
        raise ProgrammingError("\\e needs a number from 1 to 16")
    print("\n".join(cause_lines(int(number))))


def set_dates(shell: "Shell", words: str) -> None:
    """Turns dates on or off."""
    if words not in ("on", "off"):
        raise ProgrammingError("\\dates needs on or off")
    shell.with_dates = words == "on"


def show_instant(_: "Shell", words: str) -> None:
    """Prints an instant with its date."""
    instant = read_instant(words)
    date = date_text(instant)
    print(f"{instant} ({date})" if date else str(instant))


def show_help(_: "Shell", __: str) -> None:
    """Prints the help."""
    print(HELP)


COMMANDS: Dict[str, Callable[["Shell", str], None]] = {
    "\\d": show_tables, "\\history": show_history, "\\between": show_between, "\\e": show_refusal,
    "\\dates": set_dates, "\\at": show_instant, "\\?": show_help, "\\h": show_help, "help": show_help,
}
LEAVING = ("\\q", "quit", "exit")


def is_command(line: str) -> bool:
    """Returns whether a line is a command of the shell."""
    return line.startswith("\\") or line.rstrip(";").lower() in ("help", *LEAVING)


def run_command(shell: "Shell", line: str) -> bool:
    """Runs a command, and returns whether the shell continues."""
    name, _, words = line.rstrip("; \t").partition(" ")
    if name.lower() in LEAVING:
        return False
    command = COMMANDS.get(name.lower())
    if not command:
        raise ProgrammingError(f"unknown command {name}; \\? lists the commands")
    command(shell, words.strip())
    return True
