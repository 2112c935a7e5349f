"""What a date means in a column that is not of system time, in both directions."""

from __future__ import annotations

import datetime
from typing import Callable, Dict, List, Mapping, NamedTuple, Optional, Tuple, Union

from .errors import DataError, ProgrammingError, Value
from .instants import instant_of, moment_of, plain_moment, system_instant
from .meanings import Meaning
from .schema import Schema, Table

Field = Union[Value, datetime.date]


class Reads(NamedTuple):
    """Says how a column's values are read: the type code that they then have, and the function."""

    code: str
    read: Callable[[Value], Field]


class Form(NamedTuple):
    """Describes how a column holds dates: its type, and the functions of both directions."""

    type: str
    code: str
    write: Callable[[datetime.date], Value]
    read: Callable[[Value], datetime.date]


def day_of(moment: datetime.date) -> datetime.date:
    """Returns the day of a date, or of a datetime that is a midnight without a zone."""
    if not isinstance(moment, datetime.datetime):
        return moment
    plain = plain_moment(moment)
    if plain.time() != datetime.time() or plain.tzinfo is not None:
        raise DataError(f"the column holds days, and {moment} has a time of day or a zone; give its date()")
    return plain.date()


def number_of_day(moment: datetime.date) -> Value:
    """Returns a day as a number of the form yyyymmdd."""
    day = day_of(moment)
    return day.year * 10000 + day.month * 100 + day.day


def day_of_number(value: Value) -> datetime.date:
    """Reads a number of the form yyyymmdd."""
    number = value if isinstance(value, int) else 0
    return datetime.date(number // 10000, number // 100 % 100, number % 100)


def text_of_day(moment: datetime.date) -> Value:
    """Returns a day as a text of the form yyyy-mm-dd."""
    return day_of(moment).isoformat()


def day_of_text(value: Value) -> datetime.date:
    """Reads a text of the form yyyy-mm-dd."""
    return datetime.datetime.strptime(str(value), "%Y-%m-%d").date()


def moment_of_number(value: Value) -> datetime.date:
    """Reads a number of microseconds since 1970."""
    return moment_of(value if isinstance(value, int) else 0)


FORMS: Dict[str, Form] = {
    "yyyymmdd": Form("INT", "DATE", number_of_day, day_of_number),
    "yyyy-mm-dd": Form("TEXT", "DATE", text_of_day, day_of_text),
    "microseconds": Form("INT", "TIMESTAMP", instant_of, moment_of_number),
}


class Days:
    """Holds the forms in which columns hold dates, by table and column in lower case."""

    def __init__(self, days: Optional[Mapping[str, str]], schema: Schema) -> None:
        self.schema = schema
        self.forms: Dict[Tuple[str, str], str] = {}
        for name, form in (days or {}).items():
            if form not in FORMS:
                raise ProgrammingError(f"days: {form!r} for {name} is none of {', '.join(FORMS)}")
            for table, column in columns_named(schema, name):
                check_type(schema, table, column, form)
                self.forms[table.lower(), column.lower()] = form

    def form(self, table: Optional[str], column: Optional[str]) -> Optional[Form]:
        """Returns the form of a column, if one was given."""
        name = self.forms.get(((table or "").lower(), (column or "").lower()))
        return FORMS[name] if name else None

    def value_of(self, moment: datetime.date, meaning: Meaning) -> Value:
        """Returns what the server is sent for a date, by what it stands for, or raises DataError."""
        if meaning.is_system_time:
            return system_instant(moment)
        form = self.form(meaning.table, meaning.column)
        if not form:
            raise DataError(self.unknown_meaning(moment, meaning))
        return form.write(moment)

    def unknown_meaning(self, moment: datetime.date, meaning: Meaning) -> str:
        """Says why a date is refused, and what to write."""
        table = self.schema.table(meaning.table or "")
        place = table.place(meaning.column or "") if table else None
        if table is None or place is None:
            return (f"it is not known what the date {moment} stands for here; give the number or text that the column "
                    "holds, and connect with the server's schema")
        column = table.columns[place]
        name, is_text = f"{table.name}.{column.name}", column.type == "TEXT"
        form, sample = ("yyyy-mm-dd", f"'{moment:%Y-%m-%d}'") if is_text else ("yyyymmdd", f"{moment:%Y%m%d}")
        return (f"it is not known what the date {moment} means in {name}: say so with days, as in "
                f"connect(.., days={{'{name}': '{form}'}}) or --days {name}={form}, or give the "
                f"{'text' if is_text else 'number'} that the column holds, such as {sample}")

    def readers(self, table: Table) -> List[Optional[Reads]]:
        """Returns for each column what makes dates of its values, None where it holds no dates."""
        return [self.reader(table, column.name) for column in table.columns]

    def reader(self, table: Table, column: str) -> Optional[Reads]:
        """Returns what makes dates of the values of a column; NULL stays None."""
        form = self.form(table.name, column)
        if not form:
            return None
        read = form.read

        def date_of(value: Value) -> Field:
            """Reads a value, or raises DataError."""
            try:
                return None if value is None else read(value)
            except ValueError:
                raise DataError(f"{table.name}.{column} holds {value!r}, which is not a date of the form "
                                "that days gives; leave the column out of days") from None

        return Reads(form.code, date_of)


def moment_of_bound(value: Value) -> Field:
    """Returns a bound of a period as a datetime in UTC; None, for `forever`, stays None."""
    return moment_of(value) if isinstance(value, int) else None


BOUND = Reads("TIMESTAMP", moment_of_bound)


def columns_named(schema: Schema, name: str) -> List[Tuple[str, str]]:
    """Returns the columns that a name of `days` stands for: `table.column`, or `table` for its period."""
    table_name, _, column = name.partition(".")
    table = schema.table(table_name)
    if not table:
        raise ProgrammingError(f"days: no table {table_name} in the schema; its tables are "
                               + ", ".join(one.name for one in schema.tables.values()))
    if not column and not table.period:
        raise ProgrammingError(f"days: {table.name} has no period of application time; name a column, "
                               f"as in '{table.name}.{table.columns[0].name}'")
    if column and table.place(column) is None:
        raise ProgrammingError(f"days: {table.name} has no column {column}; its columns are "
                               + ", ".join(one.name for one in table.columns))
    if column or not table.period:
        return [(table.name, column)]
    return [(table.name, table.period.start), (table.name, table.period.end)]


def check_type(schema: Schema, table_name: str, column: str, form: str) -> None:
    """Raises where a column's type cannot hold dates in a form."""
    table = schema.table(table_name)
    place = table.place(column) if table else None
    if table and place is not None and table.columns[place].type != FORMS[form].type:
        raise ProgrammingError(f"days: {form} needs a column of type {FORMS[form].type}, and {table.name}.{column} "
                               f"is {table.columns[place].type}")


def read_days(words: Optional[List[str]]) -> Dict[str, str]:
    """Reads the words of options `--days TABLE=FORM` or `--days TABLE.COLUMN=FORM`."""
    pairs = [word.partition("=") for word in words or []]
    for name, equals, form in pairs:
        if not (name and equals and form):
            raise ProgrammingError(f"--days {name}: write --days TABLE=FORM or --days TABLE.COLUMN=FORM, "
                                   f"with a form of {', '.join(FORMS)}")
    return {name: form for name, _, form in pairs}


NO_DAYS = Days(None, Schema([]))
