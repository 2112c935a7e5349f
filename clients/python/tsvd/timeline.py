"""A page of a table's history: a bar for each version, and the table as it was at an instant."""

from __future__ import annotations

import argparse
import html
import json
import pathlib
import re
import sys
from typing import Any, Dict, List, NamedTuple, Optional, Sequence, Tuple

from .errors import ProgrammingError
from .export import NUMBER, Export, Version, by_key, guess_key, places_of, read_export
from .instants import date_text
from .schema import Table, schema_file

MARK = re.compile(r"\{\{(TITLE|DATA)\}\}")
PAGE = pathlib.Path(__file__).with_name("timeline.html")
MOST_KEYS = 100


def stops_of(export: Export) -> List[int]:
    """Returns the instants at which a version began or ended, in order."""
    bounds = {bound for version in export.versions for bound in (version.start, version.end)}
    return sorted(bound for bound in bounds if bound is not None)


def version_data(version: Version, stop: Dict[int, int]) -> List[Any]:
    """Returns a version for the page: its fields, and the indexes of its bounds in the stops."""
    return [list(version.fields), stop[version.start], -1 if version.end is None else stop[version.end]]


class Shape(NamedTuple):
    """Says which columns are the key, whether that is a guess, and which are the period of application time."""

    key: Tuple[int, ...]
    is_guess: bool = False
    period: Optional[Tuple[int, int]] = None
    period_name: str = ""

    def data(self) -> Optional[Dict[str, Any]]:
        """Returns the period for the page, with the columns of an entity."""
        if not self.period:
            return None
        start, end = self.period
        return {"name": self.period_name, "start": start, "end": end,
                "entity": [place for place in self.key if place not in self.period]}


def page_data(export: Export, shape: Shape) -> Dict[str, Any]:
    """Returns the data of the page; instants are strings, since JavaScript numbers are too small."""
    stops = stops_of(export)
    stop = {instant: place for place, instant in enumerate(stops)}
    rows = [{"key": ", ".join(key), "versions": [version_data(version, stop) for version in versions]}
            for key, versions in by_key(export, shape.key).items()]
    return {"names": list(export.names), "key": list(shape.key), "guess": shape.is_guess, "rows": rows,
            "stops": [[str(instant), date_text(instant) or ""] for instant in stops],
            "changed": len(rows) > MOST_KEYS, "period": shape.data()}


def page(export: Export, shape: Optional[Shape] = None, title: str = "History") -> str:
    """Makes the page, which needs no network; without a shape, guesses the key."""
    data = page_data(export, shape or Shape(guess_key(export), True))
    parts = {"TITLE": html.escape(title), "DATA": json.dumps(data).replace("<", "\\u003c")}
    return MARK.sub(lambda found: parts[found.group(1)], PAGE.read_text(encoding="utf-8"))


def schema_table(path: str, export: Export) -> Table:
    """Returns the table in a schema file that has the columns of the export."""
    names = [name.lower() for name in (*export.names, *export.period)]
    for table in schema_file(path).tables.values():
        columns = [column.name for column in table.columns] + [table.row_start, table.row_end]
        if [name.lower() for name in columns] == names:
            return table
    raise ProgrammingError(f"no table of {path} has the columns of the export")


def period_of(export: Export, names: Optional[str]) -> Optional[Tuple[int, int]]:
    """Returns the positions of the two columns that the option `--period` names."""
    if names is None:
        return None
    places = places_of(export, [name.strip() for name in names.split(",")])
    if len(places) != 2 or not all(NUMBER.fullmatch(version.fields[place]) for version in export.versions for place in places):
        raise ProgrammingError("--period needs two columns of whole numbers, as in --period since,until")
    return places[0], places[1]


def chosen_shape(export: Export, key: Optional[str], schema: Optional[str], period: Optional[str]) -> Shape:
    """Returns the key and the period that the options give; a key that they do not give is guessed."""
    table = schema_table(schema, export) if schema else None
    names = [name.strip() for name in key.split(",")] if key else [one.name for one in table.key_columns()] if table else None
    places = places_of(export, names) if names else guess_key(export)
    own = table.period if table else None
    bounds = period_of(export, period or (f"{own.start},{own.end}" if own else None))
    name = own.name if own and not period else period or ""
    return Shape(places, names is None, bounds, name)


def main(words: Sequence[str]) -> int:
    """Runs `timeline FILE [--key NAMES] [--schema FILE] [--title TEXT]`, and writes the page to standard output."""
    parser = argparse.ArgumentParser(prog="python3 -m tsvd timeline", usage="%(prog)s FILE [options] > PAGE.html")
    parser.add_argument("file", help="the output of --export, or - for standard input")
    parser.add_argument("--key", help="the names of the key columns, separated by commas")
    parser.add_argument("--schema", help="the schema file, which names the key and the period of application time")
    parser.add_argument("--period", metavar="NAMES", help="the two columns of application time, if there is no schema")
    parser.add_argument("--title", default="History")
    given = parser.parse_args(words)
    data = sys.stdin.buffer.read() if given.file == "-" else pathlib.Path(given.file).read_bytes()
    export = read_export(data.decode("utf-8"))
    made = page(export, chosen_shape(export, given.key, given.schema, given.period), given.title)
    sys.stdout.buffer.write(made.encode("utf-8", "replace"))
    sys.stdout.buffer.flush()
    return 0
