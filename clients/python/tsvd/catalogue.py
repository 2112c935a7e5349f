"""The one question about tables that pandas asks of a PEP 249 connection, answered by the schema."""

from __future__ import annotations

import re
from typing import Any, List, Optional, Sequence, Tuple

from .schema import Schema

# pandas takes a connection that it does not know for one of SQLite.
QUESTION = re.compile(r"\s*SELECT\s+name\s+FROM\s+sqlite_master\s+WHERE\s+type\s*(?:=\s*'table'|IN\s*\('table',\s*'view'\))"
                      r"\s+AND\s+name\s*=\s*\?\s*;?\s*", re.I)


def tables_named(schema: Schema, statement: str, values: Sequence[Any]) -> Optional[List[Tuple[str]]]:
    """Returns a row if the table that pandas asks for is in the schema, none if not, or None for another statement."""
    if "sqlite_master" not in statement or not QUESTION.fullmatch(statement) or len(values) != 1:
        return None
    table = schema.table(str(values[0]))
    return [(table.name,)] if table else []
