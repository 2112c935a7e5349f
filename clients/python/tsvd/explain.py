"""Explanations of refusals for a terminal."""

from __future__ import annotations

import re
from typing import List

from .errors import Error
from .layout import visible, width_of
from .refusals import refusal_of
from .schema import Schema

TABLE = re.compile(r"\b(?:INTO|UPDATE|FROM|KEY|TIME)\s+(\w+)", re.I)


def caret_lines(line: str, byte: int) -> List[str]:
    """Returns a line and a caret under one of its bytes."""
    before = line.encode("utf-8")[:byte].decode("utf-8", "replace")
    return ["  " + visible(line), "  " + " " * width_of(visible(before)) + "^"]


def cause_lines(number: int) -> List[str]:
    """Returns the cause and the cure of a refusal."""
    refusal = refusal_of(number)
    return [f"  cause: {refusal.cause}", f"  cure:  {refusal.cure}"]


def column_lines(schema: Schema, line: str, number: int) -> List[str]:
    """Returns a line that names the column of an E3, if it is known."""
    found = TABLE.search(line)
    table = schema.table(found.group(1)) if found else None
    if not table or not 0 < number <= len(table.columns):
        return []
    return [f"  column {number} of {table.name} is {table.columns[number - 1].name}"]


def fault_lines(fault: Error, schema: Schema) -> List[str]:
    """Returns the lines that explain a refusal or another fault."""
    if fault.number is None:
        return [visible(str(fault))]
    lines = [visible(fault.reply or "")]
    if fault.byte is not None and fault.line is not None:
        lines += caret_lines(fault.line, fault.byte)
    if fault.column is not None and fault.line is not None:
        lines += column_lines(schema, fault.line, fault.column)
    return lines + cause_lines(fault.number)
