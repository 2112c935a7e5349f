"""The forms of replies. A reply of any other form is never taken for success."""

from __future__ import annotations

import re
from typing import Dict

FORM = re.compile(
    r"(?:begun|inserted|updated|deleted|rows) [0-9]+|committed (?:[0-9]+|nothing)|rolled back|ok|altered"
    r"|E[0-9]+(?: .*)?", re.S)
REFUSAL = re.compile(r"E([0-9]+)(?: .*)?", re.S)
WORD = re.compile(r"\s*([A-Za-z_]\w*)", re.A)

ANSWERS: Dict[str, str] = {
    "BEGIN": "begun", "START": "begun", "COMMIT": "committed", "ROLLBACK": "rolled", "INSERT": "inserted",
    "UPDATE": "updated", "DELETE": "deleted", "SELECT": "rows", "ALTER": "altered", "SPLIT": "ok", "MIGRATE": "ok",
}


def is_reply(head: str) -> bool:
    """Returns whether a line has the form of the first line of a reply."""
    return FORM.fullmatch(head) is not None


def is_refusal(head: str) -> bool:
    """Returns whether a reply is a refusal, whatever its number."""
    return REFUSAL.fullmatch(head) is not None


def first_word(line: str) -> str:
    """Returns the first word of a statement in capitals, or an empty text."""
    found = WORD.match(line)
    return found.group(1).upper() if found else ""


def answers(line: str, head: str) -> bool:
    """Returns whether a reply that is no refusal is of the kind that a line is answered with."""
    wanted = ANSWERS.get(first_word(line))
    return wanted is None or head.split(" ")[0] == wanted
