"""The instants of a period in a CSV file, as several systems write them."""

from __future__ import annotations

import re
import time
from typing import Optional

from .csv_check import Refused, shown
from .errors import DataError
from .instants import DATE, instant_of, read_moment, system_instant
from .limits import GREATEST_INSTANT

DIGITS = re.compile(r"[0-9]+")
LONG_FRACTION = re.compile(r"(\.[0-9]{6})[0-9]+")
FOREVER = "forever"
# MariaDB's end of a current row, before and from version 11.5; that of SQL Server is in the year 9999.
LAST_INSTANTS = (2_147_483_647_999_999, 4_294_967_295_999_999)
LAST_YEAR = 9999


class Times:
    """Reads the starts and ends of periods."""

    def __init__(self) -> None:
        self.now = time.time_ns() // 1000

    def start(self, field: bytes) -> int:
        """Reads a start, or raises Refused."""
        text = field.decode("utf-8", "replace").strip()
        instant = self.instant(text) if text else None
        if instant is None or not 1 <= instant <= GREATEST_INSTANT:
            raise Refused(f"the start {shown(field)} is not an instant from 1 to {GREATEST_INSTANT} nor a date from 1970 on")
        return instant

    def end(self, field: bytes, null: Optional[str]) -> Optional[int]:
        """Reads an end, None where it has not come, or raises Refused."""
        text = field.decode("utf-8", "replace").strip()
        if text.lower() == FOREVER or text in ("", null):
            return None
        instant = self.instant(text)
        if instant is None:
            return None
        if instant > GREATEST_INSTANT:
            raise Refused(f"the end {shown(field)} is above the greatest instant {GREATEST_INSTANT}; write forever if it "
                          "has not come")
        if not DIGITS.fullmatch(text) and instant > self.now:
            raise Refused(f"the end {shown(field)} has not come; set TZ to the zone of the file, or write forever")
        return instant

    def instant(self, text: str) -> Optional[int]:
        """Reads digits or a date; None for a date that stands for an end that has not come."""
        if DIGITS.fullmatch(text):
            return int(text)
        text = LONG_FRACTION.sub(r"\1", text)
        if not DATE.fullmatch(text):
            raise Refused(f"{text!r} is neither an instant nor a date")
        try:
            moment = read_moment(text)
            if moment.year == LAST_YEAR or instant_of(moment) in LAST_INSTANTS:
                return None
            return system_instant(moment)
        except DataError as fault:
            raise Refused(str(fault)) from None
