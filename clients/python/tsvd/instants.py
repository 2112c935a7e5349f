"""Conversion between dates and instants, which are microseconds since 1970."""

from __future__ import annotations

import datetime
import re
from typing import Optional

from .errors import DataError
from .limits import LEAST_DATE

EPOCH = datetime.datetime(1970, 1, 1, tzinfo=datetime.timezone.utc)
MICROSECOND = datetime.timedelta(microseconds=1)

DATE = re.compile(
    r"(?<![\w.-])(\d{4})-(\d\d)-(\d\d)"
    r"(?:[ T](\d\d):(\d\d)(?::(\d\d)(?:\.(\d{1,6}))?)?(Z|[+-]\d\d:?\d\d)?)?(?![\w.:-])")


def plain_moment(moment: datetime.datetime) -> datetime.datetime:
    """Returns a datetime of the standard library for one of pandas, or raises if it is more exact."""
    if getattr(moment, "nanosecond", 0):
        raise DataError(f"{moment} has nanoseconds, and instants have microseconds; round it first")
    convert = getattr(moment, "to_pydatetime", None)
    plain: datetime.datetime = convert() if convert else moment
    return plain


def instant_of(moment: datetime.date) -> int:
    """Returns the instant of a date or datetime; local time unless it has a zone."""
    if not isinstance(moment, datetime.datetime):
        moment = datetime.datetime.combine(moment, datetime.time())
    moment = plain_moment(moment)
    try:
        zoned = moment.astimezone() if moment.tzinfo is None else moment
    except (ValueError, OverflowError, OSError):
        raise DataError(f"{moment} has no local time on this machine; give it a zone") from None
    return (zoned - EPOCH) // MICROSECOND


def system_instant(moment: datetime.date) -> int:
    """Returns the instant of a date that stands for system time, which does not begin before 1970."""
    instant = instant_of(moment)
    if instant < 0:
        raise DataError(f"{moment} is before 1970, where system time begins")
    return instant


def moment_of(instant: int) -> datetime.datetime:
    """Returns an instant as a datetime in UTC."""
    try:
        return EPOCH + datetime.timedelta(microseconds=instant)
    except OverflowError:
        raise DataError(f"{instant} is after the year 9999") from None


def date_text(instant: int) -> Optional[str]:
    """Returns an instant as a date in local time, or None if it is too small to be one."""
    if instant < LEAST_DATE:
        return None
    try:
        return moment_of(instant).astimezone().isoformat(" ", "microseconds")
    except (DataError, OverflowError, ValueError, OSError):
        return None


def iso_text(instant: int) -> str:
    """Returns an instant as a date in ISO form in local time, or its digits if it is after the year 9999."""
    try:
        return moment_of(instant).astimezone().isoformat("T", "microseconds")
    except (DataError, OverflowError, ValueError, OSError):
        return str(instant)


def zone_of(text: Optional[str]) -> Optional[datetime.timezone]:
    """Returns the zone of `Z` or `+01:00`, or None for local time."""
    if text is None:
        return None
    if text == "Z":
        return datetime.timezone.utc
    offset = datetime.timedelta(hours=int(text[1:3]), minutes=int(text[-2:]))
    return datetime.timezone(-offset if text[0] == "-" else offset)


def read_moment(text: str) -> datetime.date:
    """Reads a date such as 2026-04-01, or a datetime such as 2026-04-01T09:30+02:00."""
    found = DATE.fullmatch(text)
    if not found:
        raise DataError(f"not a date: {text}")
    *numbers, part, zone = found.groups()
    year, month, day, hour, minute, second = (int(number or 0) for number in numbers)
    try:
        if found.group(4) is None:
            return datetime.date(year, month, day)
        return datetime.datetime(year, month, day, hour, minute, second, int((part or "0").ljust(6, "0")),
                                 zone_of(zone))
    except (ValueError, OverflowError):
        raise DataError(f"invalid date {text}") from None


def read_instant(text: str) -> int:
    """Reads an instant written as digits or as a date."""
    if re.fullmatch(r"[0-9]+", text):
        return int(text)
    if not DATE.fullmatch(text):
        raise DataError(f"neither an instant nor a date: {text}")
    return system_instant(read_moment(text))
