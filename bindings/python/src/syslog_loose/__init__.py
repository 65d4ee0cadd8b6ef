"""Reads, prints and converts syslog messages of RFC 5424, of the looser RFC 3164, and of senders that follow neither.

    m = parse("<34>Mar  2 06:35:05 gateway dropbear[2310]: Exit (root)", year=2026)
    m.hostname, m.severity, m.timestamp

Each call takes these:

- `year` is the year of dates that show none.
- `month` is the current month, from 1 to 12: in January a date of December is of the year before. Without it, all such
  dates are of `year`.
- `day` is the current day of that month, from 1 to 31. A date is then of the last year that puts it no more than a day
  past this day.
- `offset` is how many seconds dates that show no offset are ahead of UTC.
- `zone` is their zone as a POSIX rule, without an offset beside it: "CET-1CEST,M3.5.0,M10.5.0/3". A rule with summer
  time says when that begins and ends, and names such as "Europe/Berlin" are refused.
- `errors` says what becomes of a line that is given as bytes which are not UTF-8. By "strict" it is no message. By
  "replace" it has U+FFFD for each part that is not UTF-8, and by "latin-1" it is read as ISO 8859-1. A line that is
  UTF-8 is read as that.

`parse`, `json`, `to_rfc5424` and what reads many lines read a line in its sender's dialect, if it is in one:
docs/SENDERS.md lists them. They do so unless `dialects` is false or `variant` names a protocol. `normalise` and
`settle` read each line by the protocols alone, and a line of a dialect may be no message for them.

Threads may call all of this at once. A call for one line keeps Python's lock, since it takes less time than to give the
lock up and to take it again; read_columns and to_frame let it go while they read lines.
"""

from __future__ import annotations

import os
from datetime import datetime, timedelta, timezone
from enum import IntEnum
from typing import Any, BinaryIO, Callable, Iterable, Iterator, Literal, Mapping, NamedTuple, Optional, Tuple, Union

from . import _native

__all__ = ["Element", "Errors", "Facility", "Line", "Message", "ParseError", "Severity", "Source", "Variant"]
__all__ += ["dialect_name", "json", "normalise", "parse", "read", "read_columns", "settle", "to_frame", "to_rfc5424"]
__version__ = "0.1.0"

Variant = Literal["either", "3164", "5424"]
Errors = Literal["strict", "replace", "latin-1"]
Line = Union[str, bytes]
#: Lines as bytes, or a file of them: its path, or open in binary mode.
Source = Union[bytes, str, "os.PathLike[str]", BinaryIO]


class Severity(IntEnum):
    """How severe a message is: 0 is the worst."""

    EMERG = 0
    ALERT = 1
    CRIT = 2
    ERR = 3
    WARNING = 4
    NOTICE = 5
    INFO = 6
    DEBUG = 7


class Facility(IntEnum):
    """Which part of a system a message comes from."""

    KERN = 0
    USER = 1
    MAIL = 2
    DAEMON = 3
    AUTH = 4
    SYSLOG = 5
    LPR = 6
    NEWS = 7
    UUCP = 8
    CRON = 9
    AUTHPRIV = 10
    FTP = 11
    NTP = 12
    AUDIT = 13
    ALERT = 14
    CLOCKD = 15
    LOCAL0 = 16
    LOCAL1 = 17
    LOCAL2 = 18
    LOCAL3 = 19
    LOCAL4 = 20
    LOCAL5 = 21
    LOCAL6 = 22
    LOCAL7 = 23


class Element(NamedTuple):
    """An element of structured data: its id, and its parameters as names with their values, without escapes."""

    id: str
    params: Tuple[Tuple[str, str], ...]


class ParseError(ValueError):
    """A line is no message. `line` has it as it was given."""

    def __init__(self, why: str, line: Line) -> None:
        super().__init__(why, line)
        self.line = line

    def __str__(self) -> str:
        return "%s: %.200r" % self.args


class Message(NamedTuple):
    """A message. What it lacks is None."""

    protocol: int  #: 3164 or 5424
    version: Optional[int]  #: of RFC 5424 alone
    facility: Optional[Facility]
    severity: Optional[Severity]
    timestamp: Optional[datetime]  #: in the zone of the clock that showed it; None too where datetime can't hold it
    nanosecond: int  #: the part of a second, from 0 to 999,999,999
    timestamp_text: Optional[str]  #: the printed timestamp, where datetime has no such year or offset
    shows_year: bool  #: whether the line shows the year
    shows_offset: bool  #: whether the line shows the offset
    hostname: Optional[str]
    appname: Optional[str]
    procid: Union[int, str, None]
    msgid: Optional[str]
    structured_data: Tuple[Element, ...]
    message: str
    raw: str  #: the line
    dialect: Optional[str] = None  #: the name of the dialect that the line was read in, as cisco-ios
    unparsed_structured_data: Optional[str] = None  #: structured data from its first element on that is not strict


_native.set_up(
    ParseError, Message, Element, tuple(Facility), tuple(Severity), lambda ahead: timezone(timedelta(seconds=ahead))
)
# The calls for one line are the extension's own.
parse, normalise, settle = _native.parse, _native.normalise, _native.settle
to_rfc5424, json, dialect_name = _native.to_rfc5424, _native.json, _native.dialect_name


def read(
    file: str | os.PathLike[str] | Iterable[Line],
    *,
    year: int,
    month: int | None = None,
    day: int | None = None,
    offset: int = 0,
    zone: str | None = None,
    variant: Variant = "either",
    dialects: bool = True,
    errors: Errors = "strict",
    refused: Callable[[Line], object] | None = None,
) -> Iterator[Message]:
    """Yields the message of each line of a file, which is a path, or open. A line that is no message goes to `refused`;
    without that, ParseError is raised."""
    if isinstance(file, (str, os.PathLike)):
        with open(file, "rb") as lines:
            options: dict[str, Any] = {"year": year, "month": month, "day": day, "offset": offset, "zone": zone}
            options.update(variant=variant, dialects=dialects, errors=errors)
            yield from read(lines, refused=refused, **options)
        return
    for line in file:
        if line[-1:] in (b"\n", "\n"):
            line = line[:-1]
        try:
            message = parse(
                line,
                year=year,
                month=month,
                day=day,
                offset=offset,
                zone=zone,
                variant=variant,
                dialects=dialects,
                errors=errors,
            )
        except ParseError:
            if refused is None:
                raise
            refused(line)
        else:
            yield message


def read_columns(
    source: Source,
    *,
    year: int,
    month: int | None = None,
    day: int | None = None,
    offset: int = 0,
    zone: str | None = None,
    variant: Variant = "either",
    dialects: bool = True,
    errors: Errors = "strict",
) -> Mapping[str, Any]:
    """Returns what each line says, as numpy arrays with a place for each line, in order. It needs numpy. The arrays
    share one block of memory, which lasts as long as one of them.

    - buffer: the bytes of the source, which the offsets below are in; lines that `errors` decodes are there as UTF-8
    - outcome: 0 for a message, 1 for a line that is none, 2 for one that is not UTF-8; the last two have no fields
    - time: datetime64[ns] in UTC; NaT if the line has no timestamp, or one outside of the years 1678 to 2261
    - nanosecond: the part of a second of the timestamp
    - offset: how many seconds the clock that showed it is ahead of UTC
    - shows_year, shows_offset: whether the line shows them
    - protocol: 3164 or 5424
    - facility, severity: their numbers, or -1
    - elements: how many elements of structured data there are
    - process: the process id if it is a number (has_number is 1), otherwise 0
    - dialect: the number of the line's dialect, or 0; dialect_name returns its name
    - line_at, host_at, app_at, process_at, msgid_at, message_at: the offset of the text, or -1 if it is absent
    - line_size, host_size, app_size, process_size, msgid_size, message_size: its length in bytes
    """
    from . import _columns

    options = _columns.chosen(variant, year, month, day, offset, zone, dialects)
    return _columns.read(source, options, errors)


def to_frame(
    source: Source,
    *,
    year: int,
    month: int | None = None,
    day: int | None = None,
    offset: int = 0,
    zone: str | None = None,
    variant: Variant = "either",
    dialects: bool = True,
    errors: Errors = "strict",
) -> Any:
    """Returns a pandas DataFrame with a row for each line, in order. It needs pandas.

    Its columns are time (datetime64[ns, UTC]), facility, severity, hostname, appname and dialect (categories), procid,
    msgid and message (texts), and refused: True for a line that is no message, whose message is the whole line.
    """
    from . import _columns

    options = _columns.chosen(variant, year, month, day, offset, zone, dialects)
    return _columns.to_frame(source, options, errors)
