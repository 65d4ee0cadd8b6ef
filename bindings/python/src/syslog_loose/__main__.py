"""Writes each line of files, or of standard input, as the JSON object that syslog_json writes of it.

    python3 -m syslog_loose [--year YEAR[-MONTH[-DAY]]] [--month MONTH] [--offset OFFSET | --zone RULE] [--latin1]
        [--no-dialects] [--raw] [--csv] [FILE..]

With --csv it writes a table by RFC 4180: a header, and a record for each line. A line that is not UTF-8 is read with
U+FFFD for what is not, and with --latin1 as ISO 8859-1. The status is 1 if lines were refused or have U+FFFD for what
is not UTF-8, and 2 after a fault.
"""

from __future__ import annotations

import argparse
import csv
import datetime
import io
import json
import os
import re
import sys
from typing import Any, BinaryIO, Callable, Iterable, Mapping, NamedTuple

import syslog_loose
from syslog_loose import _native

# The keys of an object, in its order: docs/JSON.md says what they mean.
KEYS = ["protocol", "version", "dialect", "facility", "facility_code", "severity", "severity_code", "timestamp"]
KEYS += ["hostname", "appname", "procid", "msgid", "structured_data", "unparsed_structured_data", "message", "raw"]
KEYS += ["refused", "invalid_utf8"]
# How the object of a message ends that has U+FFFD for what is not UTF-8.
REPLACED = ',"invalid_utf8":true}'


def offset(text: str) -> int:
    """The seconds of +01:00 or -09:30."""
    found = re.fullmatch(r"([+-])(\d\d):([0-5]\d)", text)
    if not found:
        raise argparse.ArgumentTypeError("no offset such as +01:00: %r" % text)
    seconds = int(found[2]) * 3600 + int(found[3]) * 60
    return -seconds if found[1] == "-" else seconds


def date(text: str) -> tuple[int, int, int]:
    """The year, the month and the day of 2026-11-28; 0 for what isn't there, as in 2026-11 and 2026."""
    found = re.fullmatch(r"(-?\d+)(?:-(\d\d)(?:-(\d\d))?)?", text, re.ASCII)
    if not found or "00" in found.groups():
        raise argparse.ArgumentTypeError("no year, month or day such as 2026-11-28: %r" % text)
    return int(found[1]), int(found[2] or 0), int(found[3] or 0)


def json_text(value: object) -> str:
    return json.dumps(value, ensure_ascii=False, separators=(",", ":"))


def is_utf8(line: bytes) -> bool:
    try:
        line.decode()
    except UnicodeDecodeError:
        return False
    return True


def refused_object(line: bytes, errors: str) -> str:
    is_latin1 = errors == "latin-1"
    text = _native.decoded(line, is_latin1).decode()
    broken = {} if is_latin1 or is_utf8(line) else {"invalid_utf8": True}
    return json_text({"message": text, "refused": True, **broken})


def cell(value: object) -> str:
    """A value of an object as a cell of a table: texts as they are, and all else as JSON has it."""
    if value is None:
        return ""
    return value if isinstance(value, str) else json_text(value)


def record(cells: list[str]) -> bytes:
    """The cells as a record: one that has a comma, a quote or the end of a line is quoted."""
    made = io.StringIO(newline="")
    csv.writer(made).writerow(cells)
    return made.getvalue().encode()


def as_object(text: str) -> bytes:
    return text.encode() + b"\n"


def as_record(text: str) -> bytes:
    made: Mapping[str, object] = json.loads(text)
    return record([cell(made.get(key)) for key in KEYS])


class Counts(NamedTuple):
    """How many lines there are, how many of them were refused, and how many others have U+FFFD for what is not
    UTF-8."""

    lines: int
    refused: int
    replaced: int


def write_lines(lines: BinaryIO, out: BinaryIO, form: Callable[[str], bytes], options: dict[str, Any]) -> Counts:
    """Writes each line in this form, and counts them."""
    count = refused = replaced = 0
    for line in lines:
        count += 1
        line = line[:-1] if line.endswith(b"\n") else line
        try:
            made = syslog_loose.json(line, **options)
            replaced += made.endswith(REPLACED)
        except syslog_loose.ParseError:
            refused += 1
            made = refused_object(line, options["errors"])
        out.write(form(made))
    return Counts(count, refused, replaced)


def write_files(names: list[str], out: BinaryIO, table: bool, options: dict[str, Any]) -> Counts:
    """The same of files, one after the other, as objects or as a table."""
    counts = Counts(0, 0, 0)
    if table:
        out.write(record(KEYS))
    for name in names:
        with sys.stdin.buffer if name == "-" else open(name, "rb") as lines:
            told = write_lines(lines, out, as_record if table else as_object, options)
        counts = Counts(*(a + b for a, b in zip(counts, told)))
    out.flush()
    return counts


def joined(words: Iterable[str]) -> list[str]:
    """The words, where an offset is one word with its name: argparse would take -09:30 for another name."""
    rest = iter(words)
    return ["%s=%s" % (it, next(rest, "")) if it == "--offset" else it for it in rest]


def arguments() -> argparse.Namespace:
    words = argparse.ArgumentParser(
        prog="python3 -m syslog_loose", description="Writes lines of syslog as JSON objects."
    )
    words.add_argument(
        "--year",
        type=date,
        default=str(datetime.date.today().year),
        metavar="YEAR[-MONTH[-DAY]]",
        help="of dates that show none (now: %(default)s); with the day that it is, as 2026-11-28, a date is of the last"
        " year that puts it no more than a day past that day",
    )
    words.add_argument("--month", type=int, help="that it is: in January a date of December is then of the year before")
    zones = words.add_mutually_exclusive_group()
    zones.add_argument("--offset", type=offset, default=0, help="of dates that show none, as +01:00 (UTC without it)")
    zones.add_argument("--zone", metavar="RULE", help="of such dates, as CET-1CEST,M3.5.0,M10.5.0/3")
    words.add_argument("--latin1", action="store_true", help="reads a line that is not UTF-8 as ISO 8859-1")
    words.add_argument("--no-dialects", action="store_true", help="reads each line by RFC 5424 or RFC 3164 alone")
    words.add_argument("--raw", action="store_true", help="with the line itself in each object")
    words.add_argument("--csv", action="store_true", help="a table with a header, by RFC 4180, instead of objects")
    words.add_argument("--version", action="version", version=syslog_loose.__version__)
    words.add_argument("file", nargs="*", help="none or -: standard input")
    chosen = words.parse_args(joined(sys.argv[1:]))
    if chosen.month is not None and chosen.year[1]:
        words.error("two months: of --year and of --month")
    return chosen


def options_of(chosen: argparse.Namespace) -> dict[str, Any]:
    """The arguments of the call that writes an object."""
    year, month, day = chosen.year
    options: dict[str, Any] = {"year": year, "month": chosen.month or month, "day": day, "zone": chosen.zone}
    options.update(offset=chosen.offset, raw=chosen.raw, dialects=not chosen.no_dialects)
    options.update(errors="latin-1" if chosen.latin1 else "replace")
    return options


def main() -> int:
    chosen = arguments()
    options = options_of(chosen)
    try:
        # (wrong options are found before anything is written)
        syslog_loose.json(b"1 - - - - - -", **options)
        counts = write_files(chosen.file or ["-"], sys.stdout.buffer, chosen.csv, options)
    except BrokenPipeError:
        # (nothing is written to the closed pipe at the end either)
        os.dup2(os.open(os.devnull, os.O_WRONLY), sys.stdout.fileno())
        return 1
    except KeyboardInterrupt:
        return 130
    except OSError as fault:
        about = "%s: %s" % (fault.filename, fault.strerror) if fault.filename else fault.strerror
        print("syslog_loose: %s" % about, file=sys.stderr)
        return 2
    except ValueError as fault:
        print("syslog_loose: %s" % fault, file=sys.stderr)
        return 2
    if counts.refused:
        print("refused %d of %d lines" % (counts.refused, counts.lines), file=sys.stderr)
    if counts.replaced:
        print("%d of %d lines have U+FFFD for what is not UTF-8" % (counts.replaced, counts.lines), file=sys.stderr)
    return 1 if counts.refused or counts.replaced else 0


if __name__ == "__main__":
    sys.exit(main())
