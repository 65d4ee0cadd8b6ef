"""Lines by the column, for numpy and for pandas, which are asked for only here."""

from __future__ import annotations

import importlib
import os
from typing import Any, Mapping, NamedTuple, Optional

from . import Errors, Facility, Severity, Source, Variant, _native

# The columns as the extension gives them, one after the other, and how numpy calls the type of each.
_COLUMNS = [("time", "M8[ns]")]
for _name in ("line", "host", "app", "process", "msgid", "message"):
    _COLUMNS += [(_name + "_at", "i8"), (_name + "_size", "i8")]
_COLUMNS += [
    ("nanosecond", "i4"), ("offset", "i4"), ("process", "i4"), ("elements", "u4"), ("protocol", "u2"), ("dialect", "u2")
]
_COLUMNS += [("outcome", "u1"), ("shown", "u1"), ("facility", "i1"), ("severity", "i1"), ("has_number", "u1")]
# The bytes of all columns for a line, and of those before the outcome.
_BYTES_A_LINE, _BEFORE_OUTCOME = 129, 124
_NOT_UTF8 = 2
# The number of the column that has the places of a text.
_PLACES = {name: number for number, (name, _) in enumerate(_COLUMNS) if name.endswith("_at")}
# Texts of so many lines are made at a time, which a processor's cache holds.
_BLOCK = 4096
_FACILITIES = [it.name.lower() for it in Facility]
_SEVERITIES = [it.name.lower() for it in Severity]
_VARIANTS: dict[str, int] = {"either": 0, "3164": 3164, "5424": 5424}


class Options(NamedTuple):
    """How lines are read, in the order in which the extension takes it."""

    variant: int
    year: int
    month: int = 0
    day: int = 0
    offset: int = 0
    zone: Optional[str] = None
    no_dialects: bool = False


def chosen(
    variant: Variant, year: int, month: int | None, day: int | None, offset: int, zone: str | None, dialects: bool
) -> Options:
    """The options that a caller chose."""
    if variant not in _VARIANTS:
        raise ValueError("there is no such variant: %r" % (variant,))
    return Options(_VARIANTS[variant], year, month or 0, day or 0, offset, zone, not dialects)


def _needed(name: str, caller: str) -> Any:
    try:
        return importlib.import_module(name)
    except ImportError as error:
        raise ImportError("syslog_loose.%s needs %s: %s" % (caller, name, error)) from None


def _bytes_of(source: Source) -> bytes:
    if isinstance(source, bytes):
        return source
    if isinstance(source, (str, os.PathLike)):
        with open(source, "rb") as file:
            return file.read()
    return bytes(source.read())


def _has_other_bytes(told: bytearray) -> bool:
    """Whether a line is not UTF-8."""
    count = len(told) // _BYTES_A_LINE
    return told.find(_NOT_UTF8, _BEFORE_OUTCOME * count, (_BEFORE_OUTCOME + 1) * count) >= 0


def _told(source: Source, options: Options, errors: Errors) -> tuple[bytes, bytearray]:
    buffer = _bytes_of(source)
    if errors not in ("strict", "replace", "latin-1"):
        raise ValueError("there is no such handling of errors: %r" % (errors,))
    try:
        told = _native.columns(buffer, *options)
        if errors != "strict" and _has_other_bytes(told):
            is_latin1 = errors == "latin-1"
            buffer = b"\n".join(_native.decoded(line, is_latin1) for line in buffer.split(b"\n"))
            told = _native.columns(buffer, *options)
    except OverflowError:
        raise ValueError("there is no such year, month, day, offset or zone") from None
    return buffer, told


def read(source: Source, options: Options, errors: Errors) -> Mapping[str, Any]:
    numpy = _needed("numpy", "read_columns")
    return _as_arrays(numpy, *_told(source, options, errors))


def _as_arrays(numpy: Any, buffer: bytes, told: bytearray) -> dict[str, Any]:
    """The columns as arrays, over the same memory."""
    columns: dict[str, Any] = {"buffer": buffer}
    count, begin = len(told) // _BYTES_A_LINE, 0
    for name, kind in _COLUMNS:
        columns[name] = numpy.frombuffer(told, kind, count, begin)
        begin += columns[name].nbytes
    shown = columns.pop("shown")
    columns["shows_year"] = (shown & 1).astype(bool)
    columns["shows_offset"] = shown > 1
    return columns


def _dialects(numpy: Any, pandas: Any, numbers: Any) -> Any:
    """The names of the dialects, as categories."""
    counts = numpy.bincount(numbers, minlength=1)
    kinds = [it for it in numpy.flatnonzero(counts).tolist() if it]
    codes = numpy.full(len(counts), -1, "i4")
    codes[kinds] = numpy.arange(len(kinds))
    return pandas.Categorical.from_codes(codes[numbers], [_native.dialect_name(it) for it in kinds])


def to_frame(source: Source, options: Options, errors: Errors) -> Any:
    numpy, pandas = _needed("numpy", "to_frame"), _needed("pandas", "to_frame")
    buffer, told = _told(source, options, errors)
    columns = _as_arrays(numpy, buffer, told)
    refused = columns["outcome"] != 0
    # (a line that is no message is its own)
    for end in ("_at", "_size"):
        columns["message" + end][refused] = columns["line" + end][refused]

    def texts(name: str) -> Any:
        made = numpy.empty(len(refused), object)
        for begin in range(0, len(made), _BLOCK):
            made[begin : begin + _BLOCK] = _native.texts(buffer, told, _PLACES[name], begin, begin + _BLOCK)
        return made

    def categories(name: str) -> Any:
        # (the hash of a text is another one in each process)
        codes, names = _native.categories(buffer, told, _PLACES[name], hash(name))
        return pandas.Categorical.from_codes(numpy.frombuffer(codes, "i4"), names)

    made = {
        "time": pandas.Series(columns["time"]).dt.tz_localize("UTC"),
        "facility": pandas.Categorical.from_codes(columns["facility"], _FACILITIES),
        "severity": pandas.Categorical.from_codes(columns["severity"], _SEVERITIES, ordered=True),
        "hostname": categories("host_at"),
        "appname": categories("app_at"),
        "procid": texts("process_at"),
        "msgid": texts("msgid_at"),
        "message": texts("message_at"),
        "dialect": _dialects(numpy, pandas, columns["dialect"]),
        "refused": refused,
    }
    # (nothing else has these arrays: a copy would only put the columns of one kind side by side)
    return pandas.DataFrame(made, copy=False)
