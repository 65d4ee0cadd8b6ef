from typing import Any

from . import Errors, Line, Message, Variant

def set_up(error: Any, message: Any, element: Any, facilities: Any, severities: Any, zone: Any) -> None: ...
def version() -> int: ...
def parse(
    line: Line,
    /,
    *,
    year: int,
    month: int | None = None,
    day: int | None = None,
    offset: int = 0,
    zone: str | None = None,
    variant: Variant = "either",
    errors: Errors = "strict",
    dialects: bool = True,
) -> Message: ...
def normalise(
    line: Line,
    /,
    *,
    year: int,
    month: int | None = None,
    day: int | None = None,
    offset: int = 0,
    zone: str | None = None,
    variant: Variant = "either",
    errors: Errors = "strict",
) -> str: ...
def settle(
    line: Line,
    /,
    *,
    year: int,
    month: int | None = None,
    day: int | None = None,
    offset: int = 0,
    zone: str | None = None,
    variant: Variant = "either",
    errors: Errors = "strict",
) -> str: ...
def to_rfc5424(
    line: Line,
    /,
    *,
    year: int,
    month: int | None = None,
    day: int | None = None,
    offset: int = 0,
    zone: str | None = None,
    variant: Variant = "either",
    errors: Errors = "strict",
    dialects: bool = True,
) -> str: ...
def json(
    line: Line,
    /,
    *,
    year: int,
    month: int | None = None,
    day: int | None = None,
    offset: int = 0,
    zone: str | None = None,
    variant: Variant = "either",
    errors: Errors = "strict",
    dialects: bool = True,
    raw: bool = False,
) -> str: ...
def dialect_name(number: int, /) -> str | None: ...
def decoded(line: bytes, is_latin1: bool) -> bytes: ...
def columns(
    buffer: bytes, variant: int, year: int, month: int, day: int, offset: int, zone: str | None, no_dialects: int, /
) -> bytearray: ...
def texts(buffer: bytes, columns: bytearray, which: int, begin: int, end: int) -> list[str | None]: ...
def categories(buffer: bytes, columns: bytearray, which: int, seed: int) -> tuple[bytearray, list[str]]: ...
