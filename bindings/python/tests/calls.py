#!/usr/bin/env python3
"""Calls the package so many times, with lines of all kinds and with wrong arguments, and sees that memory stays as it
was and that no value which all messages share is counted up or down.

    calls.py COUNT

What is allocated is counted by those who give it out, Python and the C library, to the byte. (How much of it the kernel
has at hand, as ru_maxrss says, differs from machine to machine, and from run to run by as much as a leak.)
"""
import ctypes
import gc
import itertools
import sys

import syslog_loose as it
from syslog_loose import _columns, _native

LINES = [
    "<34>Mar  2 06:35:05 gateway dropbear[2310]: Exit (root) from 10.0.4.17:51514",
    '<165>1 2003-10-11T22:14:15.003004005-07:00 mymachine app 7 ID47 [a b="c" d="\\"\\]"][e] größe',
    "<34>1 2003-10-11T22:14:15+00:30 h a name - - ",
    "1 - - - - - -",
    "1 0000-02-29T10:00:00Z - - - - - a year that datetime lacks",
    "1 - - - - - " + "".join('[e%d a="%d" b="\\\\"]' % (i, i) for i in range(40)) + " more than there is room for",
    "<34>Dec 31 23:59:59 h a: " + "x" * 5000,
    "no message",
    "1 - - - - - - \udc80",
]
CALLS = [it.parse, it.normalise, it.settle, it.to_rfc5424, it.json]
OPTIONS = [
    {"year": 2026}, {"year": 2026, "month": 1, "offset": -5400, "variant": "either"}, {"year": 2026, "variant": "3164"}
]
OPTIONS += [{"year": 2026, "month": 11, "day": 28, "zone": it} for it in ("CET-1CEST,M3.5.0,M10.5.0/3", "EST5EDT", 7)]
OPTIONS += [{"year": 2026, "errors": it} for it in ("replace", "latin-1", "ignore")]
OPTIONS += [
    {"year": 10000}, {"year": 1 << 40}, {"year": "2026"}, {"year": 2026, "variant": "rfc"}, {"month": 1}, {"yaer": 2026}
]


def call_all():
    """Calls each with each line, as a text and as bytes. Returns how many calls these were."""
    count = 0
    for call, line, options in itertools.product(CALLS, LINES, OPTIONS):
        for given in (line, line.encode(errors="surrogateescape")):
            count += 1
            try:
                call(given, **options)
            except (ValueError, TypeError):
                pass
    return count


def read_block():
    """Reads the lines as a block, with each text of theirs, and texts as categories. Returns how many calls these
    were."""
    block = "\n".join(LINES).encode(errors="surrogateescape")
    told = _native.columns(block, *_columns.Options(0, 2026, 11, 28, zone="CET-1CEST,M3.5.0,M10.5.0/3"))
    for place in _columns._PLACES.values():
        _native.texts(block, told, place, 0, len(LINES))
        _native.categories(block, told, place, 0)
    return 1 + 2 * len(_columns._PLACES)


def shared():
    """How often the values are referred to that messages share."""
    numbers = [it.parse(line, year=2026).protocol for line in LINES[:2]]
    zone = it.parse(LINES[1], year=2026).timestamp.tzinfo
    values = [None, True, False, (), *it.Facility, *it.Severity, it.Message, it.Element, it.ParseError, *numbers, zone]
    return [sys.getrefcount(value) for value in values]


class Allocated(ctypes.Structure):
    """The C library's struct mallinfo2, since glibc 2.33."""

    names = "arena ordblks smblks hblks hblkhd usmblks fsmblks uordblks fordblks keepcost".split()
    _fields_ = [(name, ctypes.c_size_t) for name in names]


def allocated():
    """How many objects Python has, how many bytes malloc has given out, and how many it keeps for that."""
    call = getattr(ctypes.CDLL(None), "mallinfo2", None)
    if call is None:
        return sys.getallocatedblocks(), 0, 0
    call.restype = Allocated
    told = call()
    return sys.getallocatedblocks(), told.uordblks + told.hblkhd, told.arena + told.hblkhd


def measured():
    gc.collect()
    # (up to Python 3.11 each free place of the cache of attributes refers to None, and which places are taken is
    # chance)
    if sys.version_info < (3, 12):
        sys._clear_type_cache()
    return shared(), allocated()


def main():
    most = int(sys.argv[1])
    done = 0
    # (what is made once, as the compiled form of a loop, is there after the first rounds)
    while done < most // 10:
        done += call_all() + read_block()
    counts, before = measured()
    while done < most:
        done += call_all() + read_block()
    counts_after, after = measured()
    objects, given, kept = (now - then for now, then in zip(after, before))
    # (the interpreter itself makes and drops some, but not with each call)
    moved = [now - then for now, then in zip(counts_after, counts) if abs(now - then) > 100]
    more = "%d objects, %d bytes and %d KB of malloc's more" % (objects, given, kept // 1024)
    print("%d calls: %s, %d values counted wrongly" % (done, more, len(moved)))
    return 1 if moved or objects > 1000 or given > 65536 or kept > 1 << 21 else 0


if __name__ == "__main__":
    sys.exit(main())
