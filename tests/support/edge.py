"""What tests/program, tests/json and tests/strict share: how a built program is run on some input, and what is seen of
it.

A case is a row of a table, and its streams are those of a shell's redirection. One that no redirection makes is a
function that starts the program itself; those of pipes are here, for each way to call a program that a `Mode`
describes.
"""
import os
import subprocess
import sys
import tempfile
import threading
from typing import Callable, NamedTuple

TOP = os.path.dirname(os.path.dirname(os.path.dirname(os.path.abspath(__file__))))
SECONDS = 60
MILLION = 1_000_000

READ_FAILED = b"read failed\n"
WRITE_FAILED = b"write failed\n"

# Two lines of RFC 5424 and one of RFC 3164, each with its printed form, and a line that has no reading.
LINE = b"<34>1 2003-10-11T22:14:15.003Z mymachine.example.com su - ID47 - message"
TIDY = b"<34>1 2003-10-11T22:14:15.003+00:00 mymachine.example.com su - ID47 - message"
BARE = b"<200>1 - - - - - -"
BARE_TIDY = b"<40>1 - - - - - - "
DASHED = b"<34>Oct 11 22:14:15 mymachine app: -5 degrees"
DASHED_TIDY = b"<34> 2019-10-11T22:14:15+00:00 mymachine app: -5 degrees"
BAD = b"gobbledegook"

# Lines of each severity, from the worst, of the host gw and the app sshd. Then lines that differ from these in one of
# the three, or nearly have it, and one that lacks them.
TO_CHOOSE = [
    *(b"<%d>1 - gw sshd - - - x" % (8 * 4 + severity) for severity in range(8)),
    b"<34>Oct 11 22:14:15 gw2 sshd: x",
    b"<38>Oct 11 22:14:15 gw cron: x",
    b"<36>1 - GW sshd2 - - - x",
    b"<36>1 - g\xc3\xa4w - - - - x",
    b"1 - - - - - - x",
]
# Flags, and which of these lines they choose, by their places.
CHOICES = {
    ("--severity", "emerg"): [0],
    ("--severity", "panic"): [0],
    ("--severity", "alert"): [0, 1],
    ("--severity", "crit"): [0, 1, 2, 8],
    ("--severity", "err"): [0, 1, 2, 3, 8],
    ("--severity", "error"): [0, 1, 2, 3, 8],
    ("--severity", "warning"): [0, 1, 2, 3, 4, 8, 10, 11],
    ("--severity", "warn"): [0, 1, 2, 3, 4, 8, 10, 11],
    ("--severity", "notice"): [0, 1, 2, 3, 4, 5, 8, 10, 11],
    ("--severity", "info"): [0, 1, 2, 3, 4, 5, 6, 8, 9, 10, 11],
    ("--severity", "debug"): [0, 1, 2, 3, 4, 5, 6, 7, 8, 9, 10, 11],
    ("--host", "gw"): [0, 1, 2, 3, 4, 5, 6, 7, 9],
    ("--host", "gw2"): [8],
    ("--host", "GW"): [10],
    ("--host", "g\u00e4w"): [11],
    ("--host", "g"): [],
    ("--host", "g?w"): [],
    ("--host", ""): [],
    ("--app", "sshd"): [0, 1, 2, 3, 4, 5, 6, 7, 8],
    ("--app", "sshd2"): [10],
    ("--app", "ssh"): [],
    ("--host", "gw", "--severity", "err"): [0, 1, 2, 3],
    ("--app", "cron", "--host", "gw", "--severity", "info"): [9],
    ("--app", "cron", "--host", "gw", "--severity", "err"): [],
    (): [0, 1, 2, 3, 4, 5, 6, 7, 8, 9, 10, 11, 12],
}

# Lists with text after them, by what they are: as RFC 5424 prints them, where it reads them, and as RFC 3164 does.
HOSTILE_LISTS = {
    "a million opening brackets": (b"[" * MILLION, None, b"[" * MILLION),
    "a million closing brackets": (b"[" + b"]" * MILLION, b"- " + b"]" * (MILLION - 1), b"[" + b"]" * MILLION),
    "a quote that never closes": (b'[a b="' + b"c" * MILLION, None, b'[a b="' + b"c" * MILLION),
    **{
        name: (given, given, given)
        for name, given in {
            "a million backslashes": b'[a b="' + b"\\c" * MILLION + b'"] x',
            "a hundred thousand parameters": b"[a" + b' b="c"' * 100_000 + b"] x",
            "a hundred thousand elements": b'[a b="c"]' * 100_000 + b" x",
        }.items()
    },
}
# Hostile lines, those lists among them, with their printed form: none where they have no reading.
HOSTILE_LINES = {
    "a million blanks at each end": (b" " * MILLION + LINE + b" " * MILLION, TIDY),
    "a priority of a million zeros": (b"<" + b"0" * MILLION + b"34>1 - - - - - -", b"<34>1 - - - - - - "),
    "a version of a million nines": (b"9" * MILLION + b" - - - - - -", None),
    "a process id of a million zeros": (b"1 - h a " + b"0" * MILLION + b"7 m - x", b"<47>1 - h a 7 m - x"),
    "a process id of a million nines": (
        b"1 - h a " + b"9" * MILLION + b" m - x", b"<47>1 - h a " + b"9" * MILLION + b" m - x"
    ),
    "a million decimals": (
        b"1 2020-01-01T00:00:00." + b"1" * MILLION + b"Z h a 1 m - x",
        b"<47>1 2020-01-01T00:00:00.111111111+00:00 h a 1 m - x",
    ),
    "a host of a million colons": (
        b"1 - " + b":" * MILLION + b"h a 1 m - x", b"<47>1 - " + b":" * MILLION + b"h a 1 m - x"
    ),
    "an app name of a million brackets": (
        b"1 - h " + b"[" * MILLION + b" 1 m - x", b"<47>1 - h " + b"[" * MILLION + b" 1 m - x"
    ),
    "RFC 3164: a million blanks at each end": (b" " * MILLION + DASHED + b" " * MILLION, DASHED_TIDY),
    "RFC 3164: a day of a million zeros": (
        b"Oct " + b"0" * MILLION + b"5 07:08:09 h a: x", b"<47> 2019-10-05T07:08:09+00:00 h a: x"
    ),
    "RFC 3164: a year of a million nines": (b"Oct 5 " + b"9" * MILLION + b" 07:08:09 h a: x", None),
    "RFC 3164: a host of a million colons": (
        b"- " + b":" * MILLION + b"h a: x", b"<47> - " + b":" * MILLION + b"h a: x"
    ),
    "RFC 3164: a tag of a million brackets": (
        b"- h " + b"[" * MILLION + b": x", b"<47> - h " + b"[" * MILLION + b": x"
    ),
    "RFC 3164: a process id of a million zeros": (b"- h a[" + b"0" * MILLION + b"7]: x", b"<47> - h a[7]: x"),
    **{
        name: (b"1 - - - - - " + given, strict and b"<47>1 - - - - - " + strict)
        for name, (given, strict, _) in HOSTILE_LISTS.items()
    },
    **{
        "RFC 3164: " + name: (b"- h a: " + given, b"<47> - h a: " + loose)
        for name, (given, _, loose) in HOSTILE_LISTS.items()
    },
}


class Seen(NamedTuple):
    status: int
    written: bytes
    said: bytes


class Case(NamedTuple):
    name: str
    args: tuple
    given: bytes
    redirection: str
    wanted: Seen


def case(name, given=b"", args=("2019",), redirection="", status=0, written=b"", said=b""):
    return Case(name, args, given, redirection, Seen(status, written, said))


def refused(count, lines):
    return b"refused %d of %d lines\n" % (count, lines)


def no_messages(program, count, lines, invalid=0, replaced=0, too_long=0):
    """What a program says of its lines: how many are no messages, how many of these are not UTF-8 and how many are too
    long, and how many others have U+FFFD for what is not UTF-8."""
    said = b""
    if count:
        kinds = [b"%d %s" % (many, what) for many, what in ((invalid, b"not UTF-8"), (too_long, b"too long")) if many]
        reasons = b" (%s)" % b", ".join(kinds) if kinds else b""
        said += b"%s: %d of %d lines are no messages%s\n" % (program, count, lines, reasons)
    if replaced:
        said += b"%s: %d of %d lines have U+FFFD for what is not UTF-8\n" % (program, replaced, lines)
    return said


def not_text(line):
    """The line with a byte that is in no UTF-8, at each of its places."""
    return [line[:at] + b"\xff" + line[at:] for at in range(len(line) + 1)]


def run(program, it):
    command = 'ulimit -c 0; exec "$@" ' + it.redirection
    words = ["sh", "-c", command, "sh", program, *it.args]
    # The input is a file, which can't hold up the two pipes.
    with tempfile.TemporaryFile() as given:
        given.write(it.given)
        given.seek(0)
        ran = subprocess.run(words, stdin=given, stdout=subprocess.PIPE, stderr=subprocess.PIPE, timeout=SECONDS)
    return Seen(ran.returncode, ran.stdout, ran.stderr)


def wrong_arguments(usage, given, *rows):
    """Cases of arguments that are wrong. The input isn't read, so nothing is said of its lines."""
    return [case("the arguments %r" % (args,), given, args=args, status=2, said=usage) for args in rows]


# How dates that show no year or no zone are completed: the timestamps of these dates by these arguments.
CENTRAL = "CET-1CEST,M3.5.0,M10.5.0/3"
COMPLETED = {
    # The last year that puts the date no more than a day past the day.
    ("2026-11-28",): {
        "Nov 28 23:59:59": "2026-11-28T23:59:59+00:00",
        "Nov 29 23:59:59": "2026-11-29T23:59:59+00:00",
        "Nov 30 00:00:00": "2025-11-30T00:00:00+00:00",
        "Dec 20 22:14:15": "2025-12-20T22:14:15+00:00",
        "Jan  1 00:00:00": "2026-01-01T00:00:00+00:00",
        "Feb 29 12:00:00": "2024-02-29T12:00:00+00:00",
        "Dec 20 2026 22:14:15": "2026-12-20T22:14:15+00:00",
        "2026-12-20T22:14:15Z": "2026-12-20T22:14:15+00:00",
    },
    ("--", "2026-12-31"): {
        "Jan  1 23:59:59": "2027-01-01T23:59:59+00:00",
        "Jan  2 00:00:00": "2026-01-02T00:00:00+00:00",
        "Dec 31 00:00:00": "2026-12-31T00:00:00+00:00",
    },
    ("2028-02-28",): {"Feb 29 00:00:00": "2028-02-29T00:00:00+00:00", "Mar  1 00:00:00": "2027-03-01T00:00:00+00:00"},
    ("2028-02-27",): {"Feb 29 00:00:00": "2024-02-29T00:00:00+00:00"},
    # (1900 is no leap year, and 2000 is one)
    ("1904-02-27",): {"Feb 29 00:00:00": "1896-02-29T00:00:00+00:00"},
    ("2000-02-29",): {"Feb 29 00:00:00": "2000-02-29T00:00:00+00:00", "Mar  1 00:00:00": "2000-03-01T00:00:00+00:00"},
    # (no day comes after this one)
    ("9999-12-31",): {"Dec 30 12:00:00": "9999-12-30T12:00:00+00:00", "Jan  1 00:00:00": "9999-01-01T00:00:00+00:00"},
    ("--offset", "-09:30", "2026-11-28"): {"Nov 29 23:59:59": "2026-11-29T23:59:59-09:30"},
    # A zone with summer time, on both sides of its changes. In the gap the fields are taken as UTC, and of two instants
    # that a clock shows alike it is the earlier one.
    ("--zone", CENTRAL, "2026"): {
        "Mar 29 01:59:59": "2026-03-29T01:59:59+01:00",
        "Mar 29 02:30:00": "2026-03-29T04:30:00+02:00",
        "Mar 29 03:00:00": "2026-03-29T03:00:00+02:00",
        "Oct 25 01:59:59": "2026-10-25T01:59:59+02:00",
        "Oct 25 02:30:00": "2026-10-25T02:30:00+02:00",
        "Oct 25 03:00:00": "2026-10-25T03:00:00+01:00",
        "Jul  1 2020 12:00:00": "2020-07-01T12:00:00+02:00",
        "2026-07-01T12:00:00-07:00": "2026-07-01T12:00:00-07:00",
    },
    ("--zone", CENTRAL, "2026-03-28"): {
        "Mar 29 12:00:00": "2026-03-29T12:00:00+02:00", "Mar 30 12:00:00": "2025-03-30T12:00:00+02:00"
    },
    ("--zone", CENTRAL, "--", "2026-01"): {"Dec 31 23:59:59": "2025-12-31T23:59:59+01:00"},
    ("--zone", "AEST-10AEDT,M10.1.0,M4.1.0/3", "2026"): {
        "Jan  1 00:00:00": "2026-01-01T00:00:00+11:00", "Jul  1 00:00:00": "2026-07-01T00:00:00+10:00"
    },
    # Zones without summer time.
    ("--zone", "EST5", "2026"): {"Jul  1 00:00:00": "2026-07-01T00:00:00-05:00"},
    ("--zone", "<+0530>-5:30", "2026"): {"Jul  1 00:00:00": "2026-07-01T00:00:00+05:30"},
    ("--zone", "UTC0", "2026"): {"Jul  1 00:00:00": "2026-07-01T00:00:00+00:00"},
}
# Words of the form of a day that the calendar does not have, and words of nearly that form.
NO_DAYS = (
    "2026-02-29",
    "1900-02-29",
    "2026-04-31",
    "2026-01-00",
    "2026-01-32",
    "2026-13-01",
    "2026-00-01",
    "2026-1-01",
    "2026-01-1",
    "2026-01-001",
    "2026-01-1a",
    "2026-01-",
    "2026--01",
    "2026-01-01-",
    "2026-01-01-01",
    "20260-01-01",
    "-01-01",
    "20260101",
    "2026/01/01",
)
# Words that are no POSIX rule. (One with summer time says when it changes.)
NO_RULES = (
    "",
    "CET",
    "CET-1CEST",
    "CE-1",
    "CET-25",
    "CET-1CEST,M3.5.0",
    "CET-1CEST,M13.5.0,M10.5.0/3",
    CENTRAL + "x",
    CENTRAL + " ",
    "Europe/Berlin",
    ":Europe/Berlin",
    "+01:00",
    "2026",
)
# Words that are no year.
NO_YEARS = ("x", "", "20190", "00000", "+19", "-19", " 2019", "2019 ", "2019\n", "20.9", "２０１９", "--", b"\xff")


class Mode(NamedTuple):
    """A way to call a program: its arguments, a line, what is written of it, and what is said of so many of so many
    lines.

    `plain` takes what was written to what is compared.
    """

    args: tuple
    line: bytes
    output: bytes
    says: object = None
    plain: Callable = bytes

    def wanted(self, count):
        """What must be seen after n of these lines."""
        written = self.plain((self.output + b"\n") * count)
        return Seen(1, written, self.says(count, count)) if self.says else Seen(0, written, b"")

    def ended(self, started, written=b""):
        """What the program did, by its end: what it still writes comes after what was read of it."""
        rest, said = started.communicate(timeout=SECONDS)
        return Seen(started.returncode, self.plain(written + (rest or b"")), said)


def start(program, args, **streams):
    given = {"stdin": subprocess.PIPE, "stdout": subprocess.PIPE, "stderr": subprocess.PIPE, **streams}
    return subprocess.Popen([program, *args], bufsize=0, **given)


def next_line(stream):
    """The bytes up to the next line feed, or to the end."""
    seen = b""
    while not seen.endswith(b"\n"):
        byte = stream.read(1)
        if not byte:
            break
        seen += byte
    return seen


def a_reader_that_is_gone(program, mode):
    reading, writing = os.pipe()
    os.close(reading)
    with os.fdopen(writing, "wb") as gone:
        started = start(program, mode.args, stdout=gone)
    started.stdin.write(mode.line + b"\n")
    return mode.ended(started), Seen(2, mode.plain(b""), WRITE_FAILED)


def a_reader_that_goes_away(program, mode):
    reading, writing = os.pipe()
    with tempfile.TemporaryFile() as given, os.fdopen(writing, "wb") as output:
        given.write((mode.line + b"\n") * 20_000)
        given.seek(0)
        started = start(program, mode.args, stdin=given, stdout=output)
    with os.fdopen(reading, "rb", 0) as output:
        first = next_line(output)
    return mode.ended(started, first), Seen(2, mode.plain(mode.output + b"\n"), WRITE_FAILED)


def lines_come_while_the_input_is_open(program, mode):
    started = start(program, mode.args)
    late = threading.Timer(SECONDS, started.kill)
    late.start()
    seen = b""
    for _ in range(3):
        started.stdin.write(mode.line + b"\n" + mode.line[:8])
        seen += next_line(started.stdout)
        started.stdin.write(mode.line[8:] + b"\n")
        seen += next_line(started.stdout)
    late.cancel()
    return mode.ended(started, seen), mode.wanted(6)


def an_input_that_comes_a_byte_at_a_time(program, mode):
    started = start(program, mode.args)
    for at in range(2 * len(mode.line) + 1):
        started.stdin.write((mode.line + b"\n" + mode.line)[at : at + 1])
    return mode.ended(started), mode.wanted(2)


def an_output_that_is_read_slowly(program, mode):
    with tempfile.TemporaryFile() as given:
        given.write((mode.line + b"\n") * 2_000)
        given.seek(0)
        started = start(program, mode.args, stdin=given)
    seen = b""
    while True:
        part = started.stdout.read(97)
        if not part:
            return mode.ended(started, seen), mode.wanted(2_000)
        seen += part


PIPES = [
    a_reader_that_is_gone,
    a_reader_that_goes_away,
    lines_come_while_the_input_is_open,
    an_input_that_comes_a_byte_at_a_time,
    an_output_that_is_read_slowly,
]


def piped(modes):
    """The cases of pipes in each mode, by the front of their names: functions of the program."""
    return [
        (front + judge.__name__.replace("_", " "), lambda program, judge=judge, mode=mode: judge(program, mode))
        for judge in PIPES
        for front, mode in modes.items()
    ]


def asked(program, word, **streams):
    """What the program does with a lone word, and no input."""
    given = {"stdout": subprocess.PIPE, "stderr": subprocess.PIPE, **streams}
    return subprocess.run([program, word], stdin=subprocess.DEVNULL, timeout=SECONDS, **given)


def of_itself(text):
    """The cases of how a program says how it is called, in this text, and that it judges its arguments before it
    reads."""

    def tells(program):
        ran = asked(program, "--help")
        return (ran.returncode, ran.stdout, ran.stderr), (0, text, b"")

    def tells_nobody(program):
        with open("/dev/full", "wb") as full:
            ran = asked(program, "--help", stdout=full)
        return (ran.returncode, ran.stderr), (2, WRITE_FAILED)

    def reads_nothing(program):
        with tempfile.TemporaryFile() as given:
            given.write(b"a line")
            given.flush()
            given.seek(0)
            subprocess.run([program, "x"], stdin=given, stderr=subprocess.DEVNULL, timeout=SECONDS)
            return os.lseek(given.fileno(), 0, os.SEEK_CUR), 0

    return [
        ("it says how it is called", tells),
        ("how it is called is lost on a full device", tells_nobody),
        ("arguments are judged before anything is read", reads_nothing),
    ]


def short(it):
    if isinstance(it, Seen):
        return "status %d, written %s, said %s" % (it.status, short(it.written), short(it.said))
    text = repr(it)
    return text if len(text) < 300 else "%s.. (%d in all)" % (text[:300], len(it))


def judges(cases, plain=bytes):
    """Each case's name, and a function of the program that returns what was seen and what is wanted."""

    def judge(program, it):
        seen = run(program, it)
        return seen._replace(written=plain(seen.written)), it.wanted

    return [(it.name, lambda program, it=it: judge(program, it)) for it in cases]


def main(crate, judges):
    """Judges each program that is named, or the crate's own: `judges` are names and functions of the program, each of
    which returns what it saw and what it wants. The status is 0 if all were equal."""
    name = os.path.basename(sys.argv[0])
    programs = sys.argv[1:] or [os.path.join(TOP, "crates", crate, "out", crate)]
    missing = [it for it in programs if not os.path.isfile(it)]
    if missing:
        sys.exit("%s: there is no %s: rt run builds it, in crates/%s" % (name, missing[0], crate))
    passed = failed = 0
    for program in programs:
        for what, judge in judges:
            try:
                seen, wanted = judge(os.path.abspath(program))
            except (OSError, subprocess.SubprocessError) as fault:
                seen, wanted = "no end: %s" % fault, "an end"
            passed, failed = passed + (seen == wanted), failed + (seen != wanted)
            if seen != wanted:
                print(
                    "%s: %s: %s\n  seen:   %s\n  wanted: %s" % (
                        name, os.path.basename(program), what, short(seen), short(wanted)
                    )
                )
    print("%s: %d passed, %d failed" % (name, passed, failed))
    return 1 if failed or not passed else 0
