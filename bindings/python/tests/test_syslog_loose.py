"""Tests of the package as it is installed, in the folder that PYTHONPATH names: python3 -m unittest discover
bindings/python/tests"""
import csv
import gc
import importlib.util
import inspect
import io
import itertools
import json
import os
import pickle
import signal
import subprocess
import sys
import tempfile
import threading
import unittest
from datetime import datetime, timedelta, timezone

HERE = os.path.dirname(os.path.abspath(__file__))
SAMPLES = os.path.join(HERE, "..", "..", "..", "samples")
import syslog_loose  # noqa: E402
# noqa: E402
from syslog_loose import Element, Facility, ParseError, Severity, normalise, parse, read, settle, to_rfc5424

WRITERS = normalise, settle, to_rfc5424, syslog_loose.json
# As docs/SENDERS.md has Cisco's form.
SWITCH = (
    "<187>4211: core-sw1: Mar  1 18:48:50.483 CET: "
    "%LINK-3-UPDOWN: Interface GigabitEthernet1/0/3, changed state to down"
)
RULE = "CET-1CEST,M3.5.0,M10.5.0/3"
WRONG_ZONES = ["", "EST5EDT", "Europe/Berlin", RULE + "\0", "\xc9ST5", "CET-1\udc80", "A" * 96, 7, b"CET-1"]
LINE = '<165>1 2003-10-11T22:14:15.003004005-07:00 mymachine app 7 ID47 [a b="c" d="\\"\\]"][e] größe'


class Parsing(unittest.TestCase):
    def test_each_field(self):
        m = parse(LINE, year=2026)
        self.assertEqual((m.protocol, m.version, m.facility, m.severity), (5424, 1, Facility.LOCAL4, Severity.NOTICE))
        self.assertEqual(m.timestamp, datetime(2003, 10, 11, 22, 14, 15, 3004, timezone(timedelta(hours=-7))))
        self.assertEqual((m.timestamp.utcoffset(), m.nanosecond), (timedelta(hours=-7), 3004005))
        self.assertEqual((m.hostname, m.appname, m.procid, m.msgid), ("mymachine", "app", 7, "ID47"))
        self.assertEqual(m.structured_data, (Element("a", (("b", "c"), ("d", '"]'))), Element("e", ())))
        self.assertEqual((m.message, m.raw, m.timestamp_text), ("größe", LINE, None))

    def test_what_is_absent(self):
        m = parse("1 - - - - - -", year=2026)
        none = m.facility, m.severity, m.timestamp, m.timestamp_text, m.hostname, m.appname, m.procid, m.msgid
        self.assertEqual(none, (None,) * 8)
        self.assertEqual((m.version, m.nanosecond, m.structured_data, m.message), (1, 0, (), ""))
        self.assertIsNone(parse("<34>Mar  2 06:35:05 h a: x", year=2026).version)
        self.assertEqual(parse("<34>1 - - - name - - x", year=2026).procid, "name")

    def test_bytes_and_text_are_one(self):
        for line in (LINE, "<34>Mar  2 06:35:05 gateway dropbear[2310]: Exit (root)"):
            self.assertEqual(parse(line, year=2026), parse(line.encode(), year=2026))

    def test_the_lines_of_samples(self):
        """By the fields that the Rust crate gave."""
        for name in ("first", "machines"):
            place = os.path.join(SAMPLES, name)
            with open(place + ".log", "rb") as lines, open(place + ".fields", encoding="utf-8") as wanted:
                for line, want in zip(lines, map(json.loads, wanted)):
                    with self.subTest(line=line):
                        self.compare(line.rstrip(b"\n"), want)

    def compare(self, line, want):
        if not want["ok"]:
            with self.assertRaises(ParseError):
                parse(line, year=2026, dialects=False)
            return
        m = parse(line, year=2026, dialects=False)
        at = want["timestamp"]
        self.assertEqual("RFC%d" % m.protocol, want["protocol"])
        self.assertEqual(None if m.facility is None else "LOG_" + m.facility.name, want["facility"])
        self.assertEqual(None if m.severity is None else "SEV_" + m.severity.name, want["severity"])
        self.assertEqual(m.timestamp is None, at is None)
        if at:
            since = m.timestamp - datetime(1970, 1, 1, tzinfo=timezone.utc)
            self.assertEqual(since // timedelta(microseconds=1), at["nanos"] // 1000)
            self.assertEqual(
                (m.nanosecond, m.timestamp.utcoffset()), (at["nanos"] % 10**9, timedelta(seconds=at["offset"]))
            )
        self.assertEqual(
            (m.hostname, m.appname, m.msgid, m.message),
            tuple(want[it] for it in ("hostname", "appname", "msgid", "msg")),
        )
        self.assertEqual(m.procid, want["procid"] and want["procid"]["value"])
        elements = tuple(
            Element(it["id"], tuple((name, plain) for name, _, plain in it["params"])) for it in want["structured_data"]
        )
        self.assertEqual(m.structured_data, elements)
        self.assertEqual(normalise(line, year=2026), want["printed"])

    def test_a_message_is_frozen(self):
        m = parse(LINE, year=2026)
        with self.assertRaises(AttributeError):
            m.hostname = "another"
        self.assertEqual({m: 1}[parse(LINE, year=2026)], 1)

    def test_many_elements(self):
        for count in (7, 8, 9, 31, 32, 33, 500):
            line = "1 - - - - - " + "".join('[e%d a="%d" ü="\\\\"]' % (i, i) for i in range(count))
            want = tuple(Element("e%d" % i, (("a", str(i)), ("ü", "\\"))) for i in range(count))
            self.assertEqual(parse(line, year=2026).structured_data, want)
            self.assertEqual(parse("1 - - - - - [x]", year=2026).structured_data, (Element("x", ()),))

    def test_long_lines(self):
        for size in (4095, 4096, 4097, 1 << 20):
            line = "1 - - - - - - ".ljust(size, "ü")
            self.assertEqual(parse(line, year=2026).message, "ü" * (size - 14))
            self.assertEqual(settle(line, year=2026), "<47>" + line)


class OtherBytes(unittest.TestCase):
    """Lines in bytes that are not UTF-8."""

    LINE = b'<34>1 2003-10-11T22:14:15Z h\xe9 app 7 - [a b="\xff"] caf\xe9 \xe2\x82 x'
    NONE = b"caf\xe9"
    TEXTS = {"replace": LINE.decode(errors="replace"), "latin-1": LINE.decode("latin-1")}

    def test_they_are_refused(self):
        for errors in ({}, {"errors": "strict"}):
            for call in (parse, *WRITERS):
                with self.assertRaises(ParseError) as refused:
                    call(self.LINE, year=2026, **errors)
                self.assertEqual(refused.exception.line, self.LINE)

    def test_they_are_decoded(self):
        for errors, text in self.TEXTS.items():
            m = parse(self.LINE, year=2026, errors=errors)
            self.assertEqual(m, parse(text, year=2026))
            self.assertEqual(m.raw, text)
            for call in (normalise, settle, to_rfc5424):
                self.assertEqual(call(self.LINE, year=2026, errors=errors), call(text, year=2026))
        self.assertEqual(parse(self.LINE, year=2026, errors="replace").message, "caf\ufffd \ufffd x")
        self.assertEqual(parse(self.LINE, year=2026, errors="latin-1").message, "caf\xe9 \xe2\x82 x")

    def test_utf8_and_texts_are_read_as_they_are(self):
        for errors in ("strict", "replace", "latin-1"):
            for line in (LINE, LINE.encode(), "1 - - - - - - x", b"1 - - - - - - x"):
                self.assertEqual(parse(line, year=2026, errors=errors), parse(line, year=2026))
                self.assertEqual(to_rfc5424(line, year=2026, errors=errors), to_rfc5424(line, year=2026))

    def test_a_refused_line_is_as_it_was_given(self):
        for errors in ("replace", "latin-1"):
            with self.assertRaises(ParseError) as refused:
                parse(self.NONE, year=2026, errors=errors)
            self.assertEqual(refused.exception.line, self.NONE)

    def test_objects_say_what_was_replaced(self):
        for raw in (False, True):
            plain = {it: json.loads(syslog_loose.json(text, year=2026, raw=raw)) for it, text in self.TEXTS.items()}
            made = {it: json.loads(syslog_loose.json(self.LINE, year=2026, raw=raw, errors=it)) for it in plain}
            self.assertEqual(list(made["replace"].items()), [*plain["replace"].items(), ("invalid_utf8", True)])
            self.assertEqual(made["latin-1"], plain["latin-1"])
        self.assertNotIn("invalid_utf8", syslog_loose.json(LINE.encode(), year=2026, errors="replace"))

    def test_parts_that_are_replaced(self):
        """As Python's own decoder replaces them."""
        some = [bytes([it]) for it in b"a\x7f\x80\x8f\x90\x9f\xa0\xbf\xc1\xc2\xdf\xe0\xe1\xed\xef\xf0\xf1\xf4\xf5\xff"]
        for bytes_ in map(b"".join, itertools.product(some, repeat=3)):
            line = b"1 - - - - - - |" + bytes_ + b"|"
            self.assertEqual(parse(line, year=2026, errors="replace").raw, line.decode(errors="replace"))

    def test_a_file(self):
        given = [self.LINE + b"\n", b"1 - - - - - - x\n", self.NONE]
        for errors, text in self.TEXTS.items():
            refused = []
            seen = [it.raw for it in read(given, year=2026, errors=errors, refused=refused.append)]
            self.assertEqual((seen, refused), ([text, "1 - - - - - - x"], [self.NONE]))
        with self.assertRaises(ParseError):
            list(read(given, year=2026))

    def test_columns(self):
        from syslog_loose import _columns

        given = b"\n".join([self.LINE, b"1 - - - - - - \xc3\xa9", self.NONE]) + b"\n"
        wanted = {
            "strict": (given, b"\x02\x00\x02"),
            "replace": (given.decode(errors="replace").encode(), b"\x00\x00\x01"),
            "latin-1": (given.decode("latin-1").replace("\xc3\xa9", "\xe9").encode(), b"\x00\x00\x01"),
        }
        for errors, want in wanted.items():
            buffer, told = _columns._told(given, _columns.Options(0, 2026), errors)
            begin = 3 * _columns._BEFORE_OUTCOME
            self.assertEqual((buffer, bytes(told[begin : begin + 3])), want)
        self.assertEqual(_columns._COLUMNS[-5][0], "outcome")
        with self.assertRaises(ValueError):
            _columns._told(given, _columns.Options(0, 2026), "ignore")

    def test_what_errors_may_be(self):
        for errors in ("ignore", "latin1", "", None, 1):
            with self.assertRaises(ValueError):
                parse(self.LINE, year=2026, errors=errors)


class Dates(unittest.TestCase):
    DECEMBER = "<34>Dec 31 23:59:59 h a: x"

    def test_year_month_and_offset(self):
        for options, want in (
            ({"year": 2020}, "2020-12-31T23:59:59+00:00"),
            ({"year": 2020, "month": 1}, "2019-12-31T23:59:59+00:00"),
            ({"year": 2020, "month": 12, "offset": 3600}, "2020-12-31T23:59:59+01:00"),
            ({"year": 2020, "offset": -3661}, "2020-12-31T23:59:59-01:01:01"),
        ):
            self.assertEqual(parse(self.DECEMBER, **options).timestamp.isoformat(), want)

    def test_day_and_zone(self):
        on_the_day = {"year": 2026, "month": 11, "day": 28}
        for date, year in (("Nov 29", 2026), ("Nov 30", 2025), ("Dec 20", 2025), ("Feb 29", 2024)):
            self.assertEqual(parse("<34>%s 06:35:05 h a: x" % date, **on_the_day).timestamp.year, year)
        for rule, date, shown in (
            (RULE, "Jul  2", "2026-07-02T06:35:05+02:00"),
            (RULE, "Nov  2", "2026-11-02T06:35:05+01:00"),
            ("<+0330>-3:30", "Nov 30", "2025-11-30T06:35:05+03:30"),
            (None, "Nov 30", "2025-11-30T06:35:05+00:00"),
        ):
            line = "<34>%s 06:35:05 h a: x" % date
            options = {**on_the_day, "zone": rule}
            self.assertEqual(parse(line, **options).timestamp.isoformat(), shown)
            self.assertEqual([it.timestamp.isoformat() for it in read([line], **options)], [shown])
            self.assertEqual(normalise(line, **options), "<34> %s h a: x" % shown)
            self.assertEqual(settle(line, **options), "<34> %s h a: x" % shown)
            self.assertEqual(to_rfc5424(line, **options), "<34>1 %s h a - - - x" % shown)
            self.assertEqual(json.loads(syslog_loose.json(line, **options))["timestamp"], shown)

    def test_before_1970(self):
        m = parse("1 1969-12-31T23:59:58.5Z - - - - -", year=2026)
        self.assertEqual((m.timestamp.isoformat(), m.nanosecond), ("1969-12-31T23:59:58.500000+00:00", 500_000_000))

    def test_what_datetime_has_not(self):
        for line, year, want in (
            ("1 0000-02-29T10:00:00Z - - - - - x", 2026, "0000-02-29T10:00:00+00:00"),
            (self.DECEMBER, 0, "0000-12-31T23:59:59+00:00"),
        ):
            m = parse(line, year=year)
            self.assertEqual((m.timestamp, m.timestamp_text), (None, want))
        m = parse(self.DECEMBER, year=2026, offset=90000)
        self.assertIsNone(m.timestamp)
        self.assertTrue(m.timestamp_text.startswith("2026-12-31T23:59:59"))

    def test_what_the_line_shows(self):
        for line, want in (
            (self.DECEMBER, (False, False)),
            ("<34>Dec 31 2019 23:59:59 h a: x", (True, False)),
            ("<34>2019-12-31T23:59:59Z h a: x", (True, True)),
            (LINE, (True, True)),
            ("1 - - - - - -", (False, False)),
        ):
            m = parse(line, year=2026)
            self.assertEqual((m.shows_year, m.shows_offset), want)

    def test_dialects(self):
        m = parse(SWITCH, year=2026)
        self.assertEqual(
            (m.dialect, m.hostname, m.appname, m.procid), ("cisco-ios", "core-sw1", "%LINK-3-UPDOWN", None)
        )
        self.assertEqual(m.message, "Interface GigabitEthernet1/0/3, changed state to down")
        self.assertEqual((m.facility, m.severity, m.structured_data), (Facility.LOCAL7, Severity.ERR, ()))
        self.assertEqual(m.timestamp.isoformat(), "2026-03-01T18:48:50.483000+00:00")
        made = json.loads(syslog_loose.json(SWITCH, year=2026))
        self.assertEqual((made["hostname"], made["dialect"]), ("core-sw1", "cisco-ios"))
        for line, want in (
            (SWITCH, (False, False)),
            ("<166>Mar 01 2026 18:48:50 asa1 : %ASA-6-302013: Built outbound TCP connection", (True, False)),
            ("2026-03-02T06:33:04+0100 laptop systemd[1]: Started Session 3 of User ann.", (True, True)),
            ("<190>000123: .Nov 28 06:33:04.007 UTC: %SEC-6-IPACCESSLOGP: list 101 denied tcp", (False, True)),
            ("<166>%ASA-6-305011: Built dynamic TCP translation", (False, False)),
        ):
            m = parse(line, year=2026)
            self.assertEqual((m.shows_year, m.shows_offset), want)
        firewall = "<166>Mar 01 2026 18:48:50 asa1 : %ASA-6-302013: Built outbound TCP connection"
        self.assertEqual(
            (parse(firewall, year=2026).dialect, parse(firewall, year=2026).hostname), ("cisco-asa", "asa1")
        )
        for options in ({"dialects": False}, {"variant": "3164"}):
            self.assertIsNone(parse(firewall, year=2026, **options).dialect)
            self.assertNotIn("dialect", json.loads(syslog_loose.json(firewall, year=2026, **options)))
        self.assertIsNone(parse(LINE, year=2026).dialect)
        early = parse(SWITCH, year=-5)
        self.assertEqual((early.timestamp, early.timestamp_text), (None, "-0005-03-01T18:48:50.483+00:00"))
        self.assertEqual(
            [syslog_loose.dialect_name(it) for it in (23, 0, 19, 1 << 40)], ["cisco-ios", None, None, None]
        )
        for call, options in itertools.product((normalise, settle), ({"dialects": False}, {"dialects": True})):
            with self.assertRaises(TypeError):
                call(LINE, year=2026, **options)

    def test_element_of_check_point(self):
        start, pairs = "<134>1 2026-03-02T06:33:04+00:00 gw CheckPoint 12 - ", r'[src:"10.0.0.3"; rule:"a\]b"; ] '
        for text in ("text", "Gr\u00fc\u00dfe"):
            m = parse(start + pairs + text, year=2026)
            self.assertEqual((m.dialect, m.message, m.unparsed_structured_data), ("check-point", text, None))
            self.assertEqual(m.structured_data, (("checkpoint@2620", (("src", "10.0.0.3"), ("rule", "a]b"))),))
            self.assertEqual(
                to_rfc5424(start + pairs + text, year=2026),
                start + r'[checkpoint@2620 src="10.0.0.3" rule="a\]b"] ' + text,
            )
        self.assertEqual(parse(start + pairs, year=2026, dialects=False).structured_data, ())

    def test_strict_lines_of_dialects(self):
        self.assertEqual(
            to_rfc5424(SWITCH, year=2026),
            "<187>1 2026-03-01T18:48:50.483+00:00 core-sw1 %LINK-3-UPDOWN - - - "
            "Interface GigabitEthernet1/0/3, changed state to down",
        )
        for options in ({"dialects": False}, {"variant": "3164"}):
            with self.assertRaises(ParseError):
                to_rfc5424(SWITCH, year=2026, **options)

    def test_variant(self):
        line = "<34>1 2003-10-11T22:14:15Z h a - - - x"
        self.assertEqual(parse(line, year=2026, variant="5424").protocol, 5424)
        with self.assertRaises(ParseError):
            parse(self.DECEMBER, year=2026, variant="5424")
        self.assertEqual(parse(self.DECEMBER, year=2026, variant="3164").protocol, 3164)


class Refusals(unittest.TestCase):
    def test_lines_that_are_no_messages(self):
        for line in ("gobbledegook", "", b"", b"1 - - - - - - gr\xfc\xdf", "1 - - - - - - \udc80"):
            for call in (parse, *WRITERS):
                with self.assertRaises(ParseError) as caught:
                    call(line, year=2026)
                self.assertEqual(caught.exception.line, line)
                self.assertIn(repr(line), str(caught.exception))

    def test_wrong_arguments(self):
        for options in (
            {"year": 10000}, {"year": 2026, "month": 13}, {"year": 2026, "offset": 93600}, {"year": 2026, "month": -1},
            {"year": 1 << 40}, {"year": "2026"}, {"year": 2026, "variant": "rfc"},
            {"year": 2026, "day": 1}, {"year": 2026, "month": 2, "day": 29}, {"year": 2026, "month": 1, "day": -1},
            *({"year": 2026, "zone": it} for it in WRONG_ZONES), {"year": 2026, "zone": RULE, "offset": 3600},
        ):  # fmt: skip
            for call in (parse, *WRITERS):
                with self.assertRaises((ValueError, TypeError)) as caught:
                    call(LINE, **options)
                self.assertNotIsInstance(caught.exception, ParseError)
        # What came before changes nothing of what comes after.
        self.assertEqual(parse(LINE, year=2026).procid, 7)


class Printing(unittest.TestCase):
    def test_normalise_and_settle(self):
        line = "<34>Oct 11 22:14:15 mymachine app[323]: - - - a message"
        self.assertEqual(normalise(line, year=2026), "<34> 2026-10-11T22:14:15+00:00 mymachine app[323]: - - a message")
        self.assertEqual(settle(line, year=2026), "<34> 2026-10-11T22:14:15+00:00 mymachine app[323]: a message")
        self.assertEqual(normalise(LINE.encode(), year=2026), LINE)

    def test_strict_rfc_5424(self):
        line = "Oct 11 22:14:15 mymachine app[323]: größe"
        self.assertEqual(to_rfc5424(line, year=2026), "<13>1 2026-10-11T22:14:15+00:00 mymachine app 323 - - größe")
        self.assertEqual(to_rfc5424(line, year=2026, month=1, offset=3600)[:31], "<13>1 2026-10-11T22:14:15+01:00")
        valid = LINE.replace("004005", "")
        self.assertEqual(to_rfc5424(valid.encode(), year=2026), valid)
        self.assertEqual(to_rfc5424(LINE, year=2026), LINE.replace("004005", "004"))

    def test_json(self):
        want = {
            "protocol": "RFC5424", "version": 1, "facility": "local4", "facility_code": 20, "severity": "notice",
            "severity_code": 5, "timestamp": "2003-10-11T22:14:15.003004005-07:00", "hostname": "mymachine",
            "appname": "app",
            "procid": "7", "msgid": "ID47", "structured_data": {"a": {"b": "c", "d": '"]'}, "e": {}},
            "message": "größe",
        }  # fmt: skip
        self.assertEqual(json.loads(syslog_loose.json(LINE, year=2026)), want)
        self.assertEqual(json.loads(syslog_loose.json(LINE.encode(), year=2026, raw=True)), {**want, "raw": LINE})
        dated = json.loads(syslog_loose.json("Dec 31 23:59:59 h a: x", year=2020, month=1, offset=3600))
        self.assertEqual(dated["timestamp"], "2019-12-31T23:59:59+01:00")
        again = json.loads(syslog_loose.json('1 - - - - - [a b="1" b="2"][a]', year=2026))
        self.assertEqual(again["structured_data"], {"a": [{"b": ["1", "2"]}, {}]})
        long = json.loads(syslog_loose.json("1 - - - - - - x%sy" % ("\t" * 10_000), year=2026))
        self.assertEqual(long["message"], "x%sy" % ("\t" * 10_000))


class Reading(unittest.TestCase):
    GIVEN = "<34>1 - a - - - - x\nno message\n<34>1 - b - - - - y".encode()

    def test_files(self):
        refused = []
        with tempfile.TemporaryDirectory() as folder:
            place = os.path.join(folder, "log")
            with open(place, "wb") as out:
                out.write(self.GIVEN)
            hosts = [m.hostname for m in read(place, year=2026, refused=refused.append)]
            with open(place, encoding="utf-8") as lines:
                again = [m.raw for m in read(lines, year=2026, refused=refused.append)]
        self.assertEqual(hosts, ["a", "b"])
        self.assertEqual(refused, [b"no message", "no message"])
        self.assertEqual(again, ["<34>1 - a - - - - x", "<34>1 - b - - - - y"])

    def test_without_refused_it_raises(self):
        found = read(self.GIVEN.split(b"\n"), year=2026)
        self.assertEqual(next(found).hostname, "a")
        with self.assertRaises(ParseError):
            next(found)

    def test_readers_within_readers(self):
        lines = self.GIVEN.split(b"\n")
        for one in read(lines, year=2026, refused=id):
            for other in read(lines, year=2020, refused=id):
                self.assertEqual(parse(self.GIVEN[:19], year=1999).message, "x")
                self.assertIn(one.hostname + other.hostname, ("aa", "ab", "ba", "bb"))

    def test_lines_while_a_line_is_read(self):
        """Garbage is collected while a message is made, and code that then runs reads other lines."""
        lines = ["1 - - - - - " + "".join('[%s%d a="%d"]' % (name, i, i) for i in range(8)) for name in "ab"]
        wanted = [parse(line, year=2026) for line in lines]
        found = []
        old = gc.get_threshold()

        def read_another(phase, told):
            found.append(parse(lines[1], year=2026))

        gc.callbacks.append(read_another)
        gc.set_threshold(1)
        try:
            read = [parse(lines[0], year=2026) for _ in range(50)]
        finally:
            gc.set_threshold(*old)
            gc.callbacks.remove(read_another)
        self.assertGreater(len(found), 50)
        self.assertEqual(set(read), {wanted[0]})
        self.assertEqual(set(found), {wanted[1]})

    def test_threads(self):
        wrong = []

        def work(number):
            for i in range(2000):
                year = 1971 + (number + i) % 90
                m = parse("<34>Mar  2 06:35:05 host%d a[%d]: x" % (number, i), year=year)
                if (m.timestamp.year, m.hostname, m.procid) != (year, "host%d" % number, i):
                    wrong.append(m)

        threads = [threading.Thread(target=work, args=(it,)) for it in range(8)]
        for it in threads:
            it.start()
        for it in threads:
            it.join()
        self.assertEqual(wrong, [])


@unittest.skipUnless(importlib.util.find_spec("numpy"), "numpy is not installed")
class Columns(unittest.TestCase):
    LINES = [
        LINE.encode(),
        b"<34>Mar  2 06:35:05 gateway dropbear[2310]: Exit",
        b"no message",
        b"1 - - - - - - gr\xfc\xdf",
        b"",
    ]
    LINES += ["<200>2019-12-31T23:59:59.5+01:00 ü a[name]: größe".encode(), b"<0>1 9998-12-31T23:59:59Z - - - - -"]
    LINES += [b"<34>Dec 31 2019 23:59:59 h a: a year and no offset", SWITCH.encode()]
    OPTIONS = {"year": 2026, "month": 3, "day": 1, "zone": RULE}

    def sources(self):
        whole = b"\n".join(self.LINES)
        with tempfile.TemporaryDirectory() as folder:
            place = os.path.join(folder, "log")
            with open(place, "wb") as out:
                out.write(whole)
            yield whole
            yield place
            with open(place, "rb") as file:
                yield file
        yield whole + b"\n"

    def check(self, columns, lines):
        buffer = columns["buffer"]

        def text(name, i):
            at, size = int(columns[name + "_at"][i]), int(columns[name + "_size"][i])
            return None if at < 0 else buffer[at : at + size].decode()

        self.assertEqual(len(columns["outcome"]), len(lines))
        for i, line in enumerate(lines):
            self.assertEqual(buffer[columns["line_at"][i] :][: columns["line_size"][i]], line)
            try:
                m = parse(line, **self.OPTIONS)
            except ParseError:
                self.assertIn(columns["outcome"][i], (1, 2))
                self.assertEqual((columns["protocol"][i], columns["severity"][i], columns["host_at"][i]), (0, -1, -1))
                continue
            told = [int(columns[it][i]) for it in ("outcome", "protocol", "facility", "severity", "elements")]
            numbers = [-1 if it is None else int(it) for it in (m.facility, m.severity)]
            self.assertEqual(told, [0, m.protocol, *numbers, len(m.structured_data)])
            self.assertEqual(syslog_loose.dialect_name(int(columns["dialect"][i])), m.dialect)
            self.assertEqual(
                [text(it, i) for it in ("host", "app", "msgid", "message")], [m.hostname, m.appname, m.msgid, m.message]
            )
            process = int(columns["process"][i]) if columns["has_number"][i] else text("process", i)
            self.assertEqual(
                (process, columns["shows_year"][i], columns["shows_offset"][i]),
                (m.procid, m.shows_year, m.shows_offset),
            )
            if m.timestamp is None or m.timestamp.year > 2261:
                self.assertEqual((str(columns["time"][i]), columns["nanosecond"][i]), ("NaT", m.nanosecond))
            else:
                since = m.timestamp - datetime(1970, 1, 1, tzinfo=timezone.utc)
                seconds = since // timedelta(seconds=1)
                self.assertEqual(int(columns["time"][i].astype("i8")), seconds * 10**9 + m.nanosecond)
                told = int(columns["nanosecond"][i]), int(columns["offset"][i])
                self.assertEqual(told, (m.nanosecond, m.timestamp.utcoffset() // timedelta(seconds=1)))

    def test_each_row_is_its_line(self):
        for source in self.sources():
            self.check(syslog_loose.read_columns(source, **self.OPTIONS), self.LINES)
        for count in (0, 1, 255, 256, 257, 1000):
            lines = [self.LINES[i % len(self.LINES)] for i in range(count)]
            given = b"".join(it + b"\n" for it in lines)
            self.check(syslog_loose.read_columns(given, **self.OPTIONS), lines)

    def test_wrong_options(self):
        for options in (
            {"year": 10000}, {"year": 1 << 40}, {"year": 2026, "month": 13}, {"year": 2026, "variant": "rfc"},
            {"year": 2026, "day": 1}, *({"year": 2026, "zone": it} for it in WRONG_ZONES[:-2]),
        ):  # fmt: skip
            with self.assertRaises(ValueError):
                syslog_loose.read_columns(b"x", **options)

    @unittest.skipUnless(importlib.util.find_spec("pandas"), "pandas is not installed")
    def test_frame(self):
        for source in self.sources():
            frame = syslog_loose.to_frame(source, year=2026)
            self.assertEqual(str(frame.dtypes["time"]), "datetime64[ns, UTC]")
            self.assertEqual(list(frame["refused"]), [False, False, True, True, True, False, False, False, False])
            self.assertEqual(list(frame["hostname"].cat.categories), ["mymachine", "gateway", "ü", "h", "core-sw1"])
            self.assertEqual(
                (list(frame["dialect"].cat.categories), list(frame["dialect"].cat.codes)),
                (["cisco-ios"], [-1] * 8 + [0]),
            )
            self.assertEqual(
                [frame[it][0] for it in ("facility", "severity", "appname", "procid")], ["local4", "notice", "app", "7"]
            )
            self.assertEqual([frame["procid"][i] for i in (1, 2, 5)], ["2310", None, "name"])
            self.assertEqual(
                [frame["message"][i] for i in (0, 2, 3, 5)],
                ["größe", "no message", "1 - - - - - - gr\ufffd\ufffd", "größe"],
            )
            self.assertEqual(frame["time"][1].isoformat(), "2026-03-02T06:35:05+00:00")

    @unittest.skipUnless(importlib.util.find_spec("pandas"), "pandas is not installed")
    def test_frame_of_many_lines(self):
        """More lines than are made at a time, and more hosts than a table of categories has at first."""
        numbers = [0, 7, -1, 2147483647, -2147483648]
        hosts = ["h%d" % (i % 700) for i in range(10_000)]
        lines = ["<34>Mar  2 06:35:05 %s a[%d]: m%d" % (host, numbers[i % 5], i) for i, host in enumerate(hosts)]
        frame = syslog_loose.to_frame("\n".join(lines).encode(), year=2026)
        self.assertEqual(list(frame["hostname"]), hosts)
        self.assertEqual(list(frame["procid"]), [str(numbers[i % 5]) for i in range(10_000)])
        self.assertEqual(list(frame["message"]), ["m%d" % i for i in range(10_000)])
        self.assertEqual(set(frame["msgid"]), {None})
        empty = syslog_loose.to_frame(b"", year=2026)
        self.assertEqual((len(empty), list(empty.columns)), (0, list(frame.columns)))

    def test_other_threads_run_while_lines_are_read(self):
        """Threads that never take turns by time: another one runs only where the lock is let go."""
        given = b"<34>Mar  2 06:35:05 h a: x\n" * 20_000
        syslog_loose.read_columns(given, year=2026)
        ran, ended = [], []

        def work():
            for _ in range(500):
                if ran:
                    break
                syslog_loose.read_columns(given, year=2026)
            ended.append(True)

        old = sys.getswitchinterval()
        sys.setswitchinterval(1000)
        try:
            thread = threading.Thread(target=work)
            thread.start()
            ran.append(not ended)
        finally:
            sys.setswitchinterval(old)
        thread.join()
        self.assertEqual(ran, [True])


NOT_THERE = "syslog_loose: there is no such year, month, day, offset or zone\n"


class Program(unittest.TestCase):
    GIVEN = b'<34>Mar  2 06:35:05 gw app[2310]: a, "b"\nnone\xff\n<34>1 - - - - - [a b="c\\"d"] x\ty\r1\n'

    def ran(self, *words, given=GIVEN):
        ran = subprocess.run([sys.executable, "-m", "syslog_loose", *words], input=given, capture_output=True)
        return ran.returncode, ran.stdout.decode(), ran.stderr.decode()

    def test_table(self):
        status, out, errors = self.ran("--year", "2026", "--csv")
        self.assertEqual((status, errors), (1, "refused 1 of 3 lines\n"))
        self.assertEqual(
            out.split("\r\n"),
            [
                "protocol,version,dialect,facility,facility_code,severity,severity_code,timestamp,hostname,appname,proc"
                "id,msgid,"
                "structured_data,unparsed_structured_data,message,raw,refused,invalid_utf8",
                'RFC3164,,,auth,4,crit,2,2026-03-02T06:35:05+00:00,gw,app,2310,,,,"a, ""b""",,,',
                ",,,,,,,,,,,,,,none\ufffd,,true,true",
                'RFC5424,1,,auth,4,crit,2,,,,,,"{""a"":{""b"":""c\\""d""}}",,"x\ty\r1",,,',
                "",
            ],
        )
        rows = list(csv.reader(io.StringIO(self.ran("--raw", "--csv", given=b"1 - - - - - -\n")[1], newline="")))
        self.assertEqual(rows[1][-4:], ["", "1 - - - - - -", "", ""])

    def test_the_header_has_the_documented_keys(self):
        with open(os.path.join(HERE, "..", "..", "..", "docs", "JSON.md"), encoding="utf-8") as text:
            table = text.read().partition("\n    key ")[2].partition("\n\n")[0].split("\n")[1:]
        # (a long key has a line of its own, before one that begins with blanks)
        keys = [key for row in table for key in row[4:].partition("  ")[0].split(", ") if key]
        self.assertIn("hostname", keys)
        header = self.ran("--csv", given=b"")[1].rstrip("\r\n").split(",")
        self.assertEqual(header, keys)
        for name in ("first", "machines"):
            with open(os.path.join(SAMPLES, name + ".log"), "rb") as lines:
                for line in lines:
                    try:
                        made = json.loads(syslog_loose.json(line.rstrip(b"\n"), year=2026, raw=True))
                    except ParseError:
                        continue
                    self.assertLessEqual(set(made), set(header))

    def test_bytes_that_are_not_utf8(self):
        line = b"<34>1 - h\xe9 app - - - caf\xe9\n"
        replaced = "1 of 1 lines have U+FFFD for what is not UTF-8\n"
        front = '{"protocol":"RFC5424","version":1,"facility":"auth","facility_code":4,"severity":"crit",'
        fields = '"severity_code":2,"hostname":"h%s","appname":"app","message":"caf%s"'
        for words, given, wanted in (
            ((), line, (1, front + fields % ("\ufffd", "\ufffd") + ',"invalid_utf8":true}\n', replaced)),
            (("--latin1",), line, (0, front + fields % ("\xe9", "\xe9") + "}\n", "")),
            ((), b"\xff", (1, '{"message":"\ufffd","refused":true,"invalid_utf8":true}\n', "refused 1 of 1 lines\n")),
            (("--latin1",), b"\xff", (1, '{"message":"\xff","refused":true}\n', "refused 1 of 1 lines\n")),
        ):
            self.assertEqual(self.ran("--year", "2026", *words, given=given), wanted)
        rows = list(csv.reader(io.StringIO(self.ran("--csv", given=line)[1], newline="")))
        self.assertEqual((rows[1][8], rows[1][-4:]), ("h\ufffd", ["caf\ufffd", "", "", "true"]))

    def test_offsets(self):
        for words, shown in (
            (("--offset", "-09:30"), "-09:30"), (("--offset=+01:00",), "+01:00"), (("--raw",), "+00:00")
        ):
            made = json.loads(self.ran("--year", "2026", *words, given=b"Mar  2 06:35:05 h a: x")[1])
            self.assertEqual(made["timestamp"], "2026-03-02T06:35:05" + shown)
        self.assertEqual(self.ran("--offset")[0], 2)

    def test_an_interrupt(self):
        words = [sys.executable, "-m", "syslog_loose", "--year", "2026"]
        pipes = {"stdin": subprocess.PIPE, "stdout": subprocess.DEVNULL, "stderr": subprocess.PIPE}
        # A shell that runs the tests in the background has them ignore interrupts, which the program would inherit.
        with subprocess.Popen(words, **pipes, preexec_fn=lambda: signal.signal(signal.SIGINT, signal.SIG_DFL)) as ran:
            # (this is more than a pipe holds: once it was written, the program reads lines)
            ran.stdin.write(self.GIVEN * 2000)
            ran.send_signal(signal.SIGINT)
            self.assertEqual((ran.wait(60), ran.stderr.read()), (130, b""))

    def test_dates(self):
        for words, shown in (
            (("--year", "2026-11-28"), "2025-12-20T06:35:05+00:00"),
            (("--year", "2026-11-28", "--zone", RULE), "2025-12-20T06:35:05+01:00"),
            (("--year", "2027-01"), "2026-12-20T06:35:05+00:00"),
            (("--year", "2027", "--month", "1"), "2026-12-20T06:35:05+00:00"),
            (("--year=2026", "--zone=<+0330>-3:30"), "2026-12-20T06:35:05+03:30"),
        ):
            made = json.loads(self.ran(*words, given=b"Dec 20 06:35:05 h a: x")[1])
            self.assertEqual(made["timestamp"], shown)
        for words in (
            ("--year", "2026-00"), ("--year", "2026-11-00"), ("--year", "2026-1"), ("--year", "2026-11-28 "),
            ("--year", "x"), ("--year", "2026-11", "--month", "11"), ("--offset=+01:00", "--zone", "CET-1"),
        ):  # fmt: skip
            self.assertEqual(self.ran(*words)[:2], (2, ""))

    def test_faults(self):
        for words, said in (
            (["--year", "2026", "no such file"], "syslog_loose: no such file: No such file or directory\n"),
            (["--year", "99999"], NOT_THERE),
            (["--year", "2026-11-31"], NOT_THERE),
            (["--zone", "EST5EDT"], NOT_THERE),
            (["--zone", ""], NOT_THERE),
        ):
            self.assertEqual(self.ran(*words), (2, "", said))
        self.assertEqual(self.ran("--year", "2026", given=b"")[:2], (0, ""))


class Package(unittest.TestCase):
    def test_messages_are_pickled(self):
        for line in (LINE, SWITCH, "<34>Mar  2 06:35:05 h a: x"):
            self.assertEqual(pickle.loads(pickle.dumps(parse(line, year=2026))), parse(line, year=2026))

    def test_arguments(self):
        for words in ([], [LINE, LINE], [1], [None]):
            with self.assertRaises(TypeError):
                parse(*words, year=2026)
        for options in ({}, {"month": 1}, {"year": 2026, "raw": True}, {"year": None}):
            with self.assertRaises(TypeError):
                parse(LINE, **options)
        self.assertEqual(
            str(inspect.signature(parse)),
            "(line, /, *, year, month=None, day=None, offset=0, zone=None, variant='either', errors='strict', "
            "dialects=True)",
        )

    def test_version(self):
        with open(os.path.join(HERE, "..", "pyproject.toml"), encoding="utf-8") as project:
            self.assertIn('version = "%s"' % syslog_loose.__version__, project.read())


if __name__ == "__main__":
    unittest.main()
