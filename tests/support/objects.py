"""The JSON that syslog_json writes of a line, for tests/json, tests/c_library and tests/by_hand/json_fields: as
Python's json reads it, and as the fields of the line's message say."""
import json

KEYS = (
    "protocol version dialect facility facility_code severity severity_code timestamp hostname appname procid msgid"
    " structured_data unparsed_structured_data message raw refused invalid_utf8"
).split()
# The names of RFC 5424's tables 1 and 2 in the order of their numbers, as syslog.h has them.
FACILITIES = (
    "kern user mail daemon auth syslog lpr news uucp cron authpriv ftp ntp audit alert clockd"
    " local0 local1 local2 local3 local4 local5 local6 local7"
).split()
SEVERITIES = "emerg alert crit err warning notice info debug".split()


def once(pairs):
    """An object in which no name stands twice."""
    found = dict(pairs)
    if len(found) != len(pairs):
        raise ValueError("a name stands twice")
    return found


def in_order(value):
    """The value, with its keys in the order in which they are written."""
    return {key: value[key] for key in KEYS if key in value}


def text_of(value):
    """The one line of a value: no space between tokens."""
    return json.dumps(in_order(value), ensure_ascii=False, separators=(",", ":")).encode()


def value_of(line):
    """What Python's json makes of a line, or what is wrong with it: it must also be the very text that json writes,
    with no other keys, and these in order."""
    try:
        value = json.loads(line.decode(), object_pairs_hook=once)
    except ValueError as wrong:
        return "%s: %r" % (wrong, line[:200])
    return value if line == text_of(value) else "another text than json's: %r" % line[:200]


def values_of(written):
    """The value of each line that was written."""
    *lines, rest = written.split(b"\n")
    return [value_of(line) for line in lines] + ["no line feed at the end: %r" % rest[:200]] * bool(rest)


def gathered(pairs):
    """The object of these names and values: a name that comes again has all its values, in order."""
    found = {}
    for name, value in pairs:
        found.setdefault(name, []).append(value)
    return {name: values[0] if len(values) == 1 else values for name, values in found.items()}


def coded(value):
    """The value with the numbers of its facility and severity."""
    codes = {"facility_code": FACILITIES.index(value["facility"])} if "facility" in value else {}
    if "severity" in value:
        codes["severity_code"] = SEVERITIES.index(value["severity"])
    return in_order({**value, **codes})


def of_fields(value):
    """The object, but for the structured data that was left unparsed: no field of the message has it."""
    return {key: value[key] for key in value if key != "unparsed_structured_data"} if isinstance(value, dict) else value


def refused_line(line):
    """The object of a line, in bytes, that is no message."""
    try:
        return {"message": line.decode(), "refused": True}
    except UnicodeDecodeError:
        return {"message": line.decode(errors="replace"), "refused": True, "invalid_utf8": True}


def object_of(line, fields, raw=False):
    """The object of a line, by its fields as bench/reader, the Rust crate or the library for C has them, and with the
    line itself where that is asked for."""
    if not fields["ok"]:
        return refused_line(line)
    elements = [
        (it["id"], gathered((name, plain) for name, _, plain in it["params"])) for it in fields["structured_data"]
    ]
    found = {
        "protocol": fields["protocol"],
        "version": fields["version"],
        "dialect": fields.get("dialect"),
        "facility": fields["facility"] and fields["facility"].removeprefix("LOG_").lower(),
        "severity": fields["severity"] and fields["severity"].removeprefix("SEV_").lower(),
        "timestamp": fields["timestamp"] and fields["timestamp"]["text"],
        "hostname": fields["hostname"],
        "appname": fields["appname"],
        "procid": fields["procid"] and str(fields["procid"]["value"]),
        "msgid": fields["msgid"],
        "structured_data": gathered(elements) if elements else None,
        "unparsed_structured_data": fields.get("unparsed"),
        "message": fields["msg"],
        "raw": line.decode() if raw else None,
    }
    return coded({name: value for name, value in found.items() if value is not None})


def rfc5424(message="x", **fields):
    return coded({"protocol": "RFC5424", "version": 1, **fields, "message": message})


def rfc3164(message="x", **fields):
    return coded({"protocol": "RFC3164", **fields, "message": message})
