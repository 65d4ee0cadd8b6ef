#!/usr/bin/env python3
"""Reads the same made-up texts with two readers of syslog messages, and compares their results field by field.

  compare_texts.py --ours PROGRAM --theirs PROGRAM                 50,000 texts made by edits of base_texts.txt
  compare_texts.py --elements 3000 --ours PROGRAM --theirs PROGRAM   as many elements, each in a whole message
  compare_texts.py --dates 2000 --variant 3164 --zone rule ..        as many dates of RFC 3164, each in a whole message
  compare_texts.py --dashes 100000 --variant either ..               as many lines that begin their message with a dash

PROGRAM of --ours is called with a variant (either, 3164 or 5424), the years and the zone; bench/build_reader builds it.
PROGRAM of --theirs is called with --raw --variant VARIANT --year YEARS --tz ZONE, under TZ=UTC. Each reads texts, one a
line, and prints a JSON object for each, with the fields of a message or "ok": false. The texts are the same each time
for one seed. The status is 0 where each difference is one that is expected, and named below, and where `differs` of
ours is true exactly for the texts whose messages differ.
"""

import argparse
import collections
import json
import os
import random
import re
import subprocess
import sys

HERE = os.path.dirname(os.path.abspath(__file__))
FIELDS = (
    "ok protocol version facility severity timestamp hostname appname procid msgid structured_data msg printed".split()
)

WHITE = [
    " ",
    "  ",
    "\t",
    " \t",
    "\u000b",
    "\u000c",
    "\r",
    "\u001c",
    "\u001f",
    "\u0085",
    "\u00a0",
    "\u1680",
    "\u2003",
    "\u2028",
    "\u202f",
    "\u3000",
    "\u200b",
    "\ufeff",
]
MARKS = [
    "[",
    "]",
    '"',
    "\\",
    "=",
    '="',
    '"]',
    "\\\"",
    "\\]",
    "\\\\",
    "\\n",
    "][",
    "[]",
    "-",
    ":",
    "<",
    ">",
    "- ",
    ": ",
    "[a]",
    '[a b="c"]',
    "[a b=]",
]
LIMITS = (
    "0 00 007 1 9 12 13 23 24 28 29 30 31 32 59 60 61 99 191 192 255 256 999 0000 1969 1970 9999 10000 32768 65536 "
    "2147483647 2147483648 -2147483648 -2147483649 +2147483647 4294967295 4294967296 00000000004294967295 "
    "999999999 1234567890 99999999999999999999 18446744073709551616"
).split()
NON_ASCII = [
    "ü", "ß", "局域网", "🔋", "é", "e\u0301", "\u2212", "Ω", "\u0660", "\uff11", "\u00ad", "\U0010ffff", "\ue000", "\u0080"
]
STAMPS = [
    "2003-10-11T22:14:15.003Z", "2016-12-31T23:59:60Z", "2016-12-31t23:59:60.999999999999+01:30",
    "2020-02-29T00:00:00-00:00",
    "2019-02-29T00:00:00Z", "2020-01-01T00:00:00+23:59", "2020-01-01T00:00:00-24:00", "2020-01-01T00:00:00\u221201:00",
    "2020-01-01 00:00:00Z", "2020-01-01T00:00:00UTC", "2020-01-01T00:00:00.Z", "2020-01-01T00:00:00+0100",
    "2020-01-01T00:00Z",
    "9999-12-31T23:59:59.999999999Z", "9999-12-31T23:59:59+02:00", "0000-01-01T00:00:00+23:59", "+2020-01-01T00:00:00Z",
    "Oct 11 22:14:15", "Feb 29 00:00:00", "Dec 31 2020 23:59:59:", "-",
]  # fmt: skip


def span(chance, text, most=12):
    """The two ends of a piece of the text."""
    begin = chance.randrange(len(text) + 1)
    return begin, min(len(text), begin + chance.randrange(1, most + 1))


def insert(chance, text, what):
    place = chance.randrange(len(text) + 1)
    return text[:place] + what + text[place:]


def splice(chance, text, bases):
    other = chance.choice(bases)
    return text[: chance.randrange(len(text) + 1)] + other[chance.randrange(len(other) + 1) :]


def splice_words(chance, text, bases):
    """The text's first words, and another's from the same place on."""
    other, place = chance.choice(bases).split(" "), chance.randrange(9)
    return " ".join(text.split(" ")[:place] + other[place:])


def delete(chance, text, bases):
    begin, end = span(chance, text)
    return text[:begin] + text[end:]


def double(chance, text, bases):
    begin, end = span(chance, text)
    return text[:end] + text[begin:]


def swap_words(chance, text, bases):
    words = text.split(" ")
    a, b = chance.randrange(len(words)), chance.randrange(len(words))
    words[a], words[b] = words[b], words[a]
    return " ".join(words)


def space_oddly(chance, text, bases):
    places = [it for it, character in enumerate(text) if character == " "]
    odd = chance.choice(WHITE)
    if not places or chance.random() < 0.3:
        return insert(chance, text, odd)
    place = chance.choice(places)
    return text[:place] + odd + text[place + 1 :]


def mark(chance, text, bases):
    return insert(chance, text, chance.choice(MARKS))


def put_limit(chance, text, bases):
    runs = [it.span() for it in re.finditer("[0-9]+", text)]
    if not runs:
        return insert(chance, text, chance.choice(LIMITS))
    begin, end = chance.choice(runs)
    return text[:begin] + chance.choice(LIMITS) + text[end:]


def put_non_ascii(chance, text, bases):
    return insert(chance, text, chance.choice(NON_ASCII))


def put_stamp(chance, text, bases):
    found = re.search(r"[0-9]{4}-[0-9-]+T[0-9:.]+\S*|[A-Z][a-z]{2} +[0-9]+ [0-9:]+|(?<= )-(?= )", text)
    begin, end = found.span() if found else span(chance, text)
    return text[:begin] + chance.choice(STAMPS) + text[end:]


EDITS = [
    splice,
    splice_words,
    delete,
    delete,
    double,
    swap_words,
    space_oddly,
    mark,
    mark,
    put_limit,
    put_non_ascii,
    put_stamp,
]


def edited(chance, bases):
    text = chance.choice(bases)
    # Half of the edits leave the header alone, since few texts outlive an edit there.
    kept = text.find("[") if chance.random() < 0.5 else 0
    head, text = text[: max(kept, 0)], text[max(kept, 0) :]
    for _ in range(chance.choice([1, 1, 1, 2, 2, 3, 5])):
        text = chance.choice(EDITS)(chance, text, bases)
    # (a reader may take a carriage return for a part of the line's end)
    return (head + text).rstrip("\r")


def likely(bases, variant):
    """The texts, those of the variant's own form several times."""
    form = {"5424": "(<[0-9]+>)?[0-9]+[ \t]", "3164": "(<[0-9]+>)? *([A-Za-z]{3} |-|[0-9]{4}-)", "either": ""}[variant]
    return bases + 7 * [it for it in bases if re.match(form, it)]


PIECES = [
    "[",
    "]",
    '"',
    "\\",
    "=",
    " ",
    "  ",
    "\t",
    "a",
    "id",
    "ex@32473",
    "name",
    "n",
    "ü",
    "局",
    "\u00a0",
    "\u3000",
    '="',
    '"]',
    '\\"',
    "\\]",
    "\\\\",
    "-",
    "1",
]


def run_of(chance, characters, least, most):
    return "".join(chance.choice(characters) for _ in range(chance.randrange(least, most + 1)))


def near_element(chance):
    """An element that is nearly well formed, or quite."""
    text = "[" + run_of(chance, ["a", "b", "@", "1", "ü", '"', "\\", "["], 1, 4)
    text += chance.choice(["", " ", " ", " ", "  ", "\t", " \t"])
    for place in range(chance.choice([0, 1, 1, 2, 3])):
        text += chance.choice([" ", " ", " ", " ", "", "  ", "\t"]) if place else ""
        text += run_of(chance, ["n", "m", "é", " ", '"', "\\", "["], 1, 3)
        text += chance.choice(["=", "=", "=", "=", "= ", "=\t", "", "=="]) + '"'
        text += run_of(chance, ["v", "w", " ", "]", "[", "=", '\\"', "\\\\", "\\]", "\\n", "\\x", "局", "\\"], 0, 6)
        text += chance.choice(['"', '"', '"', '"', '"', "", '""'])
    return text + chance.choice(["]", "]", "]", "]", " ]", "", "]]", "] "])


def element(chance):
    text = "[" + run_of(chance, PIECES, 1, 14) if chance.random() < 0.4 else near_element(chance)
    if chance.random() < 0.3:
        begin, end = span(chance, text, 3)
        text = chance.choice(
            [text[:begin] + text[end:], text[:end] + text[begin:], insert(chance, text, chance.choice(PIECES))]
        )
    return text


MONTHS = "Jan Feb Mar Apr May Jun Jul Aug Sep Oct Nov Dec".split()
GAPS = [" ", " ", " ", "  ", "\t", " \t ", ""]
# Days and times about the edges of the zone's gap and fold, in the years that are asked for.
EDGES = [
    "Mar 29 {}01:59:59",
    "Mar 29 {}02:00:00",
    "Mar 29 {}02:30:00",
    "Mar 29 {}02:59:59",
    "Mar 29 {}03:00:00",
    "Oct 25 {}01:59:59",
    "Oct 25 {}02:00:00",
    "Oct 25 {}02:30:00",
    "Oct 25 {}02:59:59",
    "Oct 25 {}03:00:00",
]


def odd_case(chance, word):
    return "".join(chance.choice([it.upper(), it.lower(), it]) for it in word)


def date(chance):
    """A date of RFC 3164, with a year or without: most of them exist."""
    if chance.random() < 0.2:
        text = chance.choice(EDGES).format(chance.choice(["", "2020 ", "2021 "]))
    else:
        month = odd_case(chance, chance.choice(MONTHS)) if chance.random() < 0.9 else run_of(
            chance, ["J", "a", "n", "e", "b"], 2, 4
        )
        day = chance.choice([str(chance.randrange(1, 29)), str(chance.randrange(0, 33)), chance.choice(LIMITS)])
        year = chance.choice(
            ["", "", str(chance.randrange(1990, 2030)), str(chance.randrange(0, 10001)), chance.choice(LIMITS)]
        )
        clock = ":".join(
            chance.choice(
                [str(chance.randrange(0, 24)), "%02d" % chance.randrange(0, 61), "%02d" % chance.randrange(0, 61)]
            )
            for _ in range(3)
        )
        if chance.random() < 0.1:
            clock = ":".join(clock.split(":")[:2] + [chance.choice(LIMITS)])
        words = [it for it in (month, day, year, clock) if it]
        text = "".join(word + chance.choice(GAPS) for word in words[:-1]) + words[-1]
    return text + chance.choice(["", "", "", ":", "::", " :"]) + chance.choice(
        [" h a: m", " h a: m", "", "h a: m", " h a[1]: m"]
    )


HEADERS = [
    "-",
    "-",
    "Oct 11 22:14:15",
    "Oct 11 2019 22:14:15",
    "oct  1 02:03:04:",
    "2019-10-11T22:14:15Z",
    "2019-10-11T22:14:15.5+02:00",
]
NAMES = ["", " h", " mymachine", " -", " h:", " h[1]", " ü.example", " 10.0.0.1"]
TAGS = ["", " app", " app", " app[323]", " -", " a/b", " [5]", " 局"]
AFTER = [
    "",
    " ",
    "\t",
    "  ",
    "-",
    "--",
    "5",
    "5 degrees",
    "x",
    "x y",
    "ü",
    "🔋",
    ":",
    "[",
    "[e k=\"v\"] x",
    "[e] x",
    "]",
    "\"",
    ">",
    "- x",
    "-\tx",
]


def dashed(chance):
    """A line whose message begins with a dash: nearly always of RFC 3164."""
    front = chance.choice(["", "<34>", "<34> ", "<0>", "<200>"])
    if chance.random() < 0.05:
        front += "1 - %s - - - - -" % run_of(chance, ["h", "a", "-"], 1, 3)
    else:
        front += chance.choice(HEADERS) + chance.choice(NAMES) + chance.choice(TAGS)
        front += chance.choice([":", ":", ":", " :", ""]) + chance.choice([" ", " ", "", "\t", "  "]) + "-"
    after = chance.choice(AFTER) if chance.random() < 0.7 else chance.choice(WHITE + NON_ASCII)
    return (front + after + run_of(chance, ["x", "7", " ", "-", "é", "[a b=\"c\"]", ": "], 0, 6)).rstrip("\r")


def distinct(count, make):
    found = {}
    while len(found) < count:
        found[make()] = None
    return list(found)


def texts_of(chosen):
    chance = random.Random("texts %d" % chosen.seed)
    if chosen.elements:
        return ["1 - - - - - " + it for it in distinct(chosen.elements, lambda: element(chance))]
    if chosen.dates:
        return distinct(chosen.dates, lambda: chance.choice(["", "<34>", "<34> "]) + date(chance))
    if chosen.dashes:
        return distinct(chosen.dashes, lambda: dashed(chance))
    with open(chosen.base, encoding="utf-8", newline="\n") as given:
        bases = [it for it in given.read().split("\n") if it and not it.startswith("#")]
    taken = likely(bases, chosen.variant)
    return bases + distinct(chosen.count, lambda: edited(chance, taken))


def answers(words, texts):
    """What a reader prints for each text."""
    given = "".join(text + "\n" for text in texts).encode()
    ran = subprocess.run(words, input=given, stdout=subprocess.PIPE, env={**os.environ, "TZ": "UTC"})
    lines = ran.stdout.split(b"\n")
    if ran.returncode or len(lines) != len(texts) + 1:
        sys.exit("%s: status %d, %d answers for %d texts" % (words[0], ran.returncode, len(lines) - 1, len(texts)))
    return [json.loads(line) for line in lines[:-1]]


def plain(answer):
    """The fields that are compared."""
    if not answer.get("ok"):
        return {"ok": False}
    found = {it: answer.get(it) for it in FIELDS}
    if found["timestamp"]:
        found["timestamp"] = {it: found["timestamp"][it] for it in ("nanos", "offset", "text")}
    return found


# The last instant that a Timestamp of jiff holds, 9999-12-30T22:00:00.999999999Z.
LAST_INSTANT = 253402207200999999999
RFC_3339 = re.compile(
    r"[0-9]{4}-[0-9]{2}-[0-9]{2}[Tt][0-9]{2}:[0-9]{2}:[0-9]{2}(\.[0-9]+)?([Zz]|[+-][0-9]{2}:[0-9]{2})"
)


def shown_stamps(text):
    """The words of a text that may be meant as its RFC 3339 timestamp."""
    return [it for it in re.split("[ \t<>]", text) if re.match("[0-9+-][0-9]{3}", it)]


def is_second_60(text, ours, theirs):
    """Second 60: a leap second there, and second 59 with its fraction here. All else is equal."""
    if not (theirs.get("ok") and theirs["timestamp"] and theirs["timestamp"].get("leap")):
        return False
    there = plain(theirs)
    stamp = there["timestamp"]
    mended = re.sub(r":60(?=[.+-])", ":59", stamp["text"], count=1)
    printed = there["printed"].replace(stamp["text"], mended, 1)
    stamp = {"nanos": stamp["nanos"] - 10**9, "offset": stamp["offset"], "text": mended}
    return plain(ours) == {**there, "timestamp": stamp, "printed": printed}


def is_past_the_range(text, ours, theirs):
    """An instant past jiff's last: read there; here the timestamp is refused."""
    stamp = theirs.get("timestamp") if theirs.get("ok") else None
    return bool(stamp) and stamp["nanos"] > LAST_INSTANT and not ours.get("ok")


def is_no_rfc_3339(text, ours, theirs):
    """A timestamp that chrono reads and that isn't of RFC 3339's form, as with a space for T: refused here."""
    stamp = theirs.get("timestamp") if theirs.get("ok") else None
    shown = shown_stamps(text)
    return bool(stamp) and not ours.get("ok") and bool(shown) and not any(RFC_3339.fullmatch(it) for it in shown)


def is_dated_in_a_zone(text, ours, theirs):
    """A date with a year beside a given zone: taken as UTC there, and in the zone here, where a gap refuses it."""
    if not re.match(
        r"\s*(<[0-9]+>)?[ \t]*[A-Za-z]{3}[ \t]+[0-9]+[ \t]+[0-9]+[ \t]+[0-9]", text
    ) or not theirs.get("ok"):
        return False
    if not ours.get("ok"):
        return True
    a, b = plain(ours), plain(theirs)
    return all(a[it] == b[it] for it in FIELDS if it not in ("timestamp", "printed"))


def is_past_the_dates(text, ours, theirs):
    """A year of five digits, or an instant outside jiff's range: read there, and refused here."""
    stamp = theirs.get("timestamp") if theirs.get("ok") else None
    return bool(stamp) and not ours.get("ok") and not -377705023201 * 10**9 <= int(stamp["nanos"]) <= LAST_INSTANT


def with_its_dash(ours, theirs):
    """What was read there, with the dash that begins the message here and is a list there; None without such a dash."""
    if not (ours.get("ok") and theirs.get("ok")) or theirs["protocol"] != "RFC3164":
        return None
    msg = theirs["msg"]
    if ours["msg"] != "-" + msg or not msg or msg[0] in " \t" or not theirs["printed"].endswith(msg):
        return None
    return {**theirs, "msg": "-" + msg, "printed": theirs["printed"][: -len(msg)] + "-" + msg}


EXPECTED = [is_second_60, is_past_the_range, is_no_rfc_3339, is_past_the_dates, is_dated_in_a_zone]


def kind_of(text, ours, theirs):
    """The name of the expected difference, or the fields that differ."""
    dashed = with_its_dash(ours, theirs)
    if dashed and plain(ours) == plain(dashed):
        return (
            "A dash before a character that is no blank: a list of RFC 3164 there, and the begin of the message here."
        )
    # (there may be another difference too)
    theirs = dashed or theirs
    for it in EXPECTED:
        if it(text, ours, theirs):
            return it.__doc__
    a, b = plain(ours), plain(theirs)
    if a["ok"] != b["ok"]:
        return "UNEXPECTED: read %s alone" % ("here" if a["ok"] else "there")
    return "UNEXPECTED: " + ", ".join(it for it in FIELDS if a.get(it) != b.get(it))


def report_dashes(texts, ours, theirs, shown):
    """Prints how many texts are said to be read differently, and says whether these are those whose messages differ."""
    both = [(text, a, b) for text, a, b in zip(texts, ours, theirs) if a.get("ok") and b.get("ok")]
    wrong = [text for text, a, b in both if a["differs"] != (a["msg"] != b["msg"])]
    wrong += [text for text, a, b in zip(texts, ours, theirs) if a["differs"] and not (a.get("ok") and b.get("ok"))]
    print(
        "%d read by both; of them %d are said to be read differently, wrongly %d" % (
            len(both), sum(a["differs"] for _, a, _ in both), len(wrong)
        )
    )
    for text in sorted(wrong, key=len)[:shown]:
        print("  text %s" % json.dumps(text, ensure_ascii=False))
    return not wrong


def report(texts, ours, theirs, shown):
    """Prints how the results differ, and returns whether each difference is expected."""
    found = collections.defaultdict(list)
    for text, a, b in zip(texts, ours, theirs):
        if plain(a) != plain(b):
            found[kind_of(text, a, b)].append((text, a, b))
    read = sum(1 for it in theirs if it.get("ok"))
    with_elements = sum(1 for it in theirs if it.get("ok") and it["structured_data"])
    print("%d texts compared; of them %d read there, %d with elements" % (len(texts), read, with_elements))
    print("%d answers differ" % sum(map(len, found.values())))
    for kind, cases in sorted(found.items()):
        print("\n%d: %s" % (len(cases), kind))
        # The shortest says most.
        for text, a, b in sorted(cases, key=lambda it: len(it[0]))[:shown]:
            print("  text %s" % json.dumps(text, ensure_ascii=False))
            a, b = plain(a), plain(b)
            for it in FIELDS if a["ok"] == b["ok"] else ["printed"]:
                if a.get(it) != b.get(it):
                    print("    %s: ours %s, theirs %s" % (it, json.dumps(a.get(it)), json.dumps(b.get(it))))
    return not any(kind.startswith("UNEXPECTED") for kind in found)


def arguments():
    reader = argparse.ArgumentParser(description=__doc__, formatter_class=argparse.RawDescriptionHelpFormatter)
    reader.add_argument("--ours", help="the reader of this repository")
    reader.add_argument("--theirs", help="the reader to compare with")
    reader.add_argument("--variant", choices=["either", "3164", "5424"], default="5424")
    reader.add_argument("--count", type=int, default=50_000, help="edited texts (50,000)")
    reader.add_argument("--elements", type=int, default=0, metavar="N", help="N elements instead of edited texts")
    reader.add_argument("--dates", type=int, default=0, metavar="N", help="N dates of RFC 3164 instead of edited texts")
    reader.add_argument(
        "--dashes",
        type=int,
        default=0,
        metavar="N",
        help="N lines that begin their message with a dash instead of edited texts",
    )
    reader.add_argument(
        "--years", default="2019/2019", help="the years of dates without one, in December and else (2019/2019)"
    )
    reader.add_argument(
        "--zone", default="none", help="the zone of dates without an offset: none, utc, rule or +HH:MM (none)"
    )
    reader.add_argument("--seed", type=int, default=5424)
    reader.add_argument("--base", default=os.path.join(HERE, "base_texts.txt"), help="the texts that are edited")
    reader.add_argument("--shown", type=int, default=2, help="examples of each kind of difference (2)")
    reader.add_argument("--texts", metavar="FILE", help="write the texts to a file, and compare nothing")
    chosen = reader.parse_args()
    if not chosen.texts and not (chosen.ours and chosen.theirs):
        reader.error("--ours and --theirs are needed, or --texts")
    return chosen


def main():
    chosen = arguments()
    texts = texts_of(chosen)
    if chosen.texts:
        with open(chosen.texts, "w", encoding="utf-8", newline="\n") as out:
            out.writelines(text + "\n" for text in texts)
        return
    ours = answers([chosen.ours, chosen.variant, chosen.years, chosen.zone], texts)
    theirs = answers(
        [chosen.theirs, "--raw", "--variant", chosen.variant, "--year", chosen.years, "--tz", chosen.zone], texts
    )
    expected = report(texts, ours, theirs, chosen.shown)
    told = report_dashes(texts, ours, theirs, chosen.shown)
    sys.exit(0 if expected and told else 1)


if __name__ == "__main__":
    main()
