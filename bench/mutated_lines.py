#!/usr/bin/env python3
"""Makes lines of both protocols with some of their characters changed, the same ones each time.

  mutated_lines.py FILE [LINES] [SEED]

Two programs, or one before and after a change, are given such a file, and what they write is compared. Half of the
lines are those of the benchmark's corpora, half are put together of odd pieces; to each up to three changes are made.
"""

import random
import sys

# The folder keeps no compiled copy of corpora.py.
sys.dont_write_bytecode = True
import corpora  # noqa: E402

SIGNS = "abcS <>[]=\"\\:-1059T.\t+Zü\u2003\u0085\u000b;/" + "\"\"\\\\\x01\x08\x0c\x1f"
HOSTS = ["mymachine.example.com", "192.168.0.17", "2001:db8::7334", "db3", "-", "h:", "z[1]", "ü", "a]b", "x:::", "[q]"]
TAGS = ["nginx", "sshd", "postfix/smtpd", "-", "a[b", "tag[", "é", "k]", "x"]
MESSAGES = [
    "Accepted publickey for deploy", "GET / \"-\"", "- dashed", "-5 degrees", "[a b=\"c\"] listed", "[open",
    "größe 局域网", "",
    " two", ":colon", "x [a b=\"c\"]", '{"level":"info","path":"C:\\\\tmp"}', "C:\\Windows\\System32\t\"x\"", "\"" * 17,
    "\\" * 16,
]
MONTHS = "Jan Feb Mar Apr May Jun Jul Aug Sep Oct Nov Dec jan DEC Mai Se".split()
GAPS = [" "] * 12 + ["  ", "\t", "", "\u2003"]
VALUES = [
    "v",
    "\\\"",
    "]",
    "\\]",
    "",
    "\\\\",
    "x\\y",
    "fifteen bytes..\\n",
    "fifteen bytes..\\]",
    "fifteen bytes..\\y",
    "\\\"" * 9,
    "\\]" * 17,
]


class Maker:
    def __init__(self, seed):
        self.random = random.Random(seed)
        self.known = [
            line for name, lines in corpora.corpora(4000) if name not in ("long_5424", "refused") for line in lines
        ]

    def one(self, *choices):
        return self.random.choice(choices)

    def number(self, *tops):
        return str(self.random.randrange(self.one(*tops)))

    def priority(self):
        return self.one("", "<%s>" % self.number(192, 192, 256, 1000), "<0%s>" % self.number(20))

    def clock(self):
        return ":".join(
            self.one("%02d", "%02d", "%02d", "%d") % self.random.randrange(self.one(24, 24, 60, 61)) for _ in range(3)
        )

    def stamp(self):
        date = "20%02d-%02d-%02d" % tuple(self.random.randrange(1, top) for top in (99, 14, 32))
        fraction = self.one("", ".%s" % self.number(10, 1000, 10**6, 10**9), ".123456")
        return self.one(
            "-",
            date + self.one("T", "T", "t", " ") + self.clock() + fraction + self.one(
                "Z", "z", "+00:00", "-07:30", "+1:00", ""
            ),
        )

    def month_date(self):
        day = self.one("%d", "%2d", "%02d") % self.random.randrange(33)
        year = self.one("", "", "", "%d " % self.random.randrange(3000))
        month, gap = self.random.choice(MONTHS), self.random.choice(GAPS)
        return month + " " + day + gap + year + self.clock() + self.one("", "", "", ":", ".")

    def element(self):
        params = [
            "%s%s=\"%s\"" % (self.one(" ", "  ", ""), self.one("a", "b", "", "n m"), self.random.choice(VALUES))
            for _ in range(self.random.randrange(3))
        ]
        return "[%s%s]" % (self.one("id", "ex@1", "", "i d"), "".join(params))

    def rfc5424(self):
        elements = self.one(
            "-",
            "".join(self.element() for _ in range(self.random.randrange(4))),
            "[open]" + self.element(),
            self.element() + "[b",
        )
        fields = [
            self.stamp(),
            self.random.choice(HOSTS),
            self.random.choice(TAGS),
            self.number(70000, 9, 2**33),
            "ID" + self.number(99),
            elements,
        ]
        fields.append(self.random.choice(MESSAGES))
        return self.priority() + self.one("1", "1", "1", "2", "01") + "".join(
            self.random.choice(GAPS) + it for it in fields
        )

    def rfc3164(self):
        stamp = self.one(self.month_date(), self.month_date(), self.month_date(), self.stamp())
        tag = self.random.choice(TAGS) + self.one(
            "[%s]" % self.number(70000, 9, 2**33), "[-%s]" % self.number(9), "[0%s]" % self.number(9), "", "[x]"
        )
        names = self.random.choice(GAPS) + self.random.choice(HOSTS) + self.random.choice(GAPS) + tag
        after = self.one(":", ":", ":", " :", "") + self.random.choice(GAPS) + self.one(
            "", "", "", self.element()
        ) + self.random.choice(MESSAGES)
        return self.priority() + self.one("", "", "", " ") + stamp + names + after

    def changed(self, line):
        characters = list(line)
        for _ in range(self.one(0, 0, 1, 1, 1, 2, 3)):
            at, how = self.random.randrange(len(characters) + 1), self.random.randrange(3)
            if how == 0:
                characters.insert(at, self.random.choice(SIGNS))
            elif characters and how == 1:
                characters[at - 1] = self.random.choice(SIGNS)
            elif characters:
                del characters[at - 1]
        return "".join(characters)

    def line(self):
        kind = self.random.randrange(4)
        return self.changed(
            self.rfc5424() if kind == 0 else self.rfc3164() if kind == 1 else self.random.choice(self.known)
        )


def main():
    if not 2 <= len(sys.argv) <= 4:
        sys.exit(__doc__)
    count = int(sys.argv[2]) if len(sys.argv) > 2 else 500_000
    maker = Maker(int(sys.argv[3]) if len(sys.argv) > 3 else 17)
    corpora.write_lines(sys.argv[1], [maker.line() for _ in range(count)])


if __name__ == "__main__":
    main()
