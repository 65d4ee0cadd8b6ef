#!/usr/bin/env python3
"""What collector.c does, by the package in bindings/python: collector.py YEAR MONTH <FILE"""
import sys
from datetime import timezone

import syslog_loose


def route(severity):
    return "archive" if severity is None or severity > 4 else "pager" if severity <= 2 else "warnings"


def instant(message):
    if message.timestamp is None:
        return message.timestamp_text or "-"
    return message.timestamp.astimezone(timezone.utc).strftime("%Y-%m-%dT%H:%M:%SZ")


def main():
    if len(sys.argv) != 3:
        sys.exit(__doc__)
    year, month = map(int, sys.argv[1:])
    refused = []
    for it in syslog_loose.read(sys.stdin.buffer, year=year, month=month, refused=refused.append):
        print(f"{route(it.severity)} {instant(it)} {it.hostname or ''} {it.appname or ''}: {it.message}")
    if refused:
        print(f"collector: {len(refused)} lines are no messages", file=sys.stderr)


if __name__ == "__main__":
    main()
