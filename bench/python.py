#!/usr/bin/env python3
"""Measures the package for Python beside jc and a regular expression, on corpora of bench/corpora.py.

    bench/python.py [--site FOLDER] [--python PYTHON] [--times] [--write]

FOLDER has the package as it is installed; where it isn't given, the package is built over the library for C that `rt
lib` left in crates/. PYTHON (/usr/bin/python3) has jc, numpy and pandas: Debian's packages jc and python3-pandas.
Instructions are counted by valgrind, as the difference of two runs of bench/python_lines; with --times they are not.
--write puts the tables into docs/BENCHMARKS.md.
"""

import argparse
import os
import re
import subprocess
import sys
import tempfile

sys.dont_write_bytecode = True
import bench  # noqa: E402
import corpora  # noqa: E402

CORPORA = {"plain_3164": "3164", "plain_5424": "5424", "elements_5424": "5424"}
# The ways whose instructions are counted, and more ways of the package whose lines a second are. (Under valgrind pandas
# takes minutes until it is there.)
OWN, MORE = ("parse",), ("read_columns", "to_frame")
# jc's parsers of RFC 3164 and of RFC 5424.
JC = {"3164": "jc_syslog_bsd", "5424": "jc_syslog"}
# Lines of the files whose reading is timed, and of those whose instructions are counted.
LINES, COUNTED = 200_000, 3000
# (of which jc reads a few thousand of RFC 5424 in a second)
FEW = 500
# So many runs of each way are timed, of which the fastest counts.
RUNS = 7
NAMES = ("from Python, by instructions", "from Python, by time")


class Ways:
    """The ways to read a file of lines, in a Python that has the package in that folder."""

    def __init__(self, python, site):
        self.words = [python, os.path.join(bench.TOP, "bench", "python_lines")]
        self.environment = {**os.environ, "PYTHONPATH": site, "PYTHONHASHSEED": "0", "PYTHONDONTWRITEBYTECODE": "1"}

    def ran(self, way, file, lines, under=(), **more):
        words = [*under, *self.words, way, file, str(lines)]
        ran = subprocess.run(words, env={**self.environment, **more}, stdout=subprocess.PIPE, stderr=subprocess.PIPE)
        if ran.returncode:
            sys.exit("%s: %s" % (way, ran.stderr.decode()[-500:]))
        return ran

    def counted(self, way, file, lines):
        """The instructions of a run."""
        under = ["valgrind", "--tool=callgrind", "--callgrind-out-file=/dev/null"]
        ran = self.ran(way, file, lines, under, GLIBC_TUNABLES=bench.NO_STRING_INSTRUCTIONS)
        return int(re.search(rb"Collected : ([0-9]+)", ran.stderr)[1])

    def instructions(self, ways, file):
        """The instructions of each way for one line more."""
        counts = []
        for way in ways:
            fewer, more = (100, 200) if way == "jc_syslog" else (1000, COUNTED)
            counts.append((self.counted(way, file, more) - self.counted(way, file, fewer)) / (more - fewer))
        return counts

    def lines_a_second(self, ways, file):
        """The most of each way: the ways run in turn, so that a machine's slow minutes fall on all of them alike."""
        best = [0] * len(ways)
        for _ in range(RUNS):
            for place, way in enumerate(ways):
                # (a run reads each line once: jc keeps the dates that it has read, and what it reads again is faster)
                count = FEW if way == "jc_syslog" else LINES
                best[place] = max(best[place], count / float(self.ran(way, file, count).stdout))
        return best


def package(room):
    """Builds the package over the library for C, and returns the folder in which it lies."""
    library, site = os.path.join(bench.CRATES, "syslog_c", "out", "libsyslog_c.a"), os.path.join(room, "site")
    words = ["make", "-s", "OUT=" + room, "LIBRARY=" + library, os.path.join(room, "libsyslog_loose.a")]
    subprocess.run(words, cwd=bench.TOP, check=True)
    source = os.path.join(room, "python")
    subprocess.run(["cp", "-R", os.path.join(bench.TOP, "bindings", "python"), source], check=True)
    folders = {"SYSLOG_LOOSE_LIB": room, "SYSLOG_LOOSE_INCLUDE": os.path.join(bench.TOP, "include")}
    words = ["/usr/bin/python3", "setup.py", "-q", "build", "--build-lib", site]
    subprocess.run(
        words, cwd=source, env={**os.environ, **folders}, check=True, stdout=sys.stderr, stderr=subprocess.DEVNULL
    )
    return site


def written(room, count):
    """Files of so many lines of each corpus."""
    files = {name: os.path.join(room, name) for name in CORPORA}
    for name, file in files.items():
        corpora.write_lines(file, corpora.corpus(name, count))
    return files


def table_of(measured, own, last, ratio, files):
    """A table of what is measured for the package's own ways, for jc and for a regular expression, and of jc beside
    parse."""
    table = bench.head("corpus", *own, "jc", "regular expression", last)
    for name, file in files.items():
        which = CORPORA[name]
        found = measured((*own, JC[which], "regex_" + which), file)
        bench.row(table, name, *("{:,.0f}".format(it) for it in found), "%.2f" % ratio(found[0], found[-2]))
    return table


def main():
    reader = argparse.ArgumentParser(description=__doc__, formatter_class=argparse.RawDescriptionHelpFormatter)
    reader.add_argument("--site", help="the folder of the package")
    reader.add_argument("--python", default="/usr/bin/python3")
    reader.add_argument("--times", action="store_true", help="measure times alone")
    reader.add_argument("--write", action="store_true", help="put the tables into docs/BENCHMARKS.md")
    chosen = reader.parse_args()
    tables = []
    with tempfile.TemporaryDirectory(prefix="syslog-bench-") as room:
        ways = Ways(chosen.python, chosen.site or package(room))
        if not chosen.times:
            print("Instructions a line:\n")
            files = written(room, COUNTED)
            table = table_of(ways.instructions, OWN, "jc's over parse's", lambda own, jc: jc / own, files)
            tables.append((NAMES[0], table, "instructions by valgrind, one run."))
        print("\nLines a second of processor time, the most of %d runs in turn:\n" % RUNS)
        files = written(room, LINES)
        table = table_of(ways.lines_a_second, OWN + MORE, "parse's over jc's", lambda own, jc: own / jc, files)
        tables.append((NAMES[1], table, "processor time, the most of %d runs in turn." % RUNS))
    if chosen.write:
        commit = subprocess.check_output(["git", "rev-parse", "--short", "HEAD"], cwd=bench.TOP, text=True).strip()
        measured = "Measured on %s, at commit %s; " % (bench.machine(), commit)
        with open(bench.DOCUMENT, "r+", encoding="utf-8") as document:
            text = document.read()
            for name, table, how in tables:
                text = bench.with_tables(text, {name: table}, measured + how)
            document.seek(0)
            document.write(text)
            document.truncate()


if __name__ == "__main__":
    main()
