#!/usr/bin/env python3
"""Times the filter syslog_tidy on corpora of its own, beside another filter where one is given.

  bench.py                            builds the proved program, and times it
  bench.py --program PATH             times that program instead
  bench.py --peer PATH                times that one too, on the same files, the runs of the two in turn
  bench.py --check --peer PATH        compares what the two write, and times nothing
  bench.py --instructions             counts instructions by valgrind, which other work does not change
  bench.py --reading                  measures syslog_totals instead, which reads and prints sums alone
  bench.py --library                  measures bench/c_totals.c, the same over the library for C; needs cc
  bench.py --rust                     measures bench/rust_totals, the same by bindings/rust/syslog_loose; needs cargo
  bench.py --rust --peer crates.io    beside the same program over the crate of crates.io, which cargo fetches
  bench.py --json                     measures syslog_json, and with --check compares its objects by their values
  bench.py --cores                    times ways to filter one file on all cores
  bench.py --write                    puts the tables of the run into docs/BENCHMARKS.md as well

Each time is the least of five runs, the start of the process included, with the standard input from a
file and the standard output to /dev/null. Both programs are called with the year as their one argument.
"""

import argparse
import datetime
import json
import os
import platform
import re
import shutil
import signal
import subprocess
import sys
import tempfile
import threading
import time

# The folder keeps no compiled copy of corpora.py.
sys.dont_write_bytecode = True
import corpora  # noqa: E402

TOP = os.path.dirname(os.path.dirname(os.path.abspath(__file__)))
CRATES = os.path.join(TOP, "crates")
DOCUMENT = os.path.join(TOP, "docs", "BENCHMARKS.md")
CRATES_OF_DEBIAN = "/usr/share/cargo/registry"
# Ways to filter the file $F by $P, each to files whose names begin with "out". `split` sets FILE, and would end at the
# first part in which lines are refused.
WAYS = [
    ("one process", "$P <$F >out"),
    ("split -n l/K/2, in each of two", "seq 2 | xargs -P 2 -I{} sh -c 'split -n l/{}/2 $F | $P >out.{}'"),
    ("split -n l/K/4, in each of four", "seq 4 | xargs -P 4 -I{} sh -c 'split -n l/{}/4 $F | $P >out.{}'"),
    ("split -n r/4 --filter", "split -n r/4 --filter '$P >$FILE || [ $? = 1 ]' $F out."),
    ("split -n l/4 --filter", "split -n l/4 --filter '$P >$FILE || [ $? = 1 ]' $F out."),
    ("parallel --pipepart --block -1", "parallel --pipepart -a $F --block -1 --keep-order $P >out"),
    ("parallel --pipe --block 50M", "parallel --pipe --block 50M --keep-order $P <$F >out"),
    ("parallel --pipe --block 1M", "parallel --pipe --block 1M --keep-order $P <$F >out"),
]
# A hostile line is given often enough that a run takes about so long, but no more often than this.
HOSTILE_SECONDS = 0.1
HOSTILE_REPEATS = 1024
# A run of the peer on a hostile line may take this many seconds, under valgrind too.
PATIENCE = 120
# How wide the first column of a table is.
FIRST_COLUMN = 32
# Kilobytes of the hostile lines whose instructions are counted.
COUNTED_SIZES = [64, 128, 256, 512]
# Valgrind counts an instruction for each byte that the C library moves or fills by one string instruction, as it does
# for long texts. So it is told not to: otherwise a first doubling would show the growth of the filter's block.
NO_STRING_INSTRUCTIONS = ":".join(
    "glibc.cpu.x86_rep_%sb_threshold=%d" % (which, 1 << 30) for which in ("movs", "stos")
)


class Filter:
    """A program that reads lines and writes lines."""

    def __init__(self, path, year, by_processor=False, more=()):
        self.words = [os.path.abspath(path), str(year), *more]
        self.environment = {**os.environ, "TZ": "UTC"}
        self.by_processor = by_processor

    def run(self, file, limit=None):
        """The seconds of one run, or none where it takes longer than the limit."""
        with open(file, "rb") as given:
            begun = time.perf_counter()
            ran = subprocess.Popen(
                self.words, stdin=given, stdout=subprocess.DEVNULL, stderr=subprocess.DEVNULL, env=self.environment
            )
            watch = threading.Timer(limit or 3600, ran.kill)
            watch.start()
            _, status, used = os.wait4(ran.pid, 0)
            taken = time.perf_counter() - begun
            watch.cancel()
        ran.returncode = os.waitstatus_to_exitcode(status)
        if ran.returncode == -signal.SIGKILL and limit:
            return None
        self.judge(ran.returncode)
        return used.ru_utime + used.ru_stime if self.by_processor else taken

    def output(self, lines):
        given = "".join(line + "\n" for line in lines).encode()
        ran = subprocess.run(
            self.words, input=given, stdout=subprocess.PIPE, stderr=subprocess.DEVNULL, env=self.environment
        )
        self.judge(ran.returncode)
        return ran.stdout

    def instructions(self, lines, limit=None):
        """How many instructions valgrind counts in a run over the lines: none where it takes longer than the limit."""
        given = "".join(line + "\n" for line in lines).encode()
        words = ["valgrind", "--tool=callgrind", "--callgrind-out-file=/dev/null", *self.words]
        environment = {**self.environment, "GLIBC_TUNABLES": NO_STRING_INSTRUCTIONS}
        to = {"stdout": subprocess.DEVNULL, "stderr": subprocess.PIPE}
        try:
            ran = subprocess.run(words, input=given, env=environment, timeout=limit, **to)
        except subprocess.TimeoutExpired:
            return None
        self.judge(ran.returncode)
        return int(re.search(rb"Collected : ([0-9]+)", ran.stderr)[1])

    def instructions_a_line(self, lines, fewer):
        """How many instructions a line takes: those of all lines but the first, without those of the start."""
        return (self.instructions(lines) - self.instructions(lines[:fewer])) / (len(lines) - fewer)

    def judge(self, status):
        # 1 says that some lines were refused.
        if status not in (0, 1):
            sys.exit("%s ended with status %d" % (self.words[0], status))


def compiled_over(library, program):
    """Compiles bench/c_totals.c over the library for C to that path, and returns it."""
    kit = os.path.dirname(os.path.dirname(os.path.realpath(shutil.which("rt"))))
    libraries = [library, os.path.join(kit, "c", "liblibc_c.a")]
    source = os.path.join(TOP, "bench", "c_totals.c")
    subprocess.run(["cc", "-O2", "-I", os.path.join(TOP, "include"), "-o", program, source, *libraries], check=True)
    return program


def library_for_c():
    """Proves and builds the library for C, and returns its path."""
    crate = os.path.join(CRATES, "syslog_c")
    print("building %s" % crate, file=sys.stderr)
    subprocess.run(["rt", "lib"], cwd=crate, stdout=sys.stderr, check=True)
    return os.path.join(crate, "out", "libsyslog_c.a")


def built_by_cargo(scratch, words, environment):
    """Builds bench/rust_totals by cargo, with these words and variables more, and returns its path."""
    target = os.path.join(scratch, "target")
    folder = os.path.join(TOP, "bench", "rust_totals")
    environment = {**os.environ, **environment, "CARGO_TARGET_DIR": target}
    subprocess.run(["cargo", "build", "--release", *words], cwd=folder, env=environment, stdout=sys.stderr, check=True)
    return os.path.join(target, "release", "rust_totals")


def built_in_rust(library):
    """Builds it over the library for C, statically. The crates that it needs come from Debian's packages
    (librust-chrono-dev) where these are, and otherwise from cargo's own cache."""
    scratch = os.path.join(tempfile.gettempdir(), "syslog-bench-rust")
    subprocess.run(
        ["make", "-s", "OUT=" + scratch, "LIBRARY=" + library, scratch + "/libsyslog_loose.a"], cwd=TOP, check=True
    )
    ours = os.path.join(TOP, "bindings", "rust", "syslog_loose")
    words = ["--offline", "--config", 'patch.crates-io.syslog_loose.path="%s"' % ours]
    if os.path.isdir(CRATES_OF_DEBIAN):
        words += ["--config", 'source.crates-io.replace-with="debian"']
        words += ["--config", 'source.debian.directory="%s"' % CRATES_OF_DEBIAN]
    return built_by_cargo(scratch, words, {"SYSLOG_LOOSE_LIB": scratch, "SYSLOG_LOOSE_STATIC": "1"})


def built_over_the_crate():
    """Builds it over the Rust crate itself, which cargo fetches from crates.io."""
    return built_by_cargo(os.path.join(tempfile.gettempdir(), "syslog-bench-crate"), [], {})


def built(chosen):
    """Proves and builds the program, and returns its path."""
    if chosen.library:
        return compiled_over(library_for_c(), os.path.join(tempfile.gettempdir(), "syslog-bench-c-totals"))
    if chosen.rust:
        return built_in_rust(library_for_c())
    name = "syslog_totals" if chosen.reading else "syslog_json" if chosen.json else "syslog_tidy"
    crate = os.path.join(CRATES, name)
    print("building %s" % crate, file=sys.stderr)
    ran = subprocess.run(["rt", "run", "--", str(chosen.year)], cwd=crate, stdin=subprocess.DEVNULL, stdout=sys.stderr)
    if ran.returncode:
        sys.exit("the program was not built")
    return os.path.join(crate, "out", name)


def machine():
    model = platform.machine()
    with open("/proc/cpuinfo", encoding="utf-8") as about:
        for line in about:
            if line.startswith("model name"):
                model = line.partition(":")[2].strip()
                break
    return "%s, %d cores, %s" % (model, os.cpu_count() or 1, datetime.date.today())


def least(filters, files, runs):
    """The least time of each filter on each file: the filters run in turn, and each file once before any again, so that
    a machine's slow minutes fall on all files alike. Each time it is a fresh copy of the file, since a copy whose pages
    lie badly in memory slows every run."""
    best = [[float("inf")] * len(filters) for _ in files]
    for _ in range(runs):
        for times, file in zip(best, files):
            fresh = shutil.copy(file, file + ".copy")
            for place, it in enumerate(filters):
                times[place] = min(times[place], it.run(fresh))
            os.remove(fresh)
    return best


def row(table, first, *cells):
    """Prints a row at once, since a run takes minutes, and adds it to the table."""
    widths = table[0]
    table.append(("    %-*s" % (widths[0], first) + "".join("%*s" % it for it in zip(widths[1:], cells))).rstrip())
    print(table[-1], flush=True)


def head(first, *cells):
    """A new table, of its heading alone: the widths of its columns, and then its rows."""
    table = [[FIRST_COLUMN, *(max(len(it), 10) + 3 for it in cells)]]
    row(table, first, *cells)
    return table


def with_tables(text, tables, measured):
    """The text of the document, each table instead of the old one of its name."""
    for name, table in tables.items():
        opening, closing = "<!-- table: %s -->\n" % name, "<!-- end -->"
        before, opened, rest = text.partition(opening)
        old, closed, after = rest.partition(closing)
        # An end that belongs to another table would take the text up to there along.
        if not closed or "<!--" in old:
            sys.exit("the document has no table between %s and %s" % (opening.strip(), closing))
        text = before + "\n\n".join([opening + measured, "\n".join(table[1:]), closing]) + after
    return text


def hostile(chosen):
    """The hostile lines of this run, by their names."""
    return corpora.HOSTILE_JSON if chosen.json else corpora.HOSTILE


def compared(own, peer, *reading):
    """How many times as much the peer takes, and also without what both take to read lines, if that is given."""
    return ["%.2f" % ((peer - it) / (own - it)) for it in (0, *reading)]


def time_corpora(filters, chosen, folder):
    files, sizes = [], []
    for name, lines in corpora.corpora(chosen.lines):
        if chosen.only in name:
            files.append(os.path.join(folder, name))
            sizes.append((len(lines), corpora.write_lines(files[-1], lines) / 1e6))
    times = least(filters, files, chosen.runs)
    more = ["peer's lines/s", "times the peer's speed"] * (len(filters) > 1)
    more += ["the same without reading lines"] * (len(filters) > 2)
    table = head("corpus", "lines/s", "MB/s", *more)
    for file, (count, size), (own, *others) in zip(files, sizes, times):
        more = ["{:,.0f}".format(count / others[0]), *compared(own, *others)] if others else []
        speeds = ["{:,.0f}".format(count / own), "%.0f" % (size / own)]
        row(table, os.path.basename(file), *speeds, *more)
        os.remove(file)
    return table


def repeats_for(it, line, file):
    """How often the line is given to a filter, and the seconds of such a run: none where one line takes too long."""
    repeats = 1
    while True:
        corpora.write_lines(file, [line] * repeats)
        taken = it.run(file, PATIENCE)
        if taken is None or taken >= HOSTILE_SECONDS or repeats >= HOSTILE_REPEATS:
            return repeats, taken
        repeats *= 4


def seconds_each(filters, line, folder, runs):
    """The least seconds that each filter takes for one such line, the filters run in turn."""
    files = [os.path.join(folder, "hostile_%d" % place) for place in range(len(filters))]
    nothing = os.path.join(folder, "nothing")
    corpora.write_lines(nothing, [])
    found = [repeats_for(it, line, file) for it, file in zip(filters, files)]
    best, starts = [taken for _, taken in found], [1e9] * len(filters)
    for _ in range(runs):
        for place, it in enumerate(filters):
            starts[place] = min(starts[place], it.run(nothing))
            # What takes seconds is measured well enough by one run.
            if best[place] is not None and best[place] < 2:
                best[place] = min(best[place], it.run(files[place]))
    each = zip(best, starts, found)
    return [None if taken is None else max(taken - start, 1e-9) / repeats for taken, start, (repeats, _) in each]


def shown(times):
    """Each time, and its growth over the one before it."""
    cells, before = [], None
    for taken in times:
        if taken is None:
            cells.append("over %d s" % PATIENCE)
        else:
            growth = " (%.2f)" % (taken / before) if before else ""
            cells.append("%.3f%s" % (taken * 1e3, growth))
        before = taken
    return cells


def time_hostile(filters, chosen, folder):
    print("\nMilliseconds for one hostile line of each size, and in brackets the growth at each doubling:\n")
    called = ["ours", "peer's"][: len(filters)]
    table = head("line", *["%s, %d KB" % (it, size) for it in called for size in corpora.HOSTILE_SIZES])
    for name, maker in hostile(chosen):
        if chosen.only not in "hostile_" + name:
            continue
        lines = [maker(size * 1024) for size in corpora.HOSTILE_SIZES]
        times = [seconds_each(filters, line, folder, chosen.runs) for line in lines]
        row(table, name, *[cell for its_times in zip(*times) for cell in shown(its_times)])
    return table


def order_kept(folder, wanted):
    """Whether the files that begin with "out", joined, are the wanted one, or have its lines at least."""
    words = {"shell": True, "cwd": folder, "env": {**os.environ, "LC_ALL": "C", "W": wanted}, "executable": "/bin/bash"}
    if not subprocess.run('cat out* | cmp -s - "$W"', **words).returncode:
        return "kept"
    if subprocess.run('cmp -s <(cat out* | sort) <(sort "$W")', **words).returncode:
        sys.exit("not all lines came out")
    return "lost"


def time_cores(it, chosen, folder):
    """The least time of each way to filter ten times the lines of the corpus mixed, by the clock."""
    file, wanted, parts = (os.path.join(folder, name) for name in ("mixed", "wanted", "parts"))
    size = corpora.write_lines(file, corpora.corpus("mixed", chosen.lines) * 10)
    print("%d lines, %.0f MB\n" % (chosen.lines * 10, size / 1e6))
    table = head("how", "seconds", "order of the lines")
    for name, command in WAYS:
        if command.startswith("parallel") and not shutil.which("parallel"):
            continue
        best = None
        for _ in range(chosen.runs):
            shutil.rmtree(parts, ignore_errors=True)
            os.mkdir(parts)
            begun = time.perf_counter()
            environment = {**it.environment, "P": " ".join(it.words), "F": file}
            ran = subprocess.run(["sh", "-c", command], cwd=parts, env=environment, stderr=subprocess.DEVNULL)
            taken = time.perf_counter() - begun
            best = taken if best is None else min(best, taken)
        if name == "one process":
            # (where lines are refused the other ways end as after a failed command, so the output decides)
            it.judge(ran.returncode)
            os.rename(os.path.join(parts, "out"), wanted)
            order = "kept"
        else:
            order = order_kept(parts, wanted)
        row(table, name, "%.2f" % best, order)
    return table


def count_corpora(filters, chosen):
    """The instructions of each filter for one line more."""
    more = ["peer's instructions", "the peer's over ours"] * (len(filters) > 1)
    more += ["the same without reading lines"] * (len(filters) > 2)
    more += ["lines whose sums differ"] * (len(filters) > 1 and chosen.sums)
    table = head("corpus", "instructions a line", *more)
    for name, lines in corpora.corpora(4000):
        # The few long lines are left to the tables of times.
        if chosen.only not in name or len(lines) < 800:
            continue
        own, *others = [it.instructions_a_line(lines, len(lines) // 4) for it in filters]
        more = ["{:,.0f}".format(others[0]), *compared(own, *others)] if others else []
        if others and chosen.sums:
            more.append(len(differences(filters[:2], lines, len(lines))))
        row(table, name, "{:,.0f}".format(own), *more)
    return table


def count_hostile(filters, chosen):
    """The instructions of the first filter for the longest of each hostile line, the most by which they grew as its
    length doubled, and by how much those of the other are more."""
    size = "%d KB" % COUNTED_SIZES[-1]
    print("\nMillions of instructions for one hostile line of %s:\n" % size)
    more = ["the peer's over ours"] * (len(filters) > 1)
    table = head("line", size, "most growth at a doubling", *more)
    (own, begun), *others = [(it, it.instructions([])) for it in filters]
    for name, maker in hostile(chosen):
        if chosen.only not in "hostile_" + name:
            continue
        lines = [maker(size * 1024) for size in COUNTED_SIZES]
        counts = [(own.instructions([line]) - begun) / 1e9 for line in lines]
        growth = max(after / before for before, after in zip(counts, counts[1:]))
        more = []
        for it, start in others:
            count = it.instructions(lines[-1:], PATIENCE)
            more.append("%.2f" % ((count - start) / 1e9 / counts[-1]) if count else "over %d s" % PATIENCE)
        row(table, name, *shown(counts[-1:]), "%.2f" % growth, *more)
    return table


def differences(filters, lines, most):
    """The lines on which two filters write different bytes, found by halves, and at most so many."""
    found, waiting = [], [lines]
    while waiting and len(found) < most:
        part = waiting.pop()
        outputs = [it.output(part) for it in filters]
        if outputs[0] == outputs[1]:
            continue
        if len(part) == 1:
            found.append((part[0], outputs))
        else:
            half = len(part) // 2
            waiting += [part[half:], part[:half]]
    return found


def check(filters, chosen):
    """Compares what two filters write, and returns on how many lines they differ."""
    total = 0
    for name, lines in corpora.corpora(chosen.lines):
        if chosen.only not in name:
            continue
        found = differences(filters, lines, chosen.most)
        total += len(found)
        least_so_many = " at least" * (len(found) >= chosen.most)
        print("%s: %d lines, %d of them differ%s" % (name, len(lines), len(found), least_so_many))
        for line, (own, other) in found[:3]:
            print("  line  %r\n  ours  %r\n  peer  %r" % (line, own, other))
    return total


# What the peer's objects of the same lines lack.
NEW_KEYS = ("facility_code", "severity_code", "dialect", "unparsed_structured_data", "raw")


def is_same_object(own, peer):
    """Whether the objects have the same fields and values. The process id is always a text, and the peer's may be a
    number."""
    told = dict(peer, procid=str(peer["procid"])) if "procid" in peer else peer
    return {key: value for key, value in own.items() if key not in NEW_KEYS} == told


def is_of_the_dash(own, peer):
    """Whether the objects differ by the rule of the dash alone: the peer takes one that leads a message for a list."""
    text = own.get("message", "")
    return text.startswith("-") and is_same_object({**own, "message": text[1:].lstrip()}, peer)


def check_objects(filters, chosen):
    """Compares the objects that two filters write of each line by their values, and answers how many differ."""
    total = 0
    for name, lines in corpora.corpora(chosen.lines):
        if chosen.only not in name:
            continue
        written = [it.output(lines).decode().splitlines() for it in filters]
        if [len(it) for it in written] != [len(lines)] * 2:
            sys.exit("%s: %d lines, and %d and %d objects" % (name, len(lines), *(len(it) for it in written)))
        values = [(line, json.loads(own), json.loads(peer)) for line, own, peer in zip(lines, *written)]
        differ = [it for it in values if not is_same_object(*it[1:])]
        wrong = [it for it in differ if not is_of_the_dash(*it[1:])]
        total += len(wrong)
        print(
            "%s: %d lines, %d of them of the dash, %d other objects differ" % (
                name, len(lines), len(differ) - len(wrong), len(wrong)
            )
        )
        for line, own, peer in wrong[:3]:
            print("  line  %r\n  ours  %r\n  peer  %r" % (line, own, peer))
    return total


def arguments():
    reader = argparse.ArgumentParser(description=__doc__, formatter_class=argparse.RawDescriptionHelpFormatter)
    reader.add_argument("--program", help="the program, instead of the one that is built")
    told = (
        "another program with the same argument; with --rust crates.io too: the same program over the crate from there"
    )
    reader.add_argument("--peer", help=told)
    reader.add_argument("--check", action="store_true", help="compare the outputs")
    reader.add_argument("--instructions", action="store_true", help="count instructions by valgrind, and time nothing")
    told = "measure the reading calls, by syslog_totals, on the corpora alone"
    reader.add_argument("--reading", action="store_true", help=told)
    told = "measure the library for C, by the program bench/c_totals.c, on the corpora alone"
    reader.add_argument("--library", action="store_true", help=told)
    told = "measure the interface of the Rust crate, by the program bench/rust_totals, on the corpora alone"
    reader.add_argument("--rust", action="store_true", help=told)
    told = "measure syslog_json, or with --check compare its objects with the peer's by their values"
    reader.add_argument("--json", action="store_true", help=told)
    reader.add_argument("--cores", action="store_true", help="time ways to filter one file on all cores")
    reader.add_argument("--year", type=int, default=2019)
    told = "count processor time, which other work on the machine disturbs less"
    reader.add_argument("--processor", action="store_true", help=told)
    reader.add_argument("--lines", type=int, default=200_000, help="lines of each corpus (200,000)")
    reader.add_argument("--runs", type=int, default=5, help="runs of which the least counts (5)")
    told = "differing lines after which --check goes on to the next corpus (200)"
    reader.add_argument("--most", type=int, default=200, help=told)
    reader.add_argument("--only", default="", help="only corpora whose names have this in them")
    told = "put the tables into this document too (docs/BENCHMARKS.md), as of the commit that is checked out"
    reader.add_argument("--write", metavar="DOCUMENT", nargs="?", const=DOCUMENT, help=told)
    chosen = reader.parse_args()
    chosen.sums = chosen.reading or chosen.library or chosen.rust
    if chosen.check and not chosen.peer:
        reader.error("--check compares with a --peer")
    if chosen.write and (chosen.only or chosen.check):
        reader.error("--write replaces whole tables: --only makes parts of them, and --check none")
    if chosen.write and (chosen.reading or chosen.library) and not chosen.instructions:
        reader.error("the document has --reading and --library by --instructions alone")
    return chosen


def table_names(chosen):
    """The names of the tables of this run in the document, which has no times of hostile lines."""
    if chosen.cores:
        return ["all cores"]
    subjects = ["ordinary lines"] + ["hostile lines"] * chosen.instructions
    if chosen.sums:
        subjects = ["library for C" if chosen.library else "from Rust" if chosen.rust else "reading calls"]
    if chosen.json:
        subjects = ["JSON of %s" % it for it in subjects]
    return ["%s, by %s" % (it, "instructions" if chosen.instructions else "time") for it in subjects]


def main():
    chosen = arguments()
    clock = "processor time" if chosen.processor else "time by the clock"
    how = "instructions by valgrind, one run" if chosen.instructions else "%s, least of %d runs" % (clock, chosen.runs)
    names = table_names(chosen)
    if chosen.write:
        commit = subprocess.check_output(["git", "rev-parse", "--short", "HEAD"], cwd=TOP, text=True).strip()
        measured = "Measured on %s, at commit %s; %s." % (machine(), commit, how)
        # A document without the tables is found now, not after minutes.
        with open(chosen.write, encoding="utf-8") as document:
            with_tables(document.read(), dict.fromkeys(names, []), measured)
    paths = [chosen.program or built(chosen)] + [chosen.peer] * bool(chosen.peer)
    if chosen.rust and chosen.peer == "crates.io":
        paths[1] = built_over_the_crate()
    filters = [Filter(path, chosen.year, chosen.processor) for path in paths]
    if chosen.rust and chosen.peer:
        filters.append(Filter(paths[0], chosen.year, chosen.processor, ["--lines-only"]))
    if chosen.check:
        compare = check_objects if chosen.json else check
        sys.exit(1 if compare(filters, chosen) else 0)
    if chosen.instructions:
        tables = [count_corpora(filters, chosen)]
        tables += [] if chosen.sums else [count_hostile(filters, chosen)]
    else:
        print("%s; %s\n" % (machine(), how))
        with tempfile.TemporaryDirectory(prefix="syslog-bench-") as folder:
            if chosen.cores:
                tables = [time_cores(filters[0], chosen, folder)]
            else:
                tables = [time_corpora(filters, chosen, folder)]
                tables += [] if chosen.sums else [time_hostile(filters, chosen, folder)]
    if chosen.write:
        # Read again, since it may have been worked on in the meantime.
        with open(chosen.write, "r+", encoding="utf-8") as document:
            text = with_tables(document.read(), dict(zip(names, tables)), measured)
            document.seek(0)
            document.write(text)
            document.truncate()


if __name__ == "__main__":
    main()
