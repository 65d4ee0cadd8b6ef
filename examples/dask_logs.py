#!/usr/bin/env python3
"""Counts the messages of log files by host and severity, on many machines: dask_logs.py YEAR FILE..

It needs dask.distributed and pandas (Debian: python3-distributed, python3-pandas). The workers are processes of this
machine, four or as many as WORKERS says. If DASK_SCHEDULER has the address of a cluster's scheduler, they are those of
the cluster: they need the package syslog_loose too, and the files under the same names (dask also opens s3://.. and
hdfs://..).

A message that shows no host or no severity is not counted.
"""
import os
import sys
from collections import Counter

import dask
import dask.bytes
import syslog_loose
from dask.distributed import Client

# The worker that gets the last block of all works alone for that long. With smaller blocks dask itself takes longer.
BLOCK = "8 MiB"


def count(block, year):
    """Returns how many messages each pair of a host and a severity has in a block of lines."""
    frame = syslog_loose.to_frame(block, year=year)
    return Counter(frame.groupby(["hostname", "severity"], observed=True).size().to_dict())


def count_files(files, year):
    """Returns the counts of all files. Only the counts of a block leave the worker that has read it."""
    # With a delimiter each block goes on to the end of its last line, so that none is cut.
    _, blocks = dask.bytes.read_bytes(files, delimiter=b"\n", blocksize=BLOCK, sample=False)
    counts = [dask.delayed(count)(block, year) for file in blocks for block in file]
    return sum(dask.compute(*counts), Counter())


def main():
    if len(sys.argv) < 3:
        sys.exit(__doc__)
    year, files = int(sys.argv[1]), sys.argv[2:]
    scheduler, workers = os.environ.get("DASK_SCHEDULER"), int(os.environ.get("WORKERS", "4"))
    with Client(scheduler) if scheduler else Client(n_workers=workers, threads_per_worker=1):
        counts = count_files(files, year)
    for (host, severity), number in sorted(counts.items()):
        print(host, severity, number)


if __name__ == "__main__":
    main()
