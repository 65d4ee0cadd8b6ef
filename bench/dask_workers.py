#!/usr/bin/env python3
"""Times examples/dask_logs.py with one worker and with four, in turn: dask_workers.py YEAR FILE [RUNS]

It needs what the example needs. Each run has workers of its own, which have imported pandas and have counted the file
once before the clock is started. For each run it prints the seconds by the clock, and the processor seconds of each
worker. All runs must count what one process without dask counts.
"""
import os
import sys
import time

TOP = os.path.dirname(os.path.dirname(os.path.abspath(__file__)))
sys.dont_write_bytecode = True
os.environ["PYTHONPATH"] = os.pathsep.join([os.path.join(TOP, "examples"), os.environ.get("PYTHONPATH", "")])
sys.path.insert(0, os.path.join(TOP, "examples"))
import dask_logs  # noqa: E402
from dask.distributed import Client  # noqa: E402


def timed(workers, file, year):
    """Returns what so many workers count, the seconds by the clock, and the processor seconds of each worker."""
    with Client(n_workers=workers, threads_per_worker=1) as client:
        dask_logs.count_files([file], year)
        used = client.run(time.process_time)
        begun = time.perf_counter()
        counts = dask_logs.count_files([file], year)
        taken = time.perf_counter() - begun
        after = client.run(time.process_time)
    return counts, taken, [after[it] - used[it] for it in used]


def main():
    year, file, runs = int(sys.argv[1]), sys.argv[2], int((sys.argv[3:] or ["3"])[0])
    with open(file, "rb") as lines:
        wanted = dask_logs.count(lines.read(), year)
    for _ in range(runs):
        for workers in (1, 4):
            counts, taken, used = timed(workers, file, year)
            if counts != wanted:
                sys.exit("%d workers count otherwise than one process" % workers)
            load = os.getloadavg()[0]
            seconds = " ".join("%.2f" % it for it in used)
            print("%d workers: %.2f s; of the processor %s; load %.1f" % (workers, taken, seconds, load), flush=True)


if __name__ == "__main__":
    main()
