#!/usr/bin/env python3
"""The cost of databases that threads share.

    python3 bench/threads.py

runs the proved program of crates/threads_bench, which `rt all check` builds. It prints writes a second
beside feeds that are polled, and the time from a write until the last of 1,000 feeds has its row. As many
threads as there are processors poll the feeds. Only Python's standard library is used. No figure is
asserted anywhere: a figure is read, beside the machine's load.
"""

import os
import subprocess
import sys

TOP = os.path.dirname(os.path.dirname(os.path.abspath(__file__)))
BENCH = os.path.join(TOP, "crates", "threads_bench", "out", "threads_bench")


def figures(*args):
    """The numbers that the program prints: microseconds."""
    ran = subprocess.run([BENCH, *map(str, args)], capture_output=True, text=True, check=True)
    return [int(line) for line in ran.stdout.split()]


def at_share(sorted_figures, share):
    """The figure that `share` in a hundred figures do not exceed."""
    return sorted_figures[min(len(sorted_figures) - 1, len(sorted_figures) * share // 100)]


def main():
    if not os.path.exists(BENCH):
        sys.exit("no program: run `rt all check` first")
    print("load %.1f, %d processors" % (os.getloadavg()[0], os.cpu_count()))
    for feeds, count in ((0, 20_000), (100, 2_000), (1_000, 200)):
        (passed,) = figures("writes", feeds, count)
        print("writes a second beside %d feeds: %d" % (feeds, count * 1_000_000 // max(1, passed)))
    news = sorted(figures("news", 1_000, 100))
    print("a write until the last of 1,000 feeds has its row: median %.2f ms, 99 in 100 within %.2f ms"
          % (at_share(news, 50) / 1000, at_share(news, 99) / 1000))


if __name__ == "__main__":
    main()
