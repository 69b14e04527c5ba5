#!/usr/bin/env python3
"""What the hub costs, and how the cost grows.

    python3 bench/bench.py [--small | --growth] [--no-callgrind]

builds the proved hub (./hub does it), makes its own requests, runs them through `changes_hub stdin`,
prints a table, and writes its figures to bench/out/figures.json. Only Python's standard library is used.
Where valgrind is installed, it counts instructions for one small case. No figure is asserted anywhere:
a figure is read. --growth takes batches, a feed of everything and GETs alone, up to 1,000,000 documents.

Each case is a list of requests. A case that reads has a setup, which is run alone too, and the table has
the difference. Times are processor times of the hub, user and system: on a machine that does other work
they are steadier than the clock. The fastest of several runs counts.
"""

import argparse
import hashlib
import json
import math
import os
import re
import shutil
import subprocess
import sys
import tempfile

TOP = os.path.dirname(os.path.dirname(os.path.abspath(__file__)))
HUB = os.path.join(TOP, "crates", "changes_hub", "out", "changes_hub")
FIGURES = os.path.join(TOP, "bench", "out", "figures.json")

# Starts the hub from a small process: a process begins with the peak memory of the process that starts it.
RUNNER = """
import os, sys
hub, source, target = sys.argv[1:]
pid = os.fork()
if pid == 0:
    os.dup2(os.open(source, os.O_RDONLY), 0)
    os.dup2(os.open(target, os.O_WRONLY | os.O_CREAT | os.O_TRUNC), 1)
    os.execv(hub, [hub, "stdin"])
_, status, usage = os.wait4(pid, 0)
print(status, usage.ru_utime + usage.ru_stime, usage.ru_maxrss)
"""

MAKE = b"PUT /d HTTP/1.1\r\n\r\n"
# About how many rows a case that reads shows.
READ = 500_000
# The same number for --growth. It is greater: 1,000,000 documents take longer to store than a feed takes to
# show them.
READ_FOR_GROWTH = 8_000_000
# The documents are much more than one batch. A batch's text and parsed values take memory only while it is
# stored. So the peak is the memory of the stored documents.
SMALL_BATCHES = "batches of 100, 10 kB"


def request(line, body):
    """A request with a body."""
    return b"%s HTTP/1.1\r\nContent-Length: %d\r\n\r\n%s" % (line.encode(), len(body), body)


def members(number, size):
    """About this many bytes of members."""
    text = hashlib.sha256(str(number).encode()).hexdigest()
    return {"number": number, "text": (text * (size // 64 + 1))[: max(0, size - 40)]}


def compact(value):
    return json.dumps(value, separators=(",", ":"), sort_keys=True).encode()


def revision(parent, ident, body, deleted=False):
    """The revision that the hub makes for an edit."""
    text = compact([deleted, parent, ident])[:-1] + b"," + body + b"]"
    generation = 1 if parent is None else int(parent.split("-")[0]) + 1
    return "%d-%s" % (generation, hashlib.md5(text).hexdigest())


def documents(count, size):
    """Documents with their revisions, as another database made them."""
    for number in range(count):
        doc = {"_id": "doc%07d" % number, "_rev": "1-%032x" % number}
        doc.update(members(number, size))
        yield doc


def batches(count, size, together=1000):
    """The documents in batches. The body of a request may have 8 MB at most."""
    docs = list(documents(count, size))
    parts = [MAKE]
    for at in range(0, count, together):
        body = compact({"docs": docs[at : at + together], "new_edits": False})
        parts.append(request("POST /d/_bulk_docs", body))
    return b"".join(parts)


def puts(count, size):
    """PUTs of new documents, sent one after another without a look at the answers."""
    parts = [MAKE]
    for number in range(count):
        parts.append(request("PUT /d/doc%07d" % number, compact(members(number, size))))
    return b"".join(parts)


def feed(query=""):
    """A request for a feed with this query."""
    return ("GET /d/_changes%s HTTP/1.1\r\n\r\n" % query).encode()


def listed(count, query=""):
    """A request for a feed of 1,000 listed ids, with more of a query."""
    ids = ["doc%07d" % (at * count // 1000) for at in range(1000)]
    return request("POST /d/_changes?filter=_doc_ids" + query, compact({"doc_ids": ids}))


def gets(count):
    return b"".join(b"GET /d/doc%07d HTTP/1.1\r\n\r\n" % number for number in range(count))


def diffs(count):
    """A request for the missing revisions of 1,000 ids, half of which miss one."""
    asked = {}
    for at in range(1000):
        number = at * count // 1000
        asked["doc%07d" % number] = ["1-%032x" % number if at % 2 else "2-x"]
    return request("POST /d/_revs_diff", compact(asked))


def line(count):
    """A document that is edited again and again, each edit on the one before."""
    parts = [MAKE]
    rev = None
    for number in range(count):
        body = compact({"v": number})
        target = "PUT /d/doc" + ("" if rev is None else "?rev=" + rev)
        parts.append(request(target, body))
        rev = revision(rev, "doc", body)
    return b"".join(parts)


def leaves(count):
    """A document with this many leaves, in one batch. The hashes are digests, as a database makes them."""
    hashes = [hashlib.md5(str(n).encode()).hexdigest() for n in range(count + 1)]
    docs = [
        {"_id": "doc", "_revisions": {"start": 2, "ids": [hashes[n], hashes[count]]}, "v": n}
        for n in range(count)
    ]
    return MAKE + request("POST /d/_bulk_docs", compact({"docs": docs, "new_edits": False}))


def run(data, repeat):
    """The processor seconds of the fastest run, with its written bytes and its peak memory in bytes."""
    best = None
    with tempfile.TemporaryDirectory() as folder:
        source = os.path.join(folder, "requests")
        target = os.path.join(folder, "answers")
        with open(source, "wb") as file:
            file.write(data)
        for _ in range(repeat):
            command = [sys.executable, "-S", "-c", RUNNER, HUB, source, target]
            done = subprocess.run(command, stdout=subprocess.PIPE, check=True)
            status, seconds, peak = done.stdout.split()
            if int(status) != 0:
                sys.exit("the hub ended with status %d" % int(status))
            if best is None or float(seconds) < best[0]:
                best = (float(seconds), os.path.getsize(target), int(peak) * 1024)
    return best


def measure(name, size, count, setup, asked, repeat, requests=1):
    """Measures a case, and prints its line. Memory counts from that of a hub with one empty database."""
    empty = run(MAKE, 1)[2]
    before = (0.0, 0, 0) if setup is None else run(setup, repeat)
    whole = (setup or b"") + asked
    after = run(whole, repeat)
    seconds = max(after[0] - before[0], 1e-4)
    entry = {
        "case": name,
        "documents": size,
        "counted": count,
        "requests": requests,
        "seconds": round(seconds, 4),
        "per_second": round(count / seconds),
        "in_mb_per_second": round(len(asked) / seconds / 1e6, 2),
        "out_mb_per_second": round((after[1] - before[1]) / seconds / 1e6, 2),
        "peak_bytes_per_document": round((after[2] - empty) / max(size, 1)),
        "text_bytes_per_document": round(len(setup or asked) / max(size, 1)),
    }
    print(
        "%-28s %9d %10d %9.3f s %10d /s %8.1f %8.1f %9d"
        % (
            name,
            size,
            count,
            seconds,
            entry["per_second"],
            entry["in_mb_per_second"],
            entry["out_mb_per_second"],
            entry["peak_bytes_per_document"],
        ),
        flush=True,
    )
    return entry


def growth(entries):
    """The exponent of each case's growth from its smallest to its greatest size, where 1.0 is linear. The
    time is of one request, or of all requests where these are one work together."""
    found = {}
    for name in sorted({entry["case"] for entry in entries}):
        row = [e for e in entries if e["case"] == name]
        by = "documents" if len({e["documents"] for e in row}) > 1 else "counted"
        row.sort(key=lambda e: e[by])
        if row[0][by] < row[-1][by]:
            each = [e["seconds"] / e["requests"] for e in (row[0], row[-1])]
            found[name] = round(math.log(each[1] / each[0]) / math.log(row[-1][by] / row[0][by]), 2)
    return found


def ratios(entries):
    """The aims that are ratios within one run."""
    told = {}
    for size in sorted({entry["documents"] for entry in entries}):
        of = {e["case"]: e for e in entries if e["documents"] == size}
        if "empty feeds" in of:
            near = of["feeds from ten below the end"]["seconds"] / of["empty feeds"]["seconds"]
            told["feed from near the end to an empty one, %d documents" % size] = round(near, 2)
        for case in ("replicated batches", SMALL_BATCHES):
            if case in of:
                entry = of[case]
                memory = entry["peak_bytes_per_document"] / entry["text_bytes_per_document"]
                name = "memory of a document to its text, %d documents" % size
                told[name] = round(memory, 2)
    return told


def speed_of_cat(size):
    """The speed at which the bytes of a feed of everything pass through `cat` and a pipe, in MB/s."""
    with tempfile.TemporaryDirectory() as folder:
        source = os.path.join(folder, "requests")
        target = os.path.join(folder, "answers")
        with open(source, "wb") as file:
            file.write(batches(size, 100) + feed())
        with open(source, "rb") as stdin, open(target, "wb") as stdout:
            subprocess.run([HUB, "stdin"], stdin=stdin, stdout=stdout, check=True)
        before = os.times()
        for _ in range(10):
            with open(target, "rb") as stdin:
                first = subprocess.Popen(["cat"], stdin=stdin, stdout=subprocess.PIPE)
                subprocess.run(["cat"], stdin=first.stdout, stdout=subprocess.DEVNULL, check=True)
                first.stdout.close()
                first.wait()
        after = os.times()
        seconds = (
            after.children_user
            + after.children_system
            - before.children_user
            - before.children_system
        )
        return round(10 * os.path.getsize(target) / max(seconds, 1e-3) / 1e6)


def instructions():
    """The instructions of a small case. Instructions repeat where times do not."""
    if shutil.which("valgrind") is None:
        return None
    with tempfile.TemporaryDirectory() as folder:
        source = os.path.join(folder, "requests")
        with open(source, "wb") as file:
            file.write(batches(1000, 100) + feed())
        command = [
            "valgrind",
            "--tool=callgrind",
            "--callgrind-out-file=" + os.path.join(folder, "profile"),
            HUB,
            "stdin",
        ]
        with open(source, "rb") as stdin:
            done = subprocess.run(command, stdin=stdin, capture_output=True)
    told = re.search(rb"Collected : (\d+)", done.stderr)
    return int(told.group(1)) if told else None


def build():
    """Proves and builds the hub, where it is not built yet."""
    done = subprocess.run([os.path.join(TOP, "hub"), "stdin"], stdin=subprocess.DEVNULL)
    if done.returncode != 0 or not os.path.exists(HUB):
        sys.exit("the hub was not built")


def measure_growth():
    """Measures the cases of --growth up to 1,000,000 documents, with the memory of the documents."""
    entries = []
    for size in [1000, 10000, 100000, 1000000]:
        stored = batches(size, 100)
        feeds, times = READ_FOR_GROWTH // size, max(1, READ // size)
        entries += [
            measure("replicated batches", size, size, None, stored, 2),
            measure("normal feed", size, size * feeds, stored, feed() * feeds, 2, feeds),
            measure("pipelined GETs", size, READ, stored, gets(min(size, READ)) * times, 2, times),
        ]
    for name, exponent in growth(entries).items():
        print("growth of %s: %.2f" % (name, exponent))
    for name, ratio in ratios(entries).items():
        print("%s: %.2f" % (name, ratio))


def main():
    parser = argparse.ArgumentParser(description=__doc__.split("\n\n")[0])
    parser.add_argument("--small", action="store_true", help="up to 10,000 documents")
    parser.add_argument("--growth", action="store_true", help="three cases alone, up to 1,000,000 documents")
    parser.add_argument("--no-callgrind", action="store_true", help="count no instructions")
    options = parser.parse_args()
    build()
    if options.growth:
        measure_growth()
        return
    sizes = [1000, 10000] if options.small else [1000, 10000, 100000]
    print(
        "%-28s %9s %10s %11s %13s %8s %8s %9s"
        % ("case", "documents", "counted", "time", "rate", "MB/s in", "MB/s out", "B/doc")
    )
    entries = []
    for size in sizes:
        repeat = 3 if size < 100000 else 2
        stored = batches(size, 100)

        def reading(name, asked, each):
            """Measures a request that shows `each` rows. It is sent until about READ rows were shown, but
            READ / 50 times at most."""
            times = max(1, READ // max(each, 50))
            return measure(name, size, each * times, stored, asked * times, repeat, times)

        entries += [
            measure("replicated batches", size, size, None, stored, repeat),
            measure("pipelined PUTs", size, size, None, puts(size, 100), repeat),
            reading("normal feed", feed(), size),
            reading("feed with documents", feed("?include_docs=true"), size),
            reading("descending feed", feed("?descending=true"), size),
            reading("empty feeds", feed("?since=now"), 1),
            reading("feeds from ten below the end", feed("?since=%d" % (size - 10)), 10),
            reading("feed of 1,000 listed ids", listed(size), 1000),
            reading("missing of 1,000 ids", diffs(size), 1000),
            reading("pipelined GETs", gets(size), size),
        ]
    large = batches(1000, 10000, 500)
    entries += [
        measure("replicated batches, 10 kB", 1000, 1000, None, large, 3),
        measure("feed with documents, 10 kB", 1000, 1000, large, feed("?include_docs=true"), 3),
    ]
    small = batches(5000, 10000, 100)
    entries.append(measure(SMALL_BATCHES, 5000, 5000, None, small, 2))
    for count in [1250, 2500, 5000]:
        entries.append(measure("one line of edits", 1, count, None, line(count), 1))
    for count in [125, 250, 500]:
        entries.append(measure("leaves of one document", 1, count, None, leaves(count), 1))
    exponents = growth(entries)
    print("\nexponents of growth (1.0 is linear):")
    for name, exponent in exponents.items():
        print("  %-28s %5.2f" % (name, exponent))
    aims = ratios(entries)
    cat = speed_of_cat(sizes[-1])
    print("\nratios:")
    for name, ratio in aims.items():
        print("  %-56s %5.2f" % (name, ratio))
    print("\nthe text of the greatest feed passes through cat and a pipe at %d MB/s" % cat)
    counted = None if options.no_callgrind else instructions()
    if counted is not None:
        print("\ninstructions, 1,000 documents stored and fed: %d" % counted)
    os.makedirs(os.path.dirname(FIGURES), exist_ok=True)
    with open(FIGURES, "w") as file:
        figures = {
            "cases": entries,
            "exponents": exponents,
            "ratios": aims,
            "cat_mb_per_second": cat,
            "instructions": counted,
        }
        json.dump(figures, file, indent=1)
        file.write("\n")


if __name__ == "__main__":
    main()
