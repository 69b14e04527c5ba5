#!/usr/bin/env python3
"""What the dearest requests of each kind cost, and how their cost grows.

    python3 bench/dearest.py [--short] [KIND..]

runs requests that a hostile client would choose through `changes_hub stdin`, which ./hub builds. Each kind
has three sizes, each four times the size before. For each kind the script prints the processor time of the
greatest request, and its time for each megabyte that the request brings. It also prints the exponent of
growth from the smallest to the greatest, where 1.0 is linear. A request that reads has a setup, whose own
time is taken off. Only Python's standard library is used. No figure is asserted: a figure is read.
"""

import argparse
import json
import math
import os
import subprocess
import sys
import tempfile

TOP = os.path.dirname(os.path.dirname(os.path.abspath(__file__)))
HUB = os.path.join(TOP, "crates", "changes_hub", "out", "changes_hub")
MAKE = b"PUT /d HTTP/1.1\r\n\r\n"
SIZES = (1_000, 4_000, 16_000)
RUNS = 3


def request(line, value):
    """A request whose body is this value as JSON."""
    body = json.dumps(value, separators=(",", ":")).encode()
    return b"%s HTTP/1.1\r\nContent-Length: %d\r\n\r\n%s" % (line.encode(), len(body), body)


def batch(docs):
    """A replicated batch."""
    return request("POST /d/_bulk_docs", {"docs": docs, "new_edits": False})


def edit(hashes, start=None, name="a", **members):
    """A replicated edit of a document, with this history."""
    start = len(hashes) if start is None else start
    return {"_id": name, "_revisions": {"start": start, "ids": hashes}, **members}


def other(number):
    """A hash that is the text of no digest."""
    return f"x{number}"


def alike(number):
    """A digest whose first eight bytes are the same for each number."""
    return f"{'ab' * 8}{number:016x}"


def leaves(count, text):
    return batch([edit([text(it)], 1) for it in range(count)])


def line(count, text):
    return batch([edit([text(it), text(it - 1)] if it else [text(0)], it + 1) for it in range(count)])


def joined(count):
    """Edits that bring one generation each, the newest first, and then edits that join them by pairs."""
    alone = [edit([other(it)], it + 1) for it in reversed(range(count))]
    joins = [edit([f"j{it}", other(it), other(it - 1)], it + 2) for it in range(1, count)]
    return batch(alone) + batch(joins)


def deletions(count, text):
    """A batch that deletes each leaf of a document, the best leaf first."""
    best = sorted((text(it) for it in range(count)), reverse=True)
    return batch([edit([f"z{at}", it], 2, _deleted=True) for at, it in enumerate(best)])


def revs(count, text):
    return [f"1-{text(it)}" for it in range(count)]


def asked(count, text):
    """A request for these revisions of one document."""
    path = json.dumps(revs(count, text), separators=(",", ":"))
    return f"GET /d/a?revs=true&open_revs={path} HTTP/1.1\r\n\r\n".encode()


def kinds():
    """The kinds of requests by name. For a size, a kind gives its setup and its request."""
    every = b"GET /d/a?open_revs=all&revs=true HTTP/1.1\r\n\r\n"
    found = {}
    for name, text in (("no digests", other), ("digests that begin alike", alike)):
        found[f"leaves, {name}"] = lambda n, t=text: (b"", leaves(n, t))
        found[f"a line, {name}"] = lambda n, t=text: (b"", line(n, t))
        found[f"leaves deleted one by one, {name}"] = lambda n, t=text: (leaves(n, t), deletions(n, t))
        found[f"open_revs=all, {name}"] = lambda n, t=text: (leaves(n, t), every)
        found[f"_revs_diff, {name}"] = lambda n, t=text: (
            leaves(n, t),
            request("POST /d/_revs_diff", {"a": revs(2 * n, t)}),
        )
    found["generations alone, then joined"] = lambda n: (b"", joined(n))
    found["a history"] = lambda n: (b"", batch([edit([other(it) for it in reversed(range(4 * n - 1))])]))
    found["histories on one another"] = lambda n: (
        b"",
        b"".join(batch([edit([other(it) for it in reversed(range(n + k))])]) for k in range(4)),
    )
    found["listed ids"] = lambda n: (
        batch([edit([other(0)], 1, name=f"i{it}") for it in range(n)]),
        request("POST /d/_changes?filter=_doc_ids", {"doc_ids": [f"i{it}" for it in range(n)]}),
    )
    found["ids that begin alike"] = lambda n: (
        b"",
        batch([edit([other(0)], 1, name="i" * 200 + f"{it:09d}") for it in range(n)]),
    )
    found["lists within lists"] = lambda n: (b"", batch([edit([other(0)], 1, v=[[[[]]]] * n)]))
    found["members of one document"] = lambda n: (
        b"",
        batch([edit([other(0)], 1, **{f"m{it}": it for it in range(n)})]),
    )
    return found


def seconds(requests):
    """The processor time of the hub for these requests: the least of RUNS runs."""
    with tempfile.NamedTemporaryFile() as source:
        source.write(requests)
        source.flush()
        return min(one_run(source.name) for _ in range(RUNS))


def one_run(name):
    with open(name, "rb") as source:
        hub = subprocess.Popen([HUB, "stdin"], stdin=source, stdout=subprocess.DEVNULL)
        _, status, usage = os.wait4(hub.pid, 0)
        hub.returncode = status
    if status:
        sys.exit(f"the hub ended with status {status}")
    return usage.ru_utime + usage.ru_stime


def measure(kind, sizes):
    """The time of the greatest request, its bytes, and the exponent of growth."""
    times, length = [], 0
    for size in sizes:
        setup, asks = kind(size)
        before = seconds(MAKE + setup)
        times.append(max(seconds(MAKE + setup + asks) - before, 1e-4))
        length = len(asks)
    growth = math.log(times[-1] / times[0]) / math.log(sizes[-1] / sizes[0])
    return times[-1], length, growth


def main():
    words = argparse.ArgumentParser(description=__doc__.split("\n")[0])
    words.add_argument("--short", action="store_true", help="a quarter of each size")
    words.add_argument("kinds", nargs="*", help="words that the names of the kinds begin with")
    given = words.parse_args()
    if not os.access(HUB, os.X_OK):
        sys.exit("build the hub first: ./hub stdin < crates/changes_hub/stdin")
    sizes = [it // 4 for it in SIZES] if given.short else SIZES
    print(f"| Kind, at {sizes[-1]:,} | Time | Brings | A megabyte | Growth |")
    print("|---|---|---|---|---|")
    for name, kind in kinds().items():
        if given.kinds and not any(name.startswith(it) for it in given.kinds):
            continue
        time, length, growth = measure(kind, sizes)
        a_megabyte = time / (length / 1e6)
        print(f"| {name} | {time:.3f} s | {length / 1e6:.2f} MB | {a_megabyte:.3f} s | {growth:.2f} |", flush=True)


if __name__ == "__main__":
    main()
