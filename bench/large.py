#!/usr/bin/env python3
"""How much memory a large answer takes while it goes out, over TCP.

    python3 bench/large.py [--documents N] [--program FILE]

starts the proved hub (./hub builds it; or another program of the same commands), and stores N documents of
one database in batches. Then it asks for large answers one after the other. These are all rows, all rows with
their documents, all rows downwards, and the missing ones of 100,000 revisions. For each answer the script
prints its bytes, its seconds, and the kB by which the hub's memory rose above its size before the request.

The status is 1 where a feed upwards takes 1 MiB or more: its rows are to go out as they are made. Only
Python's standard library is used, and Linux's files of a process (`clear_refs`, `status`).
"""

import argparse
import hashlib
import http.client
import json
import os
import re
import socket
import subprocess
import sys
import time

TOP = os.path.dirname(os.path.dirname(os.path.abspath(__file__)))
HUB = os.path.join(TOP, "crates", "changes_hub", "out", "changes_hub")
BATCH = 1000
# The documents whose revisions are asked for, two of each.
ASKED = 50_000
# The kB of memory that a feed upwards may not reach.
MOST = 1024


def free_port():
    with socket.create_server(("127.0.0.1", 0)) as it:
        return it.getsockname()[1]


def connect(port):
    """A connection to the hub, as soon as the hub listens."""
    for _ in range(100):
        connection = http.client.HTTPConnection("127.0.0.1", port)
        try:
            connection.connect()
            return connection
        except OSError:
            time.sleep(0.1)
    sys.exit("the hub does not listen")


def name(number):
    return "doc%07d" % number


def revision(number):
    return "1-" + hashlib.md5(b"%d" % number).hexdigest()


class Client:
    """A hub, and one connection to it."""

    def __init__(self, program):
        port = free_port()
        self.hub = subprocess.Popen([program, "serve", f"127.0.0.1:{port}", "1000"], stdout=subprocess.DEVNULL)
        self.connection = connect(port)

    def memory(self, field):
        """The value of a field in the status of the hub's process, in kB."""
        with open(f"/proc/{self.hub.pid}/status", encoding="ascii") as it:
            return int(re.search(rf"^{field}:\s+(\d+)", it.read(), re.M)[1])

    def ask(self, method, path, value=None):
        """Sends a request, drops the body of its answer, and returns the number of the body's bytes."""
        body, heads = None, {}
        if value is not None:
            body, heads = json.dumps(value), {"Content-Type": "application/json"}
        self.connection.request(method, path, body, heads)
        answer = self.connection.getresponse()
        if answer.status not in (200, 201):
            sys.exit(f"{method} {path} is answered {answer.status}")
        return sum(len(part) for part in iter(lambda: answer.read(1 << 20), b""))

    def fill(self, count):
        self.ask("PUT", "/d")
        for first in range(0, count, BATCH):
            numbers = range(first, min(first + BATCH, count))
            docs = [{"_id": name(it), "_rev": revision(it), "text": "x" * 80} for it in numbers]
            self.ask("POST", "/d/_bulk_docs", {"docs": docs, "new_edits": False})

    def measure(self, case, *question):
        """Sends a request, prints its line, and returns the kB by which the hub's memory rose meanwhile."""
        with open(f"/proc/{self.hub.pid}/clear_refs", "w", encoding="ascii") as it:
            it.write("5")
        before, begun = self.memory("VmRSS"), time.monotonic()
        count = self.ask(*question)
        seconds, more = time.monotonic() - begun, self.memory("VmHWM") - before
        print(f"{case:<42} {count:>12,} bytes {seconds:7.2f} s {more:>8,} kB more")
        return more


def main():
    parser = argparse.ArgumentParser(description=__doc__.splitlines()[0])
    parser.add_argument("--documents", type=int, default=1_000_000)
    parser.add_argument("--program", default=HUB)
    asked = parser.parse_args()
    client = Client(asked.program)
    try:
        client.fill(asked.documents)
        print(f"{asked.documents:,} documents: {client.memory('VmRSS'):,} kB")
        upwards = [
            client.measure("all rows", "GET", "/d/_changes"),
            client.measure("all rows, with their documents", "GET", "/d/_changes?include_docs=true"),
        ]
        client.measure("all rows downwards", "GET", "/d/_changes?descending=true")
        asks = {name(it): [revision(it), "9" + revision(it)[1:]] for it in range(min(ASKED, asked.documents))}
        client.measure(f"missing ones of {2 * len(asks):,} revisions", "POST", "/d/_revs_diff", asks)
    finally:
        client.hub.kill()
    return max(upwards) >= MOST


if __name__ == "__main__":
    sys.exit(main())
