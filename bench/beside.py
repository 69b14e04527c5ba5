#!/usr/bin/env python3
"""Servers of the hub's routes beside each other, over TCP.

    python3 bench/beside.py [--rounds N] [--seconds N] [--case WORD] [--keep] NAME=PROGRAM NAME=PROGRAM ..

runs each program as `PROGRAM serve 127.0.0.1:0 4294967295`, which prints the address that it listens on.
It sends the same requests to all programs by turns, and prints a table: the first program's rate against
the rate of each other program, each round and the median. The table also has each program's processor time
for a request or a row. Its last figure is the time of the 99th of 100 requests, the slowest batch or a feed.
No figure is asserted. `--keep` writes the rates of the first program by those of the second to
bench/out/beside.json. The script takes wrk and curl. A figure is read beside the load and the share of the
processors that the host took, which are printed too.

`bench/hyper` is such a server, of the measured routes in nearly the hub's bytes, over hyper and tokio:

    (cd bench/hyper && cargo build --release --offline)
    python3 bench/beside.py hub=crates/changes_hub/out/changes_hub hyper=bench/hyper/target/release/hyper_hub
"""

import argparse
import http.client
import json
import os
import re
import socket
import statistics
import subprocess
import sys
import tempfile
import time

KEPT = os.path.join(os.path.dirname(os.path.abspath(__file__)), "out", "beside.json")
TICK = os.sysconf("SC_CLK_TCK")
ROWS = 100_000
# The requests of wrk: a PUT of a new document of about 100 bytes each time, and a GET of one of 10,000.
SCRIPTS = {
    "PUT": """
local threads = 0
function setup(thread) thread:set("number", threads); threads = threads + 1 end
function init() count = 0; start = "PUT /put/" .. os.getenv("RUN") .. "-" .. number .. "-" end
local rest = " HTTP/1.1\\r\\nHost: h\\r\\nContent-Length: 100\\r\\n\\r\\n" .. '{"number":1,"text":"' .. string.rep("x", 78) .. '"}'
function request() count = count + 1; return start .. count .. rest end
""",
    "GET": """
local threads = 0
function setup(thread) thread:set("number", threads); threads = threads + 1 end
function init() math.randomseed(7 + number) end
function request()
  return string.format("GET /get/doc%07d HTTP/1.1\\r\\nHost: h\\r\\n\\r\\n", math.random(0, 9999))
end
""",
}


class Server:
    """A program that serves, with the databases that the cases need."""

    def __init__(self, program):
        self.process = subprocess.Popen(
            [program, "serve", "127.0.0.1:0", "4294967295"], stdout=subprocess.PIPE, stderr=subprocess.DEVNULL
        )
        self.port = int(self.process.stdout.readline().decode().rsplit(":", 1)[1])
        self.ask("PUT", "/put")
        self.load("get", 10_000)
        self.load("rows", ROWS)

    def stop(self):
        self.process.kill()
        self.process.wait()

    def seconds(self):
        """Its processor time so far."""
        with open("/proc/%d/stat" % self.process.pid) as file:
            fields = file.read().rsplit(")", 1)[1].split()
        return (int(fields[11]) + int(fields[12])) / TICK

    def ask(self, method, path, body=None):
        client = http.client.HTTPConnection("127.0.0.1", self.port)
        client.request(method, path, body)
        answer = client.getresponse()
        told = answer.read()
        client.close()
        if answer.status not in (200, 201):
            sys.exit("%s %s: %d %r" % (method, path, answer.status, told[:200]))

    def load(self, name, count):
        """Makes a database of so many documents of about 100 bytes, in batches of 1,000."""
        self.ask("PUT", "/" + name)
        for at in range(0, count, 1000):
            docs = [{"_id": "doc%07d" % n, "number": n, "text": "x" * 72} for n in range(at, at + 1000)]
            self.ask("POST", "/%s/_bulk_docs" % name, json.dumps({"docs": docs}, separators=(",", ":")))


class Wrk:
    """Requests of one kind, which wrk sends over so many connections."""

    runs = 0

    def __init__(self, kind, connections, seconds):
        self.kind, self.connections, self.seconds = kind, connections, seconds
        self.name = "%s by %d" % (kind, connections)

    def measure(self, server):
        """Requests a second, microseconds of the server for each, and the milliseconds of the 99th of 100."""
        Wrk.runs += 1
        with tempfile.NamedTemporaryFile("w", suffix=".lua") as script:
            script.write(SCRIPTS[self.kind])
            script.flush()
            words = ["wrk", "--latency", "-t%d" % min(self.connections, 2), "-c%d" % self.connections, "-d%ds" % self.seconds]
            words += ["-s", script.name, "http://127.0.0.1:%d/" % server.port]
            before = server.seconds()
            told = subprocess.run(
                words, stdout=subprocess.PIPE, check=True, env=dict(os.environ, RUN="r%d" % Wrk.runs)
            ).stdout.decode()
            spent = server.seconds() - before
        if "Non-2xx" in told or "Socket errors" in told:
            print("!", told, file=sys.stderr)
        count = int(re.search(r"(\d+) requests in", told).group(1))
        last = re.search(r"99%\s+([\d.]+)(us|ms|s)", told)
        late = float(last.group(1)) * {"us": 1e-3, "ms": 1.0, "s": 1e3}[last.group(2)]
        return float(re.search(r"Requests/sec:\s+([\d.]+)", told).group(1)), 1e6 * spent / max(count, 1), late


class Batches:
    """A hundred batches of 1,000 new documents of about 100 bytes, one after the other."""

    name = "batches of 1,000"
    count = 100
    runs = 0

    def measure(self, server):
        """Documents a second, microseconds of the server for each, and the milliseconds of the slowest batch."""
        Batches.runs += 1
        bodies = []
        for number in range(self.count):
            ids = ("%d-%d-%d" % (Batches.runs, number, at) for at in range(1000))
            docs = [{"_id": it, "number": number, "text": "x" * 72} for it in ids]
            bodies.append(json.dumps({"docs": docs}, separators=(",", ":")).encode())
        client = http.client.HTTPConnection("127.0.0.1", server.port)
        client.connect()
        took, before = [], server.seconds()
        for body in bodies:
            since = time.monotonic()
            client.request("POST", "/put/_bulk_docs", body)
            answer = client.getresponse()
            answer.read()
            took.append(time.monotonic() - since)
            if answer.status != 201:
                sys.exit("a batch: %d" % answer.status)
        client.close()
        documents = 1000 * self.count
        return documents / sum(took), 1e6 * (server.seconds() - before) / documents, 1e3 * max(took)


def read_feed(port, path):
    """Reads the answer to a GET up to its last chunk, and returns its bytes and its seconds. Chunks are not
    taken apart, so that the server and the sockets are measured, and not the client."""
    room = memoryview(bytearray(1 << 20))
    since = time.monotonic()
    with socket.create_connection(("127.0.0.1", port)) as stream:
        stream.sendall(("GET %s HTTP/1.1\r\nHost: h\r\n\r\n" % path).encode())
        count, last = 0, b""
        while not last.endswith(b"\r\n0\r\n\r\n"):
            got = stream.recv_into(room)
            if got == 0:
                sys.exit("no whole feed: %d bytes" % count)
            count += got
            last = last[-7:] + bytes(room[max(got - 7, 0):got])
    return count, time.monotonic() - since


def curl_feed(port, path):
    """The same by curl, which takes the chunks apart: the hub has one for each row, and hyper one for 512."""
    words = ["curl", "-s", "-o", "/dev/null", "-w", "%{time_total} %{size_download} %{http_code}"]
    words += ["http://127.0.0.1:%d%s" % (port, path)]
    told = subprocess.run(words, stdout=subprocess.PIPE, check=True).stdout.decode().split()
    if told[2] != "200":
        sys.exit("no feed: %s" % told)
    return int(told[1]), float(told[0])


class Rows:
    """A normal feed of 100,000 rows, seven times."""

    def __init__(self, name, query, read):
        self.name, self.path, self.read = name, "/rows/_changes" + query, read

    def measure(self, server):
        """Rows a second, microseconds of the server for each, and the milliseconds of the median feed."""
        took, before = [], server.seconds()
        for _ in range(7):
            count, seconds = self.read(server.port, self.path)
            took.append(seconds)
            if count < 80 * ROWS:
                sys.exit("no whole feed: %d bytes" % count)
        spent = server.seconds() - before
        return ROWS / statistics.median(took), 1e6 * spent / ROWS / 7, 1e3 * statistics.median(took)


def machine():
    """The ticks of the processors so far, by their use, and the load."""
    with open("/proc/stat") as file:
        ticks = [int(word) for word in file.readline().split()[1:9]]
    with open("/proc/loadavg") as file:
        return ticks, file.read().split()[0]


def disturbance(before):
    """The load before, and the ticks in 100 that the host took since."""
    ticks = [b - a for a, b in zip(before[0], machine()[0])]
    return "load %s, taken by the host %.1f" % (before[1], 100 * ticks[7] / max(sum(ticks), 1))


def ratios_of(first, other, by):
    """The rate of one program by the rate of another program, round by round."""
    return [mine[0] / its[0] for mine, its in zip(by[first], by[other])]


def keep(names, figures):
    """Writes the rates of the first program by the rates of the second, for `--keep`."""
    first, other = names[:2]
    cases = [
        {"case": case, "first": first, "other": other, "ratios": ratios_of(first, other, by)}
        for case, by in figures.items()
    ]
    os.makedirs(os.path.dirname(KEPT), exist_ok=True)
    with open(KEPT, "w") as file:
        json.dump(cases, file, indent=1)
        file.write("\n")


def show(names, figures):
    """Prints the table."""
    first, others = names[0], names[1:]
    print("| Case | " + " | ".join("%s against %s, each round, median" % (first, n) for n in others), end=" | ")
    print(" | ".join("%s, a second, µs, ms" % n for n in names) + " |")
    print("|---" * (1 + len(others) + len(names)) + "|")
    for case, by in figures.items():
        cells = [case]
        for other in others:
            ratios = ratios_of(first, other, by)
            cells.append("%s; %.2f" % (", ".join("%.2f" % r for r in ratios), statistics.median(ratios)))
        for name in names:
            cells.append("%.0f, %.2f, %.2f" % tuple(statistics.median(it) for it in zip(*by[name])))
        print("| %s |" % " | ".join(cells))


def main():
    parser = argparse.ArgumentParser(description=__doc__.split("\n\n")[0])
    parser.add_argument("--rounds", type=int, default=3)
    parser.add_argument("--seconds", type=int, default=2, help="of wrk, for a case")
    parser.add_argument("--case", action="append", help="how the names of cases begin; may be given again; all if it is not")
    parser.add_argument("--keep", action="store_true", help="write bench/out/beside.json")
    parser.add_argument("programs", nargs="+", metavar="NAME=PROGRAM")
    asked = parser.parse_args()
    programs = dict(word.split("=", 1) for word in asked.programs)
    cases = [Wrk(kind, n, asked.seconds) for kind in ("PUT", "GET") for n in (1, 16, 64)]
    cases += [Batches()]
    for by, read in (("", read_feed), (" by curl", curl_feed)):
        cases += [Rows("rows" + by, "", read), Rows("rows with documents" + by, "?include_docs=true", read)]
    cases = [case for case in cases if any(case.name.startswith(word) for word in asked.case or [""])]
    names, figures = list(programs), {}
    for round_ in range(asked.rounds):
        # Each round begins with another program.
        turns = names[round_ % len(names):] + names[: round_ % len(names)]
        servers = {name: Server(programs[name]) for name in turns}
        try:
            for case in cases:
                for name in turns:
                    before = machine()
                    figure = case.measure(servers[name])
                    figures.setdefault(case.name, {}).setdefault(name, []).append(figure)
                    shown = (round_ + 1, case.name, name, *figure, disturbance(before))
                    print("%d %-20s %-8s %10.0f %8.2f µs %8.2f ms; %s" % shown, flush=True)
        finally:
            for server in servers.values():
                server.stop()
    show(names, figures)
    if asked.keep and len(names) > 1:
        keep(names, figures)


main()
