#!/usr/bin/env python3
"""What the hub costs over TCP.

    python3 bench/server.py [--small] [--program FILE]

starts the proved hub (./hub builds it; or another program of the same commands), and talks to it over
sockets of this machine. It prints a table, and writes the figures to bench/out/server.json. Only Python's
standard library is used, and wrk for PUTs and GETs where it is installed. No figure is asserted anywhere:
a figure is read, beside the machine's load and the share of its processors that a host took for others.

Without wrk the clients are slower than the hub. Requests a second are the rate that clients and hub reach
together. Beside them stands the hub's own processor time for a request, user and system. A latency is the
time that a client waits.
"""

import argparse
import json
import multiprocessing
import os
import re
import resource
import select
import shutil
import socket
import subprocess
import sys
import tempfile
import time

TOP = os.path.dirname(os.path.dirname(os.path.abspath(__file__)))
HUB = os.path.join(TOP, "crates", "changes_hub", "out", "changes_hub")
FIGURES = os.path.join(TOP, "bench", "out", "server.json")
TICK = os.sysconf("SC_CLK_TCK")
# The most feeds that are opened of a database, which may have 1,024.
MOST = 1_000
# The bytes of the kernel's stack of a thread (THREAD_SIZE of x86-64 and arm64).
KERNEL_STACK = 16_384
# The requests of wrk: a PUT of a new document each time, and a GET of always the same document.
SCRIPTS = {
    "PUT": """
local threads = 0
function setup(thread) thread:set("number", threads); threads = threads + 1 end
function init() count = 0; start = "PUT /put/" .. os.time() .. "-" .. number .. "-" end
local rest = " HTTP/1.1\\r\\nHost: h\\r\\nContent-Length: 32\\r\\n\\r\\n" .. '{"number":1,"text":"0123456789"}'
function request() count = count + 1; return start .. count .. rest end
""",
    "GET": """
function request() return "GET /get/doc0000007 HTTP/1.1\\r\\nHost: h\\r\\n\\r\\n" end
""",
}


class Server:
    """A hub that serves, in a process of its own."""

    def __init__(self, program):
        self.process = subprocess.Popen(
            [program, "serve", "127.0.0.1:0", "4294967295"], stdout=subprocess.PIPE
        )
        told = self.process.stdout.readline().decode()
        self.port = int(told.rsplit(":", 1)[1])

    def __enter__(self):
        return self

    def __exit__(self, *_):
        self.process.kill()
        self.process.wait()

    def connect(self):
        client = socket.create_connection(("127.0.0.1", self.port))
        client.setsockopt(socket.IPPROTO_TCP, socket.TCP_NODELAY, 1)
        return Client(client)

    def seconds(self):
        """Seconds of the processor, user and system."""
        with open("/proc/%d/stat" % self.process.pid) as file:
            fields = file.read().rsplit(")", 1)[1].split()
        return (int(fields[11]) + int(fields[12])) / TICK

    def memory(self):
        """The bytes of its memory (Pss), and the number of its threads."""
        with open("/proc/%d/smaps_rollup" % self.process.pid) as file:
            pss = int(re.search(r"^Pss:\s+(\d+)", file.read(), re.MULTILINE).group(1))
        with open("/proc/%d/status" % self.process.pid) as file:
            threads = int(re.search(r"^Threads:\s+(\d+)", file.read(), re.MULTILINE).group(1))
        return pss * 1024, threads


class Client:
    """A connection of a client."""

    def __init__(self, stream):
        self.stream = stream
        self.reader = stream.makefile("rb", 1 << 16)

    def close(self):
        self.reader.close()
        self.stream.close()

    def answer(self):
        """Reads one answer of a known length, or in chunks. Returns its status and the length of its body."""
        status = int(self.reader.readline().split()[1])
        length = None
        while (line := self.reader.readline()) != b"\r\n":
            if line.startswith(b"Content-Length: "):
                length = int(line[16:])
        if length is not None:
            self.reader.read(length)
            return status, length
        return status, self.chunks()

    def chunks(self):
        """Reads chunks to the last chunk. Returns the number of their bytes."""
        total = 0
        while (size := int(self.reader.readline(), 16)) > 0:
            self.reader.read(size + 2)
            total += size
        self.reader.readline()
        return total

    def ask(self, line, body=None):
        self.stream.sendall(request(line, body))
        return self.answer()

    def drain(self, line):
        """Asks, and reads an answer up to its last chunk. Chunks are not taken apart. Returns its bytes."""
        self.stream.sendall(request(line))
        total, tail = 0, b""
        while not tail.endswith(b"\r\n0\r\n\r\n"):
            some = self.stream.recv(1 << 18)
            if not some:
                sys.exit("no whole answer")
            total += len(some)
            tail = (tail + some[-7:])[-7:]
        return total

    def follow(self, line):
        """Asks for a feed, and reads the head of its answer."""
        self.stream.sendall(request(line))
        if int(self.reader.readline().split()[1]) != 200:
            sys.exit("no feed")
        while self.reader.readline() != b"\r\n":
            pass


def request(line, body=None):
    if body is None:
        return b"%s HTTP/1.1\r\nHost: h\r\n\r\n" % line.encode()
    return b"%s HTTP/1.1\r\nHost: h\r\nContent-Length: %d\r\n\r\n%s" % (line.encode(), len(body), body)


def document(number):
    return {"_id": "doc%07d" % number, "_rev": "1-%032x" % number, "number": number, "text": "x" * 60}


def load(client, name, count, together=1000):
    """Makes a database of so many documents. Returns the seconds that this took."""
    client.ask("PUT /" + name)
    began = time.perf_counter()
    for at in range(0, count, together):
        docs = [document(number) for number in range(at, min(count, at + together))]
        body = json.dumps({"docs": docs, "new_edits": False}).encode()
        client.ask("POST /%s/_bulk_docs" % name, body)
    return time.perf_counter() - began


def at_share(figures, share):
    """The figure that `share` in a hundred figures do not exceed."""
    ordered = sorted(figures)
    return ordered[min(len(ordered) - 1, len(ordered) * share // 100)]


def work(port, kind, number, seconds, ready, go, told):
    """A client process. It asks until its time is over, and puts the number of its requests into `told`."""
    stream = socket.create_connection(("127.0.0.1", port))
    stream.setsockopt(socket.IPPROTO_TCP, socket.TCP_NODELAY, 1)
    ready.release()
    go.wait()
    count = 0
    until = time.perf_counter() + seconds
    while time.perf_counter() < until:
        if kind == "PUT":
            line = "PUT /put/%s-%d-%d" % (os.getpid(), number, count)
            stream.sendall(request(line, b'{"number":1,"text":"0123456789"}'))
        else:
            stream.sendall(request("GET /get/doc%07d" % (count % 1000)))
        if b"\r\n\r\n" not in stream.recv(65536):
            sys.exit("no whole answer")
        count += 1
    told.put(count)


def by_wrk(server, kind, connections, seconds):
    """The number of requests that wrk made, and the hub's processor seconds for them."""
    with tempfile.NamedTemporaryFile("w", suffix=".lua") as script:
        script.write(SCRIPTS[kind])
        script.flush()
        words = ["wrk", "-t%d" % min(connections, 2), "-c%d" % connections, "-d%ds" % seconds]
        words += ["-s", script.name, "http://127.0.0.1:%d/" % server.port]
        before = server.seconds()
        told = subprocess.run(words, stdout=subprocess.PIPE, check=True).stdout.decode()
        spent = server.seconds() - before
    if "Non-2xx" in told or "Socket errors" in told:
        sys.exit(told)
    return int(re.search(r"(\d+) requests in", told).group(1)), spent


def by_clients(server, kind, connections, seconds):
    """The same figures by processes of Python."""
    context = multiprocessing.get_context("fork")
    ready, go, told = context.Semaphore(0), context.Event(), context.Queue()
    workers = [
        context.Process(target=work, args=(server.port, kind, n, seconds, ready, go, told))
        for n in range(connections)
    ]
    for worker in workers:
        worker.start()
    for _ in workers:
        ready.acquire()
    before = server.seconds()
    go.set()
    count = sum(told.get() for _ in workers)
    spent = server.seconds() - before
    for worker in workers:
        worker.join()
    return count, spent


def requests(program, connections, seconds):
    """Requests a second, and microseconds of the hub's processor time for each, of PUTs and of GETs."""
    entries = []
    run = by_wrk if shutil.which("wrk") else by_clients
    for kind in ("PUT", "GET"):
        with Server(program) as server:
            control = server.connect()
            control.ask("PUT /put")
            load(control, "get", 1000)
            count, spent = run(server, kind, connections, seconds)
            entry = {
                "case": "%s, %d connections" % (kind, connections),
                "per_second": round(count / seconds),
                "processor_microseconds": round(1e6 * spent / max(count, 1), 1),
            }
            print("%-36s %9d /s, %7.1f us of the hub each" % tuple(entry.values()), flush=True)
            entries.append(entry)
    return entries


def replays(program, count):
    """Batches of 1,000 documents, and the replay of so many rows without documents and with them."""
    entries = []
    with Server(program) as server:
        client = server.connect()
        before = server.seconds()
        took = load(client, "replay", count)
        spent = server.seconds() - before
        entries.append(told_of("documents in batches of 1,000", count, took, spent))
        for name, query in (("without documents", ""), ("with documents", "?include_docs=true")):
            before, began = server.seconds(), time.perf_counter()
            size = client.drain("GET /replay/_changes" + query)
            took, spent = time.perf_counter() - began, server.seconds() - before
            entry = told_of("replay of rows %s" % name, count, took, spent)
            entry["megabytes"] = round(size / 1e6, 1)
            entries.append(entry)
    return entries


def told_of(name, count, took, spent):
    entry = {
        "case": name,
        "counted": count,
        "per_second": round(count / took),
        "processor_microseconds": round(1e6 * spent / count, 2),
    }
    print("%-36s %9d /s, %7.2f us of the hub each" % (name, count / took, 1e6 * spent / count), flush=True)
    return entry


class Feeds:
    """Continuous feeds that are read together."""

    def __init__(self, server, count, query):
        self.clients = [server.connect() for _ in range(count)]
        self.poll = select.epoll()
        self.by_number = {}
        for client in self.clients:
            client.follow("GET /fan/_changes?feed=continuous" + query)
            self.by_number[client.stream.fileno()] = client.stream
            self.poll.register(client.stream.fileno(), select.EPOLLIN)

    def wait(self, begin):
        """Reads until each feed got a row with this text."""
        left = set(self.by_number)
        while left:
            for number, _ in self.poll.poll():
                if begin in self.by_number[number].recv(65536):
                    left.discard(number)

    def close(self):
        self.poll.close()
        for client in self.clients:
            client.close()


def fan(program, feeds, writes):
    """The time from a write until the last of so many feeds has its row."""
    with Server(program) as server:
        writer = server.connect()
        writer.ask("PUT /fan")
        read = Feeds(server, feeds, "&heartbeat=60000")
        time.sleep(0.3)
        figures, before = [], 0.0
        for at in range(writes + 3):
            if at == 3:
                before = server.seconds()
            began = time.perf_counter()
            writer.stream.sendall(request("PUT /fan/f%d" % at, b'{"v":1}'))
            read.wait(b'"id":"f%d"' % at)
            if at >= 3:
                figures.append(1000 * (time.perf_counter() - began))
            writer.answer()
        spent = server.seconds() - before
        read.close()
    entry = {
        "case": "a write to %d continuous feeds" % feeds,
        "median_milliseconds": round(at_share(figures, 50), 3),
        "milliseconds_of_99_in_100": round(at_share(figures, 99), 3),
        "processor_milliseconds": round(1000 * spent / writes, 2),
    }
    print(
        "%-36s median %.2f ms, 99 in 100 within %.2f ms, %.2f ms of the hub each" % tuple(entry.values()),
        flush=True,
    )
    return entry


def idle(program, feeds, seconds):
    """The costs of so many feeds that get no row: without a heartbeat meanwhile, and with one each second."""
    entries = []
    for name, query in (
        ("idle feeds", "&heartbeat=60000"),
        ("feeds that beat each second", "&heartbeat=1000"),
    ):
        with Server(program) as server:
            server.connect().ask("PUT /fan")
            empty, threads_before = server.memory()
            read = Feeds(server, feeds, query)
            time.sleep(1.5)
            before = server.seconds()
            time.sleep(seconds)
            spent = server.seconds() - before
            memory, threads = server.memory()
            read.close()
        entry = {
            "case": "%d %s" % (feeds, name),
            "processor_milliseconds_a_second": round(1000 * spent / seconds, 2),
            "bytes_a_feed": round((memory - empty) / feeds),
            "kernel_stack_bytes_a_feed": round(KERNEL_STACK * (threads - threads_before) / feeds),
            "threads": threads,
        }
        told = "%-36s %.2f ms of the hub a second, %d bytes a feed, %d of kernel stacks, %d threads"
        print(told % tuple(entry.values()), flush=True)
        entries.append(entry)
    return entries


def ticks():
    """The ticks that the host took from the processors for others, and all ticks."""
    with open("/proc/stat") as file:
        fields = [int(word) for word in file.readline().split()[1:9]]
    return fields[7], sum(fields)


def main():
    parser = argparse.ArgumentParser(description=__doc__.split("\n\n")[0])
    parser.add_argument("--small", action="store_true", help="fewer connections, feeds and rows")
    parser.add_argument("--program", help="a program of the same commands in the hub's place")
    options = parser.parse_args()
    program = options.program or HUB
    if options.program is None:
        done = subprocess.run([os.path.join(TOP, "hub"), "stdin"], stdin=subprocess.DEVNULL)
        if done.returncode != 0:
            sys.exit("the hub was not built")
    hard = resource.getrlimit(resource.RLIMIT_NOFILE)[1]
    resource.setrlimit(resource.RLIMIT_NOFILE, (hard, hard))
    print("load %.1f, %d processors" % (os.getloadavg()[0], os.cpu_count()))
    before = ticks()
    entries = []
    for connections in (1, 16) if options.small else (1, 16, 64):
        entries += requests(program, connections, 1 if options.small else 3)
    entries += replays(program, 10_000 if options.small else 100_000)
    for feeds in (1, 100) if options.small else (1, 100, MOST):
        entries.append(fan(program, feeds, 20 if options.small else 200))
    entries += idle(program, 100 if options.small else MOST, 2 if options.small else 10)
    stolen, total = (after - first for after, first in zip(ticks(), before))
    print("the host took %.0f in 100 of the processors" % (100 * stolen / total))
    os.makedirs(os.path.dirname(FIGURES), exist_ok=True)
    with open(FIGURES, "w") as file:
        figures = {"load": os.getloadavg()[0], "stolen": round(stolen / total, 3), "cases": entries}
        json.dump(figures, file, indent=1)
        file.write("\n")


if __name__ == "__main__":
    main()
