#!/usr/bin/env python3
"""Many feeds that wait, over TCP: each gets each row of its database once.

    python3 bench/feeds.py [--databases N] [--feeds N] [--rounds N] [--program FILE]

starts the proved hub (./hub builds it; or another program of the same commands), and opens 1,000 continuous
feeds of each of 20 databases. It writes a document to each database, round for round. Each feed has to get
each row once and in order within a minute. Then all clients close, and the hub has to close their
connections within a minute. The same feeds are opened again, and the rounds go on: if the hub had kept the
old feeds, the new ones would be too many.

The script prints the times from the first write of a round until the last feed has its row. It also prints
the memory, the processor time and the threads of the hub. The status is 1 in these cases:

- a feed misses a row, gets another row, or is refused;
- the hub has more threads than `--threads`, or more memory a feed than `--memory`;
- the second time takes a tenth more memory than the first time.

Only Python's standard library is used. A feed takes a descriptor of the hub and one of this script. Where
the system allows fewer descriptors, there are fewer feeds, and the output says how many.
"""

import argparse
import os
import re
import resource
import select
import socket
import subprocess
import sys
import time

TOP = os.path.dirname(os.path.dirname(os.path.abspath(__file__)))
HUB = os.path.join(TOP, "crates", "changes_hub", "out", "changes_hub")
TICK = os.sysconf("SC_CLK_TCK")
# The descriptors of either process that no feed takes.
BESIDE = 64
# The seconds in which all feeds have to get their heads, or a row.
PATIENCE = 60
# The feeds of one source address, which has some 28,000 ports.
FEEDS_OF_ADDRESS = 15_000
# In milliseconds. It is longer than all rounds. With a heartbeat a feed does not come to its end.
HEARTBEAT = 600_000
ROW = re.compile(rb'\{"seq":"(\d+)-(\d+)","id":"(\d+)",')


class Failed(Exception):
    """A rule that does not hold."""


class Hub:
    """A hub that serves, in a process of its own."""

    def __init__(self, program):
        # One arena of the C library: with one for each thread, pieces that another thread freed stay unused.
        how = {"stdout": subprocess.PIPE, "env": {**os.environ, "MALLOC_ARENA_MAX": "1"}}
        self.process = subprocess.Popen([program, "serve", "127.0.0.1:0", "4294967295"], **how)
        self.port = int(self.process.stdout.readline().decode().rsplit(":", 1)[1])
        self.writer = socket.create_connection(("127.0.0.1", self.port), timeout=PATIENCE)
        self.writer.setsockopt(socket.IPPROTO_TCP, socket.TCP_NODELAY, 1)
        self.reader = self.writer.makefile("rb")

    def __enter__(self):
        return self

    def __exit__(self, *_):
        self.process.kill()
        self.process.wait()

    def ask(self, line, body, status):
        """Sends a request, whose answer has to have this status."""
        head = "%s HTTP/1.1\r\nContent-Length: %d\r\n\r\n" % (line, len(body))
        self.writer.sendall(head.encode() + body)
        told = self.reader.readline()
        length = 0
        while (field := self.reader.readline()) not in (b"\r\n", b""):
            if field.startswith(b"Content-Length: "):
                length = int(field[16:])
        text = self.reader.read(length)
        if told.split()[1:2] != [status]:
            raise Failed("%s: %r %r" % (line, told, text[:200]))

    def seconds(self):
        """Its processor time so far."""
        with open("/proc/%d/stat" % self.process.pid) as file:
            fields = file.read().rsplit(")", 1)[1].split()
        return (int(fields[11]) + int(fields[12])) / TICK

    def memory(self):
        """The bytes of its memory (Pss), in which a page that processes share counts in parts."""
        with open("/proc/%d/smaps_rollup" % self.process.pid) as file:
            return 1024 * int(re.search(r"^Pss:\s+(\d+)", file.read(), re.MULTILINE).group(1))

    def descriptors(self):
        return len(os.listdir("/proc/%d/fd" % self.process.pid))

    def threads(self):
        with open("/proc/%d/status" % self.process.pid) as file:
            return int(re.search(r"^Threads:\s+(\d+)", file.read(), re.MULTILINE).group(1))


class Feed:
    """A continuous feed of the database of this number."""

    def __init__(self, hub, number, database, since):
        self.database, self.since, self.head, self.rows = database, since, False, 0
        self.buffer = b""
        self.socket = socket.socket()
        source = "127.0.0.%d" % (2 + number // FEEDS_OF_ADDRESS)
        self.socket.setsockopt(socket.IPPROTO_IP, getattr(socket, "IP_BIND_ADDRESS_NO_PORT", 24), 1)
        self.socket.bind((source, 0))
        self.socket.settimeout(PATIENCE)
        self.socket.connect(("127.0.0.1", hub.port))
        line = "GET /d%d/_changes?feed=continuous&heartbeat=%d&since=%d" % (database, HEARTBEAT, since)
        self.socket.sendall(line.encode() + b" HTTP/1.1\r\n\r\n")
        self.socket.setblocking(False)

    def read(self):
        """Reads the bytes that came, and returns how many rows they brought. Only the next rows may come."""
        part = self.socket.recv(65_536)
        if not part:
            raise Failed("a feed of d%d was closed behind %d rows" % (self.database, self.rows))
        self.buffer += part
        if not self.head:
            head, end, rest = self.buffer.partition(b"\r\n\r\n")
            if not end:
                return 0
            if not head.startswith(b"HTTP/1.1 200 ") or b"chunked" not in head:
                raise Failed("a feed of d%d: %r" % (self.database, self.buffer[:200]))
            self.head, self.buffer = True, rest
        before = self.rows
        while (chunk := self.chunk()) is not None:
            self.take(chunk)
        return self.rows - before

    def chunk(self):
        """The next whole chunk, None where it has not come yet."""
        size, end, rest = self.buffer.partition(b"\r\n")
        if not end or len(rest) < int(size, 16) + 2:
            return None
        length = int(size, 16)
        self.buffer = rest[length + 2 :]
        return rest[:length]

    def take(self, chunk):
        """Takes a heartbeat, or the next row."""
        if chunk == b"\n":
            return
        row, seq = ROW.match(chunk), self.since + self.rows + 1
        if not row or [int(it) for it in row.groups()] != [seq, self.database, seq]:
            raise Failed("a feed of d%d gets %r in place of row %d" % (self.database, chunk[:200], seq))
        self.rows += 1


class Crowd:
    """So many feeds of each database, from this sequence on."""

    def __init__(self, hub, databases, count, since):
        self.hub, self.databases = hub, databases
        self.poll, self.feeds = select.epoll(), {}
        for number in range(databases * count):
            feed = Feed(hub, number, number % databases + 1, since)
            self.feeds[feed.socket.fileno()] = feed
            self.poll.register(feed.socket, select.EPOLLIN)
        self.wait(lambda feed: feed.head, "a head")

    def wait(self, is_done, what):
        """Reads until `is_done` holds of each feed."""
        limit = time.monotonic() + PATIENCE
        left = {number for number, feed in self.feeds.items() if not is_done(feed)}
        while left:
            if time.monotonic() > limit:
                raise Failed("%d of %d feeds have not got %s" % (len(left), len(self.feeds), what))
            for number, _ in self.poll.poll(1, 4096):
                self.feeds[number].read()
                if is_done(self.feeds[number]):
                    left.discard(number)

    def write(self, seq, rows):
        """Writes to each database, and returns the seconds until each feed has so many rows."""
        begin = time.monotonic()
        body = b'{"new_edits":false,"docs":[{"_id":"%d","_rev":"1-a"}]}' % seq
        for database in range(1, self.databases + 1):
            self.hub.ask("POST /d%d/_bulk_docs" % database, body, b"201")
        self.wait(lambda feed: feed.rows >= rows, "row %d" % seq)
        return time.monotonic() - begin

    def rest(self, seconds):
        """Waits so long, and no feed may get a row meanwhile. Returns the hub's processor time a second."""
        before = self.hub.seconds()
        limit = time.monotonic() + seconds
        while (left := limit - time.monotonic()) > 0:
            for number, _ in self.poll.poll(left, 4096):
                if self.feeds[number].read():
                    raise Failed("a feed of d%d gets a row again" % self.feeds[number].database)
        return (self.hub.seconds() - before) / seconds

    def close(self):
        self.poll.close()
        for feed in self.feeds.values():
            feed.socket.close()


def allow(feeds):
    """Asks the system for the descriptors of so many feeds, and returns how many feeds it allows."""
    soft, hard = resource.getrlimit(resource.RLIMIT_NOFILE)
    wanted = feeds + BESIDE
    for limits in ((max(wanted, soft), max(wanted, hard)), (min(wanted, hard), hard)):
        try:
            resource.setrlimit(resource.RLIMIT_NOFILE, limits)
            break
        except (ValueError, OSError):
            pass
    return min(feeds, resource.getrlimit(resource.RLIMIT_NOFILE)[0] - BESIDE)


def run(hub, options, count, since):
    """Opens one crowd of feeds, and writes its rounds. Returns the last sequence, the bytes of the hub's
    memory, the KiB of it a feed, and the most threads."""
    empty, begin = hub.memory(), time.monotonic()
    crowd = Crowd(hub, options.databases, count, since)
    opened, threads, took = time.monotonic() - begin, hub.threads(), []
    for at in range(1, options.rounds + 1):
        took.append(1000 * crowd.write(since + at, at))
        threads = max(threads, hub.threads())
    idle, full = crowd.rest(3), hub.memory()
    feeds = len(crowd.feeds)
    print("%d feeds of %d databases, opened within %.1f s" % (feeds, options.databases, opened))
    print("  from the first write until the last feed has its row, in ms: %s" % " ".join("%.0f" % it for it in took))
    print("  memory %.1f MB, %.1f KiB of it a feed; threads %d" % (full / 1e6, (full - empty) / 1024 / feeds, threads))
    print("  processor time while all wait: %.1f ms a second" % (1000 * idle))
    crowd.close()
    return since + options.rounds, full, (full - empty) / 1024 / feeds, threads


def let_go(hub, options, seq, most):
    """Writes until the hub has closed the feeds of clients that closed, and has at most so many descriptors.
    Returns the last sequence. The hub sees that a client closed as it sends the client a row."""
    limit = time.monotonic() + PATIENCE
    while hub.descriptors() > most:
        if time.monotonic() > limit:
            raise Failed("%d descriptors, %d before the feeds" % (hub.descriptors(), most))
        seq += 1
        body = b'{"new_edits":false,"docs":[{"_id":"%d","_rev":"1-a"}]}' % seq
        for database in range(1, options.databases + 1):
            hub.ask("POST /d%d/_bulk_docs" % database, body, b"201")
        time.sleep(1)
    return seq


def check(hub, options, count):
    """Runs two crowds, one after the other."""
    for database in range(1, options.databases + 1):
        hub.ask("PUT /d%d" % database, b"", b"201")
    begun = hub.descriptors()
    seq, first, each, threads = run(hub, options, count, 0)
    if each > options.memory:
        raise Failed("%.1f KiB a feed, more than %d" % (each, options.memory))
    seq = let_go(hub, options, seq, begun)
    _, second, _, more = run(hub, options, count, seq)
    if max(threads, more) > options.threads:
        raise Failed("%d threads, more than %d" % (max(threads, more), options.threads))
    if second > 1.1 * first:
        raise Failed("%.1f MB the second time, %.1f the first" % (second / 1e6, first / 1e6))


def main():
    parser = argparse.ArgumentParser(description=__doc__.split("\n")[0])
    parser.add_argument("--databases", type=int, default=20)
    parser.add_argument("--feeds", type=int, default=1_000, help="of each database")
    parser.add_argument("--rounds", type=int, default=5)
    parser.add_argument("--threads", type=int, default=2 * os.cpu_count() + 16, help="the most that the hub may have")
    parser.add_argument("--memory", type=int, default=64, help="the most KiB that a feed may take")
    parser.add_argument("--program", default=HUB)
    options = parser.parse_args()
    if not os.access(options.program, os.X_OK):
        sys.exit("no program %s: run `./hub` first" % options.program)
    count = allow(options.databases * options.feeds) // options.databases
    print("load %.1f, %d processors" % (os.getloadavg()[0], os.cpu_count()))
    print("the hub may have %d threads, and %d KiB a feed" % (options.threads, options.memory))
    try:
        with Hub(options.program) as hub:
            check(hub, options, count)
    except (Failed, OSError) as error:
        sys.exit("not as it has to be: %s" % error)
    print("each feed got each row once")


if __name__ == "__main__":
    main()
