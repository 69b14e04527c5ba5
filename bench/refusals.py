"""The hub under a shim that refuses it memory (failing_malloc.c), over standard input and over TCP."""

import mmap
import os
import shutil
import signal
import socket
import struct
import subprocess
import sys

from answers import PATIENCE, Answer, Source, Wrong
from answers import read_answer, read_body, read_chunk, read_chunks, read_head

BENCH = os.path.dirname(os.path.abspath(__file__))
TOP = os.path.dirname(BENCH)
HUB = os.path.join(TOP, "crates", "changes_hub", "out", "changes_hub")
COMMAND = "./hub stdin < crates/changes_hub/stdin"
# The words of the file that the shim and this script share, in the order of struct control.
WORDS = ["asked", "first", "lasting", "one_in", "seed", "refused"]
SIZE = 4096
# The connections that the server of a script serves.
CONNECTIONS = 80


class Violation(Exception):
    """A rule that does not hold, with the facts to see the fault again."""


def check_program(program):
    if not os.access(program, os.X_OK):
        sys.exit("no program %s: run `%s` first" % (os.path.relpath(program), COMMAND))


def build_shim(folder):
    """Compiles the shim, and returns its file."""
    shim = os.path.join(folder, "failing_malloc.so")
    source = os.path.join(BENCH, "failing_malloc.c")
    words = [shutil.which("cc") or "gcc", "-O2", "-Wall", "-shared", "-fPIC", "-o", shim, source, "-ldl"]
    subprocess.run(words, check=True)
    return shim


class Tools:
    """A program, the shim, and the shared words that control the refusals."""

    def __init__(self, folder, shim, program):
        self.shim, self.program = shim, program
        self.path = os.path.join(folder, "control-%d" % os.getpid())
        with open(self.path, "wb") as out:
            out.write(bytes(SIZE))
        with open(self.path, "r+b") as file:
            self.words = mmap.mmap(file.fileno(), SIZE)

    def get(self, name):
        return struct.unpack_from("Q", self.words, 8 * WORDS.index(name))[0]

    def set(self, **values):
        for name, value in values.items():
            struct.pack_into("Q", self.words, 8 * WORDS.index(name), value)

    def start(self, program, arguments, first=0, lasting=False, **how):
        """Starts a program under the shim, which refuses its growth of number `first`, or all from it on."""
        self.set(**{name: 0 for name in WORDS})
        self.set(first=first, lasting=int(lasting))
        loaded = {"HUB_SHIM": self.shim} if len(program) > 1 else {"LD_PRELOAD": self.shim}
        how = {"stderr": subprocess.DEVNULL, "bufsize": 0, **how}
        environment = {"HUB_GROWTHS": self.path, **loaded}
        return subprocess.Popen([*program, *arguments], env=environment, stdout=subprocess.PIPE, **how)

    def allow(self):
        """Ends the refusals."""
        self.set(first=0, one_in=0)


def ended(process):
    """Waits for the end of a process, and returns its status."""
    try:
        status = process.wait(PATIENCE)
    except subprocess.TimeoutExpired:
        process.kill()
        process.wait()
        raise Violation("the program did not end within %d seconds" % PATIENCE) from None
    if status < 0:
        raise Violation("the program ended by the signal %s" % signal.Signals(-status).name)
    return status


def check_start_failed(process):
    """Checks that a program that could not begin ends with status 1."""
    if (status := ended(process)) != 1:
        raise Violation("the program did not start, and its status is %d" % status)


def check_at_end(source):
    """Checks that no byte comes after the last answer, and that the hub ends its side."""
    if not source.is_at_end():
        raise Wrong("bytes behind the last answer: %r" % bytes(source.held[:2000]))


class Stdin:
    """The hub over standard input: one client, and no new session once its session has closed."""

    is_over_sockets = False

    def __init__(self, tools, first=0, lasting=False):
        self.tools = tools
        self.process = tools.start(tools.program, ["stdin"], first, lasting, stdin=subprocess.PIPE)
        self.source = Source(self.process.stdout.fileno())
        self.is_closed, self.feeds, self.count, self.last = False, {}, 0, None

    def ask(self, _client, data):
        self.last = data
        try:
            self.process.stdin.write(data)
        except BrokenPipeError:
            pass
        answer = read_answer(self.source, data.startswith(b"HEAD "))
        answer.is_first = self.count == 0
        self.count += 1
        if answer.closes or not answer.is_whole:
            self.is_closed = True
            check_at_end(self.source)
        return answer

    def make(self, step):
        return self.ask(step.client, step.data)

    def is_refused(self):
        return self.tools.get("refused") > 0

    def has_failed_to_start(self):
        """Called where the first request has no answer: the hub could not begin, and ends with status 1."""
        check_start_failed(self.process)
        return True

    def end(self):
        """Ends the input, and returns the status: 1 where the session has closed."""
        self.process.stdin.close()
        check_at_end(self.source)
        self.process.stdout.close()
        return ended(self.process)

    def wanted_status(self):
        return 1 if self.is_closed else 0

    def kill(self):
        self.process.kill()
        self.process.wait()
        self.process.stdin.close()
        self.process.stdout.close()


class Connection:
    def __init__(self, port):
        self.socket = socket.create_connection(("127.0.0.1", port), PATIENCE)
        self.socket.setsockopt(socket.IPPROTO_TCP, socket.TCP_NODELAY, 1)
        self.source = Source(self.socket.fileno())
        self.count = 0

    def send(self, data):
        try:
            self.socket.sendall(data)
        except ConnectionError:
            pass

    def ask(self, data):
        self.send(data)
        answer = read_answer(self.source, data.startswith(b"HEAD "))
        self.count_in(answer)
        if answer.closes:
            check_at_end(self.source)
        return answer

    def open(self, data):
        """Asks for a feed, and returns its answer so far."""
        self.send(data)
        answer = Answer()
        read_head(self.source, answer)
        if answer.status is not None and answer.chunks is None:
            read_body(self.source, answer)
        self.count_in(answer)
        return answer

    def count_in(self, answer):
        answer.is_first = self.count == 0
        self.count += 1

    def close(self):
        self.socket.close()


class Tcp:
    """The hub over TCP: clients by name. A client whose connection is closed gets another connection."""

    is_over_sockets = True
    is_closed = False

    def __init__(self, tools, first=0, lasting=False, count=CONNECTIONS, **how):
        self.tools, self.left = tools, count
        words = ["serve", "127.0.0.1:0", str(count)]
        self.process = tools.start(tools.program, words, first, lasting, stdin=subprocess.DEVNULL, **how)
        told = self.process.stdout.readline().decode()
        self.port = int(told.rsplit(":", 1)[1]) if told.startswith("listening on 127.0.0.1:") else None
        self.connections, self.feeds, self.lost, self.last = {}, {}, set(), None

    def connect(self):
        self.left -= 1
        return Connection(self.port)

    def connection(self, client):
        if client not in self.connections:
            self.connections[client] = self.connect()
        return self.connections[client]

    def drop(self, client):
        if client in self.connections:
            self.connections.pop(client).close()

    def call(self, client, kind, data):
        """An answer to a client. It is empty where the hub has ended, or ends."""
        answer = Answer()
        answer.is_first, self.last = True, data
        if self.port is None:
            return answer
        try:
            connection = self.connection(client)
        except ConnectionError:
            return answer
        answer = connection.ask(data) if kind == "ask" else connection.open(data)
        if answer.closes or not (answer.is_whole or kind == "open" and answer.status):
            self.drop(client)
        return answer

    def ask(self, client, data):
        return self.call(client, "ask", data)

    def make(self, step):
        if step.kind == "ask":
            return self.ask(step.client, step.data)
        if step.kind == "open":
            answer = self.call(step.client, "open", step.data)
            if answer.chunks is not None:
                self.feeds[step.client] = answer
            return answer
        return self.go_on(step)

    def go_on(self, step):
        """Reads on in a feed. A feed that was cut, or never began, is lost."""
        self.last = step
        feed = self.feeds.get(step.client)
        if feed is None or feed.is_whole or step.client in self.lost:
            return feed
        source = self.connections[step.client].source
        if step.kind == "end":
            read_chunks(source, feed)
        else:
            while feed.rows() < step.data and read_chunk(source, feed):
                pass
        if not (feed.is_whole if step.kind == "end" else feed.rows() >= step.data):
            self.lost.add(step.client)
        return feed

    def is_refused(self):
        return self.tools.get("refused") > 0

    def has_failed_to_start(self):
        """Whether the hub could not begin, after its first request had no answer: then no request has one."""
        first = self.tools.get("first")
        self.tools.allow()
        answered = self.ask("control", b"GET / HTTP/1.1\r\n\r\n").status == 200
        self.drop("control")
        if answered:
            self.tools.set(first=first)
        else:
            check_start_failed(self.process)
        return not answered

    def end(self):
        """Makes the connections that the server still waits for, and returns its status."""
        self.tools.allow()
        for client in list(self.connections):
            self.drop(client)
        try:
            for _ in range(self.left if self.port else 0):
                self.connect().close()
        except ConnectionError:
            pass
        status = ended(self.process)
        more = self.process.stdout.read()
        self.process.stdout.close()
        if more:
            raise Wrong("more than a line on standard output: %r" % more[:2000])
        return status

    def wanted_status(self):
        return 0

    def kill(self):
        for client in list(self.connections):
            self.drop(client)
        self.process.kill()
        self.process.wait()
        self.process.stdout.close()


PLACES = {"stdin": Stdin, "TCP": Tcp}
