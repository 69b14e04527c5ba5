#!/usr/bin/env python3
"""What the hub answers to malicious bytes.

    python3 bench/hostile.py [--seconds N] [--short] [--seed S] [--block B]

runs the proved hub (`./hub stdin < crates/changes_hub/stdin` builds it) on scripts of requests (rows.py) whose
bytes are spoiled. Bytes are flipped, cut, repeated or spliced. Others are long fields, many fields, deep
JSON, bad chunks, wrong lengths, bare line feeds, bytes that are no UTF-8, huge numbers and `%` escapes. A
session over standard input has a process of its own. Over TCP many sessions, one after the other, share a
server. Only Python's standard library is used.

Every answer is read strictly: status line, fields, length or chunks, and the body as JSON. A refusal is one
of the profile's. No byte may come after an answer that closes, and no feed is cut. A script that nobody
spoiled has an answer to each request. The program ends with its status, never by a signal, and within a
limit. A rule that does not hold is printed with the session's bytes, and the status is 1.

Sessions come in blocks. The bytes of a block follow from the seed and the block's number alone, so `--block`
runs one again. The script takes a minute, or `--seconds`, and with `--short` a quarter of a minute.
"""

import argparse
import collections
import json
import multiprocessing
import os
import random
import socket
import subprocess
import sys
import time
import urllib.parse

from answers import PATIENCE, Answer, Bytes, Late, Source, Wrong
from answers import read_answer, read_body, read_chunks, read_head
from refusals import HUB, Violation, check_program, ended
from rows import SCENES, SCRIPTS

# How many sessions a block has over standard input, and over TCP.
ALONE, TOGETHER = 30, 60
# The seconds for which a feed that waits is read over TCP: after its last byte, and at most.
SILENCE, WHOLE = 0.2, 1.0
# The longest session, in bytes. Repeated and spliced bytes above it are cut.
LONGEST = 200_000

REFUSALS = """400 bad_request: not JSON, not an object, number out of profile, bad id, bad rev, bad _revisions
400 bad_request: bad member, id too long, contradicting history, generation limit, bad since, bad limit, bad style
400 bad_request: bad feed, bad filter, bad doc_ids, bad heartbeat, descending needs feed=normal, bad flag, bad head
400 illegal_database_name: bad name
404 not_found: Database does not exist., missing, deleted
405 method_not_allowed: method not allowed
409 conflict: Document update conflict.
411 length_required: no Content-Length
412 file_exists: The database could not be created, the file already exists.
413 too_large: body too long
431 head_too_long: head too long
501 not_implemented: no transfer coding
503 too_many_databases: too many databases
503 too_many_feeds: too many feeds
505 http_version: HTTP/1.1 only"""


def refusals():
    """The refusals of the profile that come with ample memory: status, error and reason."""
    found = set()
    for line in REFUSALS.splitlines():
        first, reasons = line.split(": ", 1)
        status, error = first.split(" ")
        parts = [reasons] if status == "412" else reasons.split(", ")
        found.update((int(status), error, it) for it in parts)
    return found


KNOWN = refusals()


# --- the bytes ---

# Bytes that have a meaning to some reader.
PIECES = [b"\r\n", b"\n", b"\r", b"\0", b"\r\n\r\n", b" ", b"\t", b":", b"%", b"%2F", b"%00", b"%zz", b'"', b"{"]
PIECES += [b"]", b"\xff", b"\xc3\x28", b"\xed\xa0\x80", b"\\ud800", b"\\u0000", b"?", b"&", b"=", b"+", b"HTTP/1.1"]
PIECES += [b"-0", b"1e5", b"18446744073709551616", b"-9223372036854775809", b"9" * 400, b"[" * 200, b"_", b"null"]
NUMBERS = [b"0", b"-1", b"+1", b"007", b"4294967296", b"9223372036854775808", b"18446744073709551615"]
NUMBERS += [b"18446744073709551616", b"1.5", b"1e99", b"0x10", b"", b"8388609", b"8388608", b"65536", b"9" * 300]
FIELDS = [b"Connection: close", b"Connection: keep-alive, CLOSE", b"Transfer-Encoding: chunked", b"Host h", b" x"]
FIELDS += [b"Content-Length: 5", b"Content-Length: +1", b"Content-Length: 5, 5", b"X: \xff", b"X : y", b"Upgrade: h2c"]
FIELDS += [b"Content-Length: 8388609", b"Content-Length: 18446744073709551616", b"Expect: 100-continue"]
FIELDS += [b"X: " + b"y" * count for count in (1000, 16000, 16384, 40000)] + [b"N" * 20000 + b": y"]
CHUNKS = [b'5\r\n{"v":', b"5\r\nab\r\n", b"zz\r\nab\r\n", b"-1\r\nab\r\n", b"3;x=y\r\nabc\r\n", b"f" * 20 + b"\r\nab"]
VALUES = ["null", "true", "[]", "{}", "-0", "1.0", "1E400", "18446744073709551615", "18446744073709551616", "-1"]
VALUES += ['"_design/x"', '"_local/x"', '"_x"', '"1-a"', '"65535-a"', '"65536-a"', '"0-1"', '"1-%s"' % ("a" * 65)]
VALUES += ['"\\ud834\\udd1e"', '"\\ud800"', '"\\u0000"', '"%s"' % ("x" * 512), '"%s"' % ("x" * 513), '"%s"' % ("x" * 70000)]
MEMBERS = ["_id", "_rev", "_revisions", "_deleted", "_attachments", "_conflicts", "_x", "v", "ids", "start", "docs"]
LINES = ["POST /d/_bulk_docs", "POST /d/_bulk_docs", "POST /d/_revs_diff", "PUT /d/a", "PUT /d/_local/k"]
LINES += ["POST /d/_changes?filter=_doc_ids", "PUT /d/" + "x" * 512, "PUT /d/" + "x" * 513]
NAMES = ["since", "limit", "style", "feed", "filter", "doc_ids", "heartbeat", "timeout", "descending", "include_docs"]
NAMES += ["rev", "revs", "open_revs", "new_edits", "%73ince", "x"]
ASKED = ["0", "1", "now", "1-1", "%221-1%22", "18446744073709551616", "-1", "", "%", "%ff", "all_docs", "main_only"]
ASKED += ["normal", "longpoll", "continuous", "_doc_ids", "_design", "%5B%22a%22%5D", "[", "true", "false", "all", "+"]
ASKED += ["%5B%221-a%22%5D", "1-a"]
PATHS = ["/d/_changes", "/d/_changes", "/_db_updates", "/d/a", "/d/b", "/d", "/_all_dbs", "/d%2fe", "/%64", "/d/_x"]
METHODS = ["GET", "GET", "GET", "HEAD", "DELETE", "PUT"]


def flip(rng, data):
    """Flips some bits."""
    data = bytearray(data)
    for _ in range(rng.choice([1, 1, 2, 5, 20])):
        data[rng.randrange(len(data))] ^= 1 << rng.randrange(8)
    return bytes(data)


def cut(rng, data):
    """Cuts a part, at the end or in the middle."""
    at = rng.randrange(len(data))
    return data[:at] if rng.random() < 0.5 else data[:at] + data[at + rng.randrange(1, 40) :]


def repeat(rng, data):
    at = rng.randrange(len(data))
    part = data[at : at + rng.randrange(1, 200)]
    return data[:at] + part * rng.choice([2, 3, 50]) + data[at:]


def splice(rng, data):
    """The front of one script, and the end of another script."""
    other = rng.choice(SEEDS)
    return data[: rng.randrange(len(data))] + other[rng.randrange(len(other)) :]


def insert(rng, data):
    for _ in range(rng.choice([1, 1, 2, 4])):
        at = rng.randrange(len(data) + 1)
        data = data[:at] + rng.choice(PIECES) + data[at:]
    return data


def digits(rng, data):
    """Replaces a digit by a text of NUMBERS, as a huge number or none. So lengths are wrong too."""
    places = [at for at in range(len(data)) if data[at : at + 1].isdigit()]
    if not places:
        return data
    at = rng.choice(places)
    return data[:at] + rng.choice(NUMBERS) + data[at + 1 :]


def fields(rng, data):
    """Adds fields to a head: many fields, long ones, or ones with a meaning."""
    lines = [rng.choice(FIELDS)]
    if rng.random() < 0.3:
        lines = [b"X%d: y" % at for at in range(rng.choice([60, 64, 65, 200]))]
    ends = [at + 11 for at in range(len(data)) if data[at : at + 11] == b" HTTP/1.1\r\n"]
    at = rng.choice(ends) if ends else 0
    return data[:at] + b"".join(it + b"\r\n" for it in lines) + data[at:]


def chunked(rng, data):
    """Adds a request whose body has chunks, also bad ones, and then the script again."""
    length = rng.choice([b"", b"Content-Length: 3\r\n"])
    head = b"POST /d/_bulk_docs HTTP/1.1\r\nTransfer-Encoding: chunked\r\n%s\r\n" % length
    return data + head + b"".join(rng.choice(CHUNKS) for _ in range(3)) + b"0\r\n\r\n" + data


def bare_feeds(rng, data):
    return data.replace(b"\r\n", b"\n", rng.choice([1, -1]))


def versions(rng, data):
    other = rng.choice([b"HTTP/1.0", b"HTTP/2.0", b"HTTP/0.9", b"http/1.1", b"HTTP/1.10", b"HTTP/1.1 "])
    return data.replace(b"HTTP/1.1", other, rng.choice([1, -1]))


def many_databases(rng, data):
    """Makes 3 databases, or 260, which are more than a hub may have."""
    made = rng.choice([3, 260])
    return data + b"".join(b"PUT /z%d HTTP/1.1\r\n\r\n" % at for at in range(made)) + data


def value_of(rng, depth):
    """A JSON value as text, mostly of a wrong kind for its place."""
    chance = rng.random()
    if depth > 0 and chance < 0.5:
        members = ['"%s":%s' % (rng.choice(MEMBERS), value_of(rng, depth - 1)) for _ in range(rng.randrange(5))]
        return "{" + ",".join(members) + "}"
    if depth > 0 and chance < 0.65:
        return "[" + ",".join(value_of(rng, depth - 1) for _ in range(rng.randrange(4))) + "]"
    if chance < 0.75:
        deep = rng.choice([3, 126, 127, 128, 200, 5000])
        return rng.choice(["[" * deep + "]" * deep, '{"a":' * deep + "1" + "}" * deep])
    return rng.choice(VALUES)


def bodies(rng, data):
    """Adds whole requests after the script and before it. Their bodies are JSON, mostly of a wrong kind."""
    parts = [data]
    for _ in range(rng.choice([1, 2, 5])):
        docs = ", ".join(value_of(rng, 2) for _ in range(rng.randrange(4)))
        batch = '{"docs":[%s],"new_edits":%s}' % (docs, rng.choice(["true", "false", "0"]))
        text = rng.choice([value_of(rng, 3), batch]).encode()
        if rng.random() < 0.2:
            text = flip(rng, text)
        line = rng.choice(LINES).encode()
        whole = b"%s HTTP/1.1\r\nContent-Length: %d\r\n\r\n%s" % (line, len(text), text)
        parts.insert(rng.choice([0, len(parts)]), whole)
    return b"".join(parts)


def queries(rng, data):
    """Adds feeds and reads with parameters that are not always good."""
    parts = [data]
    for _ in range(rng.choice([1, 3, 8])):
        query = "&".join("%s=%s" % (rng.choice(NAMES), rng.choice(ASKED)) for _ in range(rng.randrange(5)))
        parts.append(("%s %s?%s HTTP/1.1\r\n\r\n" % (rng.choice(METHODS), rng.choice(PATHS), query)).encode())
    return b"".join(parts)


def requests_of(script):
    return [it.data for it in script.steps if isinstance(it.data, bytes)]


WAYS = [flip, cut, repeat, splice, insert, digits, fields, chunked, bare_feeds, versions, bodies, bodies, queries]
WAYS += [queries, many_databases]
SEEDS = [b"".join(requests_of(it)) for it in [*SCRIPTS.values(), *SCENES.values()]]
# How many answers each script has while its bytes are not spoiled.
WHOLE_SCRIPTS = dict(zip(SEEDS, (len(requests_of(it)) for it in [*SCRIPTS.values(), *SCENES.values()])))


def session(rng):
    """The bytes of a session: a script that is spoiled in up to six ways."""
    data = rng.choice(SEEDS)
    for _ in range(rng.choice([0, 1, 1, 2, 3, 6])):
        data = rng.choice(WAYS)(rng, data)[:LONGEST] or b"\r\n"
    return data


# --- the answers ---


class Patient(Source):
    """The bytes of a socket. A feed that waits is left after a short time."""

    def __init__(self, number, may_wait):
        super().__init__(number)
        self.may_wait, self.answer, self.until = may_wait, None, time.monotonic() + WHOLE

    def read(self):
        is_in_feed = self.answer is not None and self.answer.chunks is not None
        is_waiting = self.may_wait and is_in_feed and not self.answer.is_whole
        self.patience = SILENCE if is_waiting else PATIENCE
        if is_waiting and time.monotonic() > self.until:
            raise Late("a feed is left")
        return super().read()

    def is_left(self):
        """Whether the last read was of a feed that waits."""
        return self.patience == SILENCE


def check_refusal(answer):
    """Checks that a refusal is one of the profile's."""
    told = json.loads(answer.body)
    found = (answer.status, told.get("error"), told.get("reason")) if isinstance(told, dict) else None
    if found not in KNOWN or set(told) != {"error", "reason"}:
        raise Wrong("a refusal that is none: %r" % answer.raw)


def has_body(source, may_be_head):
    """Whether a body follows the head that was read. After a HEAD the next answer may follow instead."""
    if not may_be_head:
        return True
    while len(source.held) < 5 and source.read():
        pass
    return bool(source.held) and not source.held.startswith(b"HTTP/")


def next_answer(source, may_be_head):
    source.answer = answer = Answer()
    read_head(source, answer)
    if answer.status is None:
        return answer
    if not has_body(source, may_be_head):
        answer.is_whole = True
    elif answer.chunks is None:
        read_body(source, answer)
    else:
        read_chunks(source, answer)
    if answer.body and answer.status >= 400:
        check_refusal(answer)
    return answer


def check_all(source, data, counted):
    """Reads all answers of a session, and counts them by their statuses. Returns how many there are."""
    may_be_head, count = b"HEAD" in data, 0
    while True:
        answer = next_answer(source, may_be_head)
        if answer.status is None:
            return count
        counted[answer.status] += 1
        count += 1
        if not answer.is_whole:
            raise Wrong("a feed that is cut: %r" % answer.raw[-2000:])
        if answer.closes:
            if not source.is_at_end():
                raise Wrong("bytes behind an answer that closes: %r" % bytes(source.held[:2000]))
            return count


def run_alone(program, data, counted):
    """Runs a session over standard input."""
    try:
        done = subprocess.run([program, "stdin"], input=data, capture_output=True, timeout=PATIENCE)
    except subprocess.TimeoutExpired:
        raise Violation("no end within %d seconds" % PATIENCE) from None
    if done.returncode not in (0, 1) or done.stderr:
        raise Violation("status %d, standard error %r" % (done.returncode, done.stderr[:500]))
    counted["ended with %d" % done.returncode] += 1
    count = check_all(Bytes(done.stdout), data, counted)
    if count != WHOLE_SCRIPTS.get(data, count):
        raise Violation("a script of %d requests has %d answers" % (WHOLE_SCRIPTS[data], count))


def send(rng, client, data, counted):
    """Sends bytes in pieces. The hub may have closed meanwhile."""
    size = rng.choice([len(data), 4000, 1 + len(data) // 7])
    try:
        for at in range(0, len(data), size):
            client.sendall(data[at : at + size])
        client.shutdown(socket.SHUT_WR)
    except OSError:
        counted["closed early"] += 1


def run_together(port, rng, data, counted):
    """Runs a session over TCP."""
    may_wait = any(it in data for it in (b"longpoll", b"continuous"))
    with socket.create_connection(("127.0.0.1", port), PATIENCE) as client:
        client.setsockopt(socket.IPPROTO_TCP, socket.TCP_NODELAY, 1)
        send(rng, client, data, counted)
        source = Patient(client.fileno(), may_wait)
        try:
            check_all(source, data, counted)
        except Late:
            if not source.is_left():
                raise
            counted["left waiting"] += 1


def ask(client, source, line):
    client.sendall(line.encode() + b" HTTP/1.1\r\n\r\n")
    return read_answer(source)


def clear(port):
    """Removes each database, so that each feed that waits comes to its end."""
    with socket.create_connection(("127.0.0.1", port), PATIENCE) as client:
        source = Source(client.fileno())
        for line in ("DELETE /zz", "PUT /zz", "DELETE /zz", "PUT /zz"):
            ask(client, source, line)
        for name in json.loads(ask(client, source, "GET /_all_dbs").body):
            removed = ask(client, source, "DELETE /" + urllib.parse.quote(name, ""))
            if removed.status != 200:
                raise Violation("%s cannot be removed: %r" % (name, removed.raw))
        if json.loads(ask(client, source, "GET /_all_dbs").body):
            raise Violation("databases are left that were removed")


def run_server(program, rng, counted, number):
    """Runs sessions over TCP, one after the other, on a server of their own. Returns the violations."""
    words = [program, "serve", "127.0.0.1:0", str(TOGETHER + 1)]
    server = subprocess.Popen(words, stdout=subprocess.PIPE, stderr=subprocess.DEVNULL)
    data = b""
    try:
        port = int(server.stdout.readline().decode().rsplit(":", 1)[1])
        for _ in range(TOGETHER):
            data = session(rng)
            counted["sessions over TCP"] += 1
            run_together(port, rng, data, counted)
        clear(port)
        if (status := ended(server)) != 0:
            raise Violation("status %d" % status)
    except (Violation, Wrong, Late, OSError) as error:
        return ["block %d, over TCP: %s (the server: %r)\n    %r" % (number, error, server.poll(), data)]
    finally:
        server.kill()
        server.wait()
        server.stdout.close()
    return []


def run_block(program, seed, number):
    """Runs the sessions of a block. Returns the counts and the violations."""
    rng = random.Random("%d %d" % (seed, number))
    counted, violations = collections.Counter(), []
    for _ in range(ALONE):
        data = session(rng)
        counted["sessions over standard input"] += 1
        try:
            run_alone(program, data, counted)
        except (Violation, Wrong, Late) as error:
            violations.append("block %d, over standard input: %s\n    %r" % (number, error, data))
    return counted, violations + run_server(program, rng, counted, number)


def work(program, seed, first, step, until):
    """Runs blocks until the time is over. Returns the counts and the violations."""
    counted, violations, number = collections.Counter(), [], first
    while time.monotonic() < until and len(violations) < 5:
        some, more = run_block(program, seed, number)
        counted.update(some)
        counted["blocks"] += 1
        violations += more
        number += step
    return counted, violations


def main():
    parser = argparse.ArgumentParser(description=__doc__.split("\n\n")[0])
    parser.add_argument("--seconds", type=int, default=60)
    parser.add_argument("--short", action="store_true", help="15 seconds")
    parser.add_argument("--seed", type=int, default=1)
    parser.add_argument("--block", type=int, help="this block alone")
    parser.add_argument("--program", default=HUB, help="a program of the same commands in the hub's place")
    options = parser.parse_args()
    check_program(options.program)
    if options.block is not None:
        results = [run_block(options.program, options.seed, options.block)]
    else:
        processors = len(os.sched_getaffinity(0))
        until = time.monotonic() + (15 if options.short else options.seconds)
        with multiprocessing.get_context("fork").Pool(processors) as pool:
            tasks = [(options.program, options.seed, at, processors, until) for at in range(processors)]
            results = pool.starmap(work, tasks)
    counted, violations = collections.Counter(), []
    for some, more in results:
        counted.update(some)
        violations += more
    for name in sorted(counted, key=str):
        print("%-30s %9d" % ("answers of status %d" % name if isinstance(name, int) else name, counted[name]))
    for text in violations:
        print("VIOLATION: " + text, file=sys.stderr)
    print("%d violations" % len(violations))
    return 1 if violations else 0


if __name__ == "__main__":
    sys.exit(main())
