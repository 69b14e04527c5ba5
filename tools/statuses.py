#!/usr/bin/env python3
"""The statuses that the program ends with.

    python3 tools/statuses.py [--program FILE]

runs the proved hub (./hub builds it; or another program of the same commands) once for each way to end. It
compares the status, and which of the two outputs has bytes. The first difference ends the script with
status 1. The merge gate runs the program only once, on the stored requests. Only Python's standard library is
used.
"""
import argparse
import os
import resource
import socket
import subprocess
import sys
import time

TOP = os.path.dirname(os.path.dirname(os.path.abspath(__file__)))
PROGRAM = f"{TOP}/crates/changes_hub/out/changes_hub"
# The seconds that a run may take.
PATIENCE = 20
# The workers of a server: one a processor, and at least two. Each has two descriptors.
WORKERS = max(2, len(os.sched_getaffinity(0)))
# The descriptors of a server with room for some clients, and the number of clients that come to it.
FEW = 12 + 2 * WORKERS
MANY = FEW + 14
# The descriptors of a server that cannot begin with them: its three streams, its socket, and one more.
TOO_FEW = 5

WHOLE = b"PUT /d HTTP/1.1\r\n\r\n"
CLOSE = b"PUT /d HTTP/1.1\r\nConnection: close\r\n\r\nx"
FEED = WHOLE + b"GET /d/_changes?feed=continuous HTTP/1.1\r\n\r\n"

# A command line, its standard input, the status, and whether it writes to standard output and standard error.
CASES = [
    (["stdin"], b"", 0, False, False),
    (["stdin"], WHOLE, 0, True, False),
    (["stdin"], b"PUT /D HTTP/1.1\r\n\r\n", 0, True, False),
    (["stdin"], CLOSE, 0, True, False),
    (["stdin"], FEED, 0, True, False),
    (["stdin"], WHOLE[:-1], 1, False, False),
    (["stdin"], WHOLE + b"P", 1, True, False),
    (["stdin"], b"GET / HTTP/1.0\r\n\r\n", 1, True, False),
    ([], b"", 2, False, True),
    (["run"], WHOLE, 2, False, True),
    (["stdin", "3"], WHOLE, 2, False, True),
    (["serve"], b"", 2, False, True),
    (["serve", "127.0.0.1:0"], b"", 2, False, True),
    (["serve", "127.0.0.1:0", "0", "0"], b"", 2, False, True),
    (["serve", "127.0.0.1:0", ""], b"", 2, False, True),
    (["serve", "127.0.0.1:0", "x"], b"", 2, False, True),
    (["serve", "127.0.0.1:0", "+1"], b"", 2, False, True),
    (["serve", "127.0.0.1:0", "-1"], b"", 2, False, True),
    (["serve", "127.0.0.1:0", "1x"], b"", 2, False, True),
    (["serve", "127.0.0.1:0", "4294967296"], b"", 2, False, True),
    (["serve", "127.0.0.1:0", "0"], b"", 0, True, False),
    (["serve", "127.0.0.1:0", "000"], b"", 0, True, False),
    (["serve", "nowhere", "0"], b"", 1, False, False),
]


def fail(words, given, wanted):
    print(f"statuses: {words}: {given}, and not {wanted}", file=sys.stderr)
    sys.exit(1)


def try_case(program, words, given, status, writes, complains):
    """Runs the program once with these bytes as its input."""
    ended = subprocess.run([program, *words], input=given, capture_output=True, timeout=PATIENCE)
    found = (ended.returncode, bool(ended.stdout), bool(ended.stderr))
    if found != (status, writes, complains):
        fail(words, found, (status, writes, complains))


def try_bound(program):
    """An address that another socket listens on can't be bound."""
    with socket.socket() as other:
        other.bind(("127.0.0.1", 0))
        other.listen()
        address = f"127.0.0.1:{other.getsockname()[1]}"
        try_case(program, ["serve", address, "0"], b"", 1, False, False)


def try_full(program):
    """Answers that can't be written end with 1."""
    with open("/dev/full", "wb") as full:
        ended = subprocess.run(
            [program, "stdin"], input=WHOLE, stdout=full, stderr=subprocess.DEVNULL, timeout=PATIENCE
        )
    if ended.returncode != 1:
        fail(["stdin"], ended.returncode, 1)


def try_served(program):
    """A server of two connections ends with 0 after the second, also where the second is cut."""
    with subprocess.Popen([program, "serve", "127.0.0.1:0", "2"], stdout=subprocess.PIPE) as server:
        port = int(server.stdout.readline().decode().rsplit(":", 1)[1])
        for given in (WHOLE, WHOLE[:-1]):
            with socket.create_connection(("127.0.0.1", port), PATIENCE) as client:
                client.sendall(given)
                client.shutdown(socket.SHUT_WR)
                while client.recv(4096):
                    pass
        status = server.wait(PATIENCE)
    if status != 0:
        fail(["serve", "127.0.0.1:0", "2"], status, 0)


def limited(files):
    """A call for a process before its program begins. It limits the open files to this number."""
    return lambda: resource.setrlimit(resource.RLIMIT_NOFILE, (files, files))


def try_too_few_files(program):
    """A server without descriptors for its workers ends with 1, after the line with its address."""
    words = ["serve", "127.0.0.1:0", "1"]
    how = {"capture_output": True, "timeout": PATIENCE, "preexec_fn": limited(TOO_FEW)}
    ended = subprocess.run([program, *words], stdin=subprocess.DEVNULL, **how)
    found = (ended.returncode, ended.stdout[:13], ended.stderr)
    if found != (1, b"listening on ", b""):
        fail(words, found, (1, b"listening on ", b""))


def try_few_files(program):
    """A server with fewer descriptors than clients goes on: it accepts again once clients have gone."""
    words = ["serve", "127.0.0.1:0", str(MANY + 1)]
    with subprocess.Popen([program, *words], stdout=subprocess.PIPE, preexec_fn=limited(FEW)) as server:
        port = int(server.stdout.readline().decode().rsplit(":", 1)[1])
        try:
            clients = [socket.create_connection(("127.0.0.1", port), PATIENCE) for _ in range(MANY)]
            # Time for the server to run out of descriptors.
            time.sleep(1)
            for client in clients:
                client.close()
            with socket.create_connection(("127.0.0.1", port), PATIENCE) as client:
                client.sendall(CLOSE)
                if not client.recv(4096).startswith(b"HTTP/1.1 201 "):
                    fail(words, "no answer", "an answer")
            status = server.wait(PATIENCE)
        finally:
            server.kill()
    if status != 0:
        fail(words, status, 0)


def main():
    parser = argparse.ArgumentParser(description="The statuses that the program ends with.")
    parser.add_argument("--program", default=PROGRAM)
    program = parser.parse_args().program
    for case in CASES:
        try_case(program, *case)
    try_bound(program)
    try_full(program)
    try_served(program)
    try_few_files(program)
    try_too_few_files(program)
    print(f"statuses: {len(CASES) + 5} runs as they should be")


if __name__ == "__main__":
    main()
