"""A process between a client and the hub that answers wrongly, so that `growths.py --wrong` has faults to see.

    wrong_hub.py FAULT PROGRAM stdin

`leaves-out`: once the hub was refused memory, feeds are sent without their last row. `claims`: where a
database could not be made, out of memory, the answer says that it was made. A client sends one request at a
time.
"""

import os
import struct
import subprocess
import sys

sys.path.insert(0, os.path.dirname(os.path.abspath(__file__)))
from answers import Source, read_answer

MADE = b"HTTP/1.1 201 Created\r\nContent-Type: application/json\r\nContent-Length: 12\r\n\r\n"
MADE += b'{"ok":true}\n'


def is_refused():
    """Whether the hub was refused memory, by the last word that the script shares with the shim."""
    with open(os.environ["HUB_GROWTHS"], "rb") as file:
        return struct.unpack("6Q", file.read(48))[5] > 0


def without_row(answer):
    """The bytes of a feed without its last row."""
    at = max(at for at, text in enumerate(answer.chunks) if b'"seq":"' in text)
    left = answer.chunks[:at] + answer.chunks[at + 1 :]
    head = answer.raw[: answer.raw.index(b"\r\n\r\n") + 4]
    return head + b"".join(b"%x\r\n%s\r\n" % (len(it), it) for it in left) + b"0\r\n\r\n"


def sent(fault, data, answer):
    if fault == "leaves-out" and answer.rows() and is_refused():
        return without_row(answer)
    if fault == "claims" and data.startswith(b"PUT /d ") and answer.status == 503 and not answer.closes:
        return MADE
    return answer.raw


def main(fault, program, *arguments):
    environment = {"LD_PRELOAD": os.environ["HUB_SHIM"], "HUB_GROWTHS": os.environ["HUB_GROWTHS"]}
    how = {"stdin": subprocess.PIPE, "stdout": subprocess.PIPE, "bufsize": 0}
    hub = subprocess.Popen([program, *arguments], env=environment, **how)
    source = Source(hub.stdout.fileno())
    while data := os.read(0, 1 << 18):
        try:
            hub.stdin.write(data)
        except BrokenPipeError:
            pass
        answer = read_answer(source, data.startswith(b"HEAD "))
        os.write(1, sent(fault, data, answer))
        if answer.closes or not answer.is_whole:
            break
    hub.stdin.close()
    return hub.wait()


if __name__ == "__main__":
    sys.exit(main(*sys.argv[1:]))
