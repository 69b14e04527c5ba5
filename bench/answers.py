"""Reads the hub's answers strictly: each byte has to stand where docs/PROFILE.md says.

An answer is a head and a body of a known length, or chunks. Bytes that are no answer raise `Wrong`. A hub
that sends no byte for too long raises `Late`.
"""

import json
import os
import re
import select

# The seconds for which a hub may send no byte.
PATIENCE = 20
PHRASES = {
    200: b"OK",
    201: b"Created",
    400: b"Bad Request",
    404: b"Not Found",
    405: b"Method Not Allowed",
    409: b"Conflict",
    411: b"Length Required",
    412: b"Precondition Failed",
    413: b"Payload Too Large",
    431: b"Request Header Fields Too Large",
    501: b"Not Implemented",
    503: b"Service Unavailable",
    505: b"HTTP Version Not Supported",
}
HEAD = re.compile(
    rb"HTTP/1\.1 ([0-9]{3}) ([A-Za-z./0-9 ]+)\r\n"
    rb"Content-Type: application/json\r\n"
    rb"(?:Content-Length: (0|[1-9][0-9]*)|Transfer-Encoding: chunked)\r\n"
    rb"(Connection: close\r\n)?"
    rb"\r\n\Z"
)
SIZE = re.compile(rb"(0|[1-9a-f][0-9a-f]*)\r\n\Z")


class Wrong(Exception):
    """Bytes that are no answer."""


class Late(Exception):
    """No byte came within the limit."""


class Source:
    """The bytes that come from a pipe or a socket. A reset of the connection counts as an end."""

    def __init__(self, number, patience=PATIENCE):
        self.number, self.patience = number, patience
        self.held, self.has_ended = bytearray(), False
        self.poll = select.poll()
        self.poll.register(number, select.POLLIN)

    def read(self):
        """Waits for more bytes, and says whether some came."""
        if self.has_ended:
            return False
        if not self.poll.poll(1000 * self.patience):
            raise Late("no byte within %g seconds" % self.patience)
        try:
            some = os.read(self.number, 1 << 18)
        except ConnectionError:
            some = b""
        self.held += some
        self.has_ended = not some
        return bool(some)

    def through(self, mark):
        """The bytes up to a mark and with it, or all other bytes where no mark comes."""
        while mark not in self.held:
            if not self.read():
                return self.take(len(self.held))
        return self.take(self.held.index(mark) + len(mark))

    def exactly(self, count):
        """So many bytes, or all other bytes where fewer come."""
        while len(self.held) < count and self.read():
            pass
        return self.take(min(count, len(self.held)))

    def take(self, count):
        taken = bytes(self.held[:count])
        del self.held[:count]
        return taken

    def is_at_end(self):
        """Waits for more bytes or the end, and says whether the end came."""
        return not self.held and not self.read()


class Bytes(Source):
    """A source whose bytes have all come."""

    def __init__(self, held):
        self.held, self.has_ended = bytearray(held), True


class Answer:
    """An answer, as far as it came."""

    def __init__(self):
        self.parts = []
        # None where no byte came.
        self.status = None
        # Whether the head says that the connection closes.
        self.closes = False
        # The texts of the chunks, None where the body has a length.
        self.chunks = None
        self.length = 0
        self.body = b""
        # Whether the whole answer came.
        self.is_whole = False
        # Whether it is the first answer on its connection.
        self.is_first = False

    @property
    def raw(self):
        """Every byte that came."""
        return b"".join(self.parts)

    def rows(self):
        return sum(b'"seq":"' in it for it in self.chunks or [])


def read_head(source, answer):
    """Reads a head into the answer. Without a byte the answer stays as it is."""
    head = source.through(b"\r\n\r\n")
    if not head:
        return
    answer.parts.append(head)
    found = HEAD.match(head)
    if not found:
        raise Wrong("a head that is none: %r" % head[:2000])
    answer.status = int(found[1])
    if PHRASES.get(answer.status) != found[2]:
        raise Wrong("a status line that is none: %r" % head[:2000])
    answer.closes = bool(found[4])
    if found[3] is None:
        answer.chunks = []
    else:
        answer.length = int(found[3])


def read_chunk(source, answer):
    """Reads the next chunk, and returns its text: empty for the last chunk, None where the stream was cut."""
    line = source.through(b"\r\n")
    answer.parts.append(line)
    if not line.endswith(b"\r\n"):
        return None
    found = SIZE.match(line)
    if not found:
        raise Wrong("a chunk's length that is none: %r" % line[:200])
    size = int(found[1], 16)
    text = source.exactly(size + 2)
    answer.parts.append(text)
    if len(text) < size + 2:
        return None
    if not text.endswith(b"\r\n"):
        raise Wrong("a chunk that is longer than its length: %r" % text[-200:])
    answer.is_whole = size == 0
    if size:
        answer.chunks.append(text[:-2])
    return text[:-2]


def read_chunks(source, answer):
    """Reads chunks to the last chunk, or to the place where the stream was cut."""
    while read_chunk(source, answer):
        pass
    answer.body = b"".join(answer.chunks)
    if answer.is_whole:
        check_stream(answer.body)


def read_body(source, answer):
    answer.body = source.exactly(answer.length)
    answer.parts.append(answer.body)
    if len(answer.body) < answer.length:
        raise Wrong("a body that is cut: %r" % answer.raw[-2000:])
    answer.is_whole = True
    check_json(answer.body)


def read_answer(source, is_head=False):
    """Reads an answer to its end, or to the end of the bytes. A hub that finds no memory to read a request
    does not know that the request is a HEAD. It sends an answer with a body, and closes the connection."""
    answer = Answer()
    read_head(source, answer)
    if answer.status is None:
        return answer
    if is_head and not (answer.status == 503 and answer.closes):
        answer.is_whole = True
    elif answer.chunks is None:
        read_body(source, answer)
    else:
        read_chunks(source, answer)
    return answer


def check_json(text):
    """Checks that a body is one JSON value and a line feed."""
    if not text.endswith(b"\n"):
        raise Wrong("a body without its line feed: %r" % text[-200:])
    try:
        return json.loads(text)
    except (ValueError, RecursionError) as error:
        raise Wrong("a body that is no JSON, %s: %r" % (error, text[:2000])) from None


def check_stream(text):
    """Checks that a whole feed is one JSON value, or, of a continuous feed, one JSON value on each line."""
    if text.startswith(b'{"results":['):
        check_json(text)
        return
    for line in text.split(b"\n")[:-1]:
        if line:
            check_json(line + b"\n")
