"""Eight clients that work beside one another on a hub for which memory is scarce.

Requests for memory are refused by chance, or the hub's address space is limited. Each client knows the
revisions that its documents may have. Where a write was answered, that is one revision, and after a 503 the
one before or the new one. Two clients follow the database, and begin again after the last row where their
feeds are cut. At the end there is memory again. Then each document is as its client knows it, and each
follower gets the current rows.
"""

import collections
import json
import random
import resource
import subprocess
import threading
import time

from answers import Late, Wrong, read_chunk
from bench import compact, revision
from refusals import Connection, Tcp, Violation, ended
from rows import bare, get, post, put

# The connections that a server serves.
CONNECTIONS = 3000
WRITERS = 6
FOLLOWERS = 2
# The bytes of a document's text.
LENGTHS = [10, 100, 1000, 20000]
NO_MEMORY = {"error": "out_of_memory", "reason": "out of memory"}


class Scarce:
    """A server, the counts of its clients, and the time at which the clients stop."""

    def __init__(self, hub, seconds):
        self.hub, self.until = hub, time.monotonic() + seconds
        self.lock = threading.Lock()
        self.counted, self.violations = collections.Counter(), []

    def connect(self):
        """A connection, or None where the server has at most 100 left."""
        with self.lock:
            if self.hub.left <= 100:
                return None
            self.hub.left -= 1
        return Connection(self.hub.port)

    def count(self, **counts):
        with self.lock:
            self.counted.update(counts)

    def is_over(self):
        return time.monotonic() >= self.until or bool(self.violations) or self.hub.left <= 100


class Client(threading.Thread):
    """A client with one connection at a time. Its exceptions are violations."""

    def __init__(self, scarce, number):
        super().__init__()
        self.scarce, self.number = scarce, number
        self.random = random.Random(number)
        self.connection = None

    def run(self):
        try:
            while not self.scarce.is_over():
                self.go()
        except (Violation, Wrong, Late, OSError) as error:
            self.scarce.violations.append("client %d: %s" % (self.number, error))
        if self.connection:
            self.connection.close()

    def ready(self):
        """The connection, a new one where there is none; None where the server has none left."""
        if self.connection is None:
            self.connection = self.scarce.connect()
        return self.connection

    def leave(self):
        self.connection.close()
        self.connection = None

    def ask(self, data, statuses):
        """Sends a request. Returns the status and the value of its answer, or None twice: out of memory the
        client cannot know whether the request had its effect."""
        if self.ready() is None:
            return None, None
        answer = self.connection.ask(data)
        if answer.closes or not answer.is_whole:
            self.leave()
        if answer.status is None:
            if not answer.is_first:
                raise Violation("no answer to %r" % data[:500])
            self.scarce.count(closed=1)
            time.sleep(0.01)
            return None, None
        self.scarce.count(answers=1)
        if not answer.is_whole:
            self.scarce.count(cut=1)
            return None, None
        value = json.loads(answer.body)
        if answer.status == 503 and value == NO_MEMORY:
            self.scarce.count(**{"503": 1})
            return None, None
        if answer.status not in statuses:
            raise Violation("%r is answered %r" % (data[:500], answer.raw[:500]))
        return answer.status, value


class Writer(Client):
    """A client that writes and reads documents of its own."""

    def __init__(self, scarce, number):
        super().__init__(scarce, number)
        # The revisions that a document may have, each with its deletion mark; None where it may be absent.
        self.docs, self.made = {}, 0

    def go(self):
        self.random.choice([self.put, self.put, self.put_again, self.delete, self.batch, self.look, self.others])()

    def name(self):
        self.made += 1
        return "w%d-%d" % (self.number, self.made)

    def body(self):
        return compact({"n": self.random.randrange(1000), "text": "x" * self.random.choice(LENGTHS)})

    def known(self):
        """A document whose revision is known, and that revision; None twice where none was found."""
        for _ in range(20):
            name = self.random.choice(list(self.docs) or [None])
            if name and len(self.docs[name]) == 1 and None not in self.docs[name]:
                (rev,) = self.docs[name]
                if not rev[1]:
                    return name, rev
        return None, None

    def settle(self, name, before, rev, answered):
        """Takes in the answer to a write."""
        status, value = answered
        if status is None:
            self.docs[name] = {before, rev}
            return
        if value != {"ok": True, "id": name, "rev": rev[0]}:
            raise Violation("%s is answered %r, and its revision is %s" % (name, value, rev[0]))
        self.docs[name] = {rev}

    def put(self):
        name, body = self.name(), self.body()
        rev = revision(None, name, body), False
        self.settle(name, None, rev, self.ask(put("/load/" + name, json.loads(body)), [201]))

    def put_again(self):
        name, before = self.known()
        if name:
            body = self.body()
            rev = revision(before[0], name, body), False
            asked = put("/load/%s?rev=%s" % (name, before[0]), json.loads(body))
            self.settle(name, before, rev, self.ask(asked, [201]))

    def delete(self):
        name, before = self.known()
        if name:
            rev = revision(before[0], name, b"{}", True), True
            asked = bare("DELETE", "/load/%s?rev=%s" % (name, before[0]))
            self.settle(name, before, rev, self.ask(asked, [200]))

    def batch(self):
        """Sends a batch of documents with their revisions, or of documents whose revisions the hub makes."""
        names = [self.name() for _ in range(3)]
        docs = [{"_id": name, "text": "x" * self.random.choice(LENGTHS)} for name in names]
        is_made = self.random.random() < 0.5
        revs = [revision(None, it["_id"], compact({"text": it["text"]})) for it in docs]
        if not is_made:
            revs = ["1-%032x" % self.random.getrandbits(128) for _ in docs]
            docs = [{**doc, "_rev": rev} for doc, rev in zip(docs, revs)]
        asked = post("/load/_bulk_docs", {"docs": docs, "new_edits": is_made})
        status, value = self.ask(asked, [201])
        wanted = [{"ok": True, "id": name, "rev": rev} for name, rev in zip(names, revs)] if is_made else []
        if status is not None and value != wanted:
            raise Violation("a batch is answered %r, and not %r" % (value, wanted))
        for name, rev in zip(names, revs):
            self.docs[name] = {(rev, False)} if status else {None, (rev, False)}

    def look(self):
        """Reads one of its documents, and learns the document's revision."""
        name = self.random.choice(list(self.docs) or [None])
        if name:
            status, value = self.ask(get("/load/%s?open_revs=all&revs=true" % name), [200, 404])
            if status is not None:
                self.learn(name, None if status == 404 else value[0]["ok"])

    def learn(self, name, doc):
        found = None if doc is None else (doc["_rev"], "_deleted" in doc)
        if found not in self.docs[name]:
            raise Violation("%s has %r, and may have %r" % (name, found, self.docs[name]))
        self.scarce.count(behind=int(len(self.docs[name]) > 1 and found is not None))
        if found is None:
            del self.docs[name]
        else:
            self.docs[name] = {found}

    def others(self):
        """Sends a request whose answer is only read."""
        own = "/own%d" % self.number
        asked = [
            (bare("PUT", own), [201, 412]),
            (bare("DELETE", own), [200, 404]),
            (put(own + "/a", {}), [201, 404, 409]),
            (get("/_all_dbs"), [200]),
            (get("/load"), [200]),
            (put("/load/_local/k%d" % self.number, {"v": 1}), [201]),
            (post("/load/_revs_diff", {"w0-1": ["1-a", "2-b"]}), [200]),
            (get("/load/_changes?limit=5&include_docs=true"), [200]),
            (get("/load/_changes?descending=true&limit=5"), [200]),
            (get("/load/_changes?feed=longpoll&limit=1&timeout=200"), [200]),
            (get("/_db_updates?limit=5"), [200]),
            (get("/nowhere/a/b/c"), [404]),
            (bare("PUT", "/Bad"), [400]),
        ]
        self.ask(*self.random.choice(asked))


class Follower(Client):
    """A client that follows the database, and begins again where its feed is cut."""

    def __init__(self, scarce, number):
        super().__init__(scarce, number)
        self.place, self.rows = "0", {}

    def go(self):
        if self.ready() is None:
            time.sleep(0.01)
            return
        path = "/load/_changes?feed=continuous&style=all_docs&heartbeat=200&since=" + self.place
        answer = self.connection.open(get(path))
        if answer.chunks is None:
            self.scarce.count(**{"503": 1} if answer.status else {"closed": 1})
            time.sleep(0.01)
        else:
            self.follow(answer)
        self.leave()

    def follow(self, answer):
        """Reads rows until the feed is cut, or the time is over."""
        while not self.scarce.is_over():
            text = read_chunk(self.connection.source, answer)
            if not text:
                self.scarce.count(cut=1)
                return
            if text != b"\n":
                self.take(json.loads(text))

    def take(self, row):
        """Takes in a row, whose sequence is above that of the row before."""
        if int(row["seq"].split("-")[0]) <= int(self.place.split("-")[0]):
            raise Violation("row %r comes behind %s" % (row, self.place))
        self.place = row["seq"]
        self.rows[row["id"]] = row
        self.scarce.count(rows=1)

    def catch_up(self):
        """Reads the rows after its place, with memory."""
        connection = Connection(self.scarce.hub.port)
        self.scarce.hub.left -= 1
        answer = connection.ask(get("/load/_changes?style=all_docs&since=" + self.place))
        connection.close()
        if not answer.is_whole or answer.status != 200:
            raise Violation("with memory a feed is answered %r" % answer.raw[:500])
        for row in json.loads(answer.body)["results"]:
            self.take(row)


def make_database(hub):
    """Makes the database of the clients in at most 50 tries. False where the hub has no memory for it."""
    for _ in range(50):
        if hub.ask("maker", bare("PUT", "/load")).status in (201, 412):
            hub.drop("maker")
            return True
    return False


def audit(scarce, writers, followers):
    """Compares the documents of the hub, with memory, with the revisions that the clients know."""
    answer = scarce.hub.ask("control", get("/load/_changes?style=all_docs"))
    if answer.status == 404:
        raise Violation("the database is gone")
    rows = {row["id"]: row for row in json.loads(answer.body)["results"]}
    known = {name: revs for writer in writers for name, revs in writer.docs.items()}
    for name in rows:
        if name not in known:
            raise Violation("nobody stored %s, or it was seen to be absent" % name)
    for name, revs in known.items():
        row = rows.get(name)
        found = None if row is None else (row["changes"][0]["rev"], "deleted" in row)
        if found not in revs:
            raise Violation("%s has %r, and may have %r" % (name, found, revs))
        scarce.count(behind=int(len(revs) > 1 and None in revs and found is not None))
    for follower in followers:
        follower.catch_up()
        if follower.rows != rows:
            raise Violation("a follower has %d rows, and there are %d" % (len(follower.rows), len(rows)))
    scarce.count(stored=len(rows))


def run_clients(hub, seconds):
    """Has eight clients work, and then audits. Returns the counts and the violations as a `Scarce`."""
    scarce = Scarce(hub, seconds)
    writers = [Writer(scarce, number) for number in range(WRITERS)]
    followers = [Follower(scarce, WRITERS + number) for number in range(FOLLOWERS)]
    for client in [*writers, *followers]:
        client.start()
    for client in [*writers, *followers]:
        client.join()
    hub.tools.allow()
    unlimited = (resource.RLIM_INFINITY, resource.RLIM_INFINITY)
    resource.prlimit(hub.process.pid, resource.RLIMIT_AS, unlimited)
    scarce.count(refused=hub.tools.get("refused"))
    if not scarce.violations:
        audit(scarce, writers, followers)
    return scarce


def limited(megabytes):
    """A call for a process before its program begins. It limits the address space, without a hard limit."""
    limit = (megabytes << 20, resource.RLIM_INFINITY)
    return lambda: resource.setrlimit(resource.RLIMIT_AS, limit)


def try_scarce(tools, kind, number, seconds):
    """Has clients work on a hub that is refused one growth in `number`, or has `number` megabytes."""
    how = {"preexec_fn": limited(number)} if kind == "megabytes" else {}
    hub = Tcp(tools, count=CONNECTIONS, **how)
    try:
        if hub.port is None:
            return starting(hub)
        if kind == "one in":
            make_database(hub)
            tools.set(seed=number, one_in=number)
        elif not make_database(hub):
            return starting(hub)
        scarce = run_clients(hub, seconds)
        if not scarce.violations and hub.end() != 0:
            raise Violation("the status is not 0")
        told = "eight clients, %s %d, the program's status: %r, " % (kind, number, hub.process.poll())
        return scarce.counted, [told + it for it in scarce.violations]
    finally:
        hub.kill()


def goes_on(process):
    """Whether a program goes on for a second. A hub that cannot begin closes its listener first, and ends."""
    try:
        process.wait(1)
    except subprocess.TimeoutExpired:
        return True
    return False


def starting(hub):
    """The counts where the hub had no memory to begin with. It ends with status 1, or answers nobody."""
    if hub.port is not None and goes_on(hub.process):
        status, wanted = hub.end(), 0
    else:
        status, wanted = ended(hub.process), 1
    if status != wanted:
        raise Violation("the status is %d, and not %d" % (status, wanted))
    return collections.Counter(closed=1), []
