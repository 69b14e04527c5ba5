"""Requests to the hub. A script is a list of requests that one client sends one after the other. In a scene
several clients take part.

The first scripts are worked rows of the profile. The others have each route, batches of both kinds, and the
requests of usual clients. `growths.py` has their growths refused, and `hostile.py` spoils their bytes.
"""

from bench import compact, request, revision

MAKE = b"PUT /d HTTP/1.1\r\n\r\n"
REMOVE = b"DELETE /d HTTP/1.1\r\n\r\n"
UPDATES = b"GET /_db_updates HTTP/1.1\r\n\r\n"
FIRST = revision(None, "a", b"{}")
SECOND = revision(FIRST, "a", b"{}", True)


class Step:
    """A step of a client: it asks, opens a feed, or reads the feed up to so many rows or to its end."""

    def __init__(self, kind, client, data):
        self.kind, self.client, self.data = kind, client, data

    def __repr__(self):
        return "%s %s %r" % (self.client, self.kind, self.data)


class Script:
    """Steps, and the requests that show the hub's state after them."""

    def __init__(self, steps, ids=("a",), local=()):
        self.steps = [it if isinstance(it, Step) else ask("client", it) for it in steps]
        self.shown = [get("/_all_dbs"), UPDATES, get("/d"), get("/d/_changes?style=all_docs&include_docs=true")]
        self.shown += [get("/d/%s?open_revs=all&revs=true" % it) for it in ids]
        self.shown += [get("/d/_local/%s" % it) for it in local]


def ask(client, data):
    return Step("ask", client, data)


def follow(client, path):
    return Step("open", client, get(path))


def rows(client, count):
    return Step("rows", client, count)


def end(client):
    return Step("end", client, None)


def get(path):
    return ("GET %s HTTP/1.1\r\n\r\n" % path).encode()


def bare(method, path):
    return ("%s %s HTTP/1.1\r\n\r\n" % (method, path)).encode()


def put(path, value):
    return request("PUT " + path, compact(value))


def post(path, value):
    return request("POST " + path, compact(value))


def batch(docs, new_edits=False):
    return post("/d/_bulk_docs", {"docs": docs, "new_edits": new_edits})


def history(ident, *revs, **members):
    """A document with its history, the newest revision first."""
    ids = [it.split("-")[1] for it in revs]
    start = int(revs[0].split("-")[0])
    return {"_id": ident, "_revisions": {"start": start, "ids": ids}, **members}


TWO = [MAKE, batch([{"_id": "a", "_rev": "1-a"}, {"_id": "b", "_rev": "1-b"}])]
THREE = [MAKE, batch([{"_id": it, "_rev": "1-" + it} for it in "abc"])]
AGAIN = batch([history("a", "2-c", "1-a")])
LISTED = "/d/_changes?filter=_doc_ids&doc_ids=%5B%22c%22%2C%22b%22%5D"


def refused_documents():
    """The documents of a batch in which all but one are refused."""
    return [
        {"_id": "n", "_rev": "1-a", "v": 1.5},
        {"_id": "m", "_rev": "1-a", "_attachments": {"f": {}}},
        {"_id": "r", "_rev": "0-a"},
        {"_id": "g", "_rev": "65536-a"},
        {"_id": "k", "_rev": "1-k"},
        history("b", "3-w", "2-y", "1-q"),
    ]


def routes():
    """A request to each route, and requests of no route."""
    return [
        get("/"),
        MAKE,
        get("/_all_dbs"),
        bare("HEAD", "/d"),
        get("/d/"),
        bare("POST", "/d/_ensure_full_commit"),
        put("/d/_design/x", {"language": "own"}),
        get("/d/_design%2Fx"),
        bare("DELETE", "/d/_design/x?rev=" + revision(None, "_design/x", compact({"language": "own"}))),
        get("/d/_design/x"),
        put("/d/a?new_edits=false", {}),
        put("/d/_x", {}),
        get("/d/a?rev=1-a"),
        bare("DELETE", "/d/a"),
        bare("POST", "/d/_bulk_docs"),
        bare("PUT", "/D"),
        bare("PATCH", "/d"),
        get("/d/a/b/c"),
        get("/absent/a"),
        REMOVE,
    ]


def interactive():
    """Batches whose revisions are made by the hub."""
    docs = [{"_id": "a", "v": 1}, {"_id": "b", "v": 2}, {"_id": "c", "v": 3}]
    rev = revision(None, "a", compact({"v": 1}))
    return [
        MAKE,
        batch(docs, True),
        batch([{"_id": "a", "v": 4}, {"_id": "a", "_rev": rev, "v": 5}, {"_id": 7}, {"_id": "e"}], True),
        get("/d/_changes?style=all_docs"),
    ]


def replicated():
    """Batches of documents with their histories. Some heads are known, some histories extend known ones."""
    long = ["%d-h%d" % (it, it) for it in range(30, 0, -1)]
    return [
        MAKE,
        batch([history("a", "3-c", "2-b", "1-a"), history("b", *long, v="x" * 100), history("c", "2-z", "1-z")]),
        batch([history("a", "3-d", "2-b", "1-a"), history("a", "2-b", "1-a"), history("c", "3-y", "2-z")]),
        batch([history("c", "3-x", "2-z", _deleted=True)]),
        get("/d/_changes?style=all_docs"),
    ]


def growing():
    """Rows each of which is longer than the rows before it."""
    docs = [{"_id": "doc%d" % it, "_rev": "1-a", "text": "x" * 60 * 2**it} for it in range(8)]
    return [MAKE, batch(docs), get("/d/_changes?include_docs=true"), get("/d/doc7")]


def locals_of():
    return [
        MAKE,
        put("/d/_local/k", {"v": 1}),
        put("/d/_local%2Fk", {"v": 1}),
        get("/d/_local/k"),
        get("/d/_local/absent"),
        put("/d/_local/k", {"_deleted": True}),
    ]


def edits():
    return [
        MAKE,
        put("/d/a", {}),
        put("/d/a", {}),
        bare("DELETE", "/d/a?rev=" + FIRST),
        put("/d/a", {}),
        bare("DELETE", "/d/a"),
    ]


def updates():
    return [
        MAKE,
        bare("PUT", "/e%2Ff"),
        put("/d/a", {}),
        UPDATES,
        get("/_db_updates?since=1&limit=1"),
        get("/_db_updates?feed=continuous&timeout=30"),
        get("/_db_updates?feed=longpoll&since=now&timeout=30"),
        bare("DELETE", "/e%2Ff"),
        UPDATES,
    ]


DIFF = {"a": ["1-a", "2-d", "3-e"], "b": ["1-b"], "z": ["1-q"]}
SOME = "open_revs=%5B%221-a%22%2C%222-c%22%2C%229-z%22%5D&revs=true"

SCRIPTS = {
    "two documents": Script([*TWO, get("/d/_changes")], "ab"),
    "one is written again": Script(
        [*TWO, AGAIN, get("/d/_changes"), get("/d/_changes?since=2"), get("/d/_changes?since=%222-7%22")], "ab"
    ),
    "listed documents": Script(
        [*THREE, get(LISTED + "&limit=1"), get(LISTED + "&limit=0")]
        + [post("/d/_changes?filter=_doc_ids", {"doc_ids": ["c", "b"]}), get("/d/_changes?filter=_design")],
        "abc",
    ),
    "feeds that wait": Script(
        [*THREE, get("/d/_changes?feed=continuous&timeout=30"), get("/d/_changes?feed=longpoll&since=1"), AGAIN]
        + [get("/d/_changes?feed=continuous&since=3-1&include_docs=true&style=all_docs&timeout=30")],
        "abc",
    ),
    "edits": Script(edits()),
    "a document in a feed": Script([MAKE, put("/d/a", {"v": 7}), get("/d/_changes?include_docs=true"), get("/d/a")]),
    "refused documents": Script(
        [MAKE, batch([history("b", "2-y", "1-x")]), batch(refused_documents()), get("/d")], "bk"
    ),
    "a database is made again": Script(
        [MAKE, batch([{"_id": "a", "_rev": "1-a"}]), get("/d/_changes?feed=continuous&timeout=30"), REMOVE]
        + [get("/d"), UPDATES, MAKE, get("/d/_changes?since=1-1"), UPDATES]
    ),
    "each route": Script(routes(), ["a", "_design%2Fx"]),
    "made revisions": Script(interactive(), "abce"),
    "histories": Script(replicated(), "abc"),
    "longer and longer rows": Script(growing(), ["doc0", "doc7"]),
    "missing revisions": Script([*TWO, AGAIN, post("/d/_revs_diff", DIFF), get("/d/a?" + SOME)], "ab"),
    "leaves": Script(
        [MAKE, batch([history("x", "2-b", "1-q", _deleted=True), history("x", "2-a", "1-q"), history("x", "1-z")])]
        + [get("/d/x?open_revs=all&revs=true"), get("/d/_changes?style=all_docs"), get("/d/x?revs=true")],
        "x",
    ),
    "local documents": Script(locals_of(), "a", "k"),
    "downwards": Script(
        [*THREE, AGAIN, get("/d/_changes?descending=true&since=2"), get("/d/_changes?descending=true&limit=2")]
        + [get("/d/_changes?descending=true&feed=continuous")],
        "abc",
    ),
    "updates of databases": Script(updates()),
}

SCENES = {
    "a feed that follows": Script(
        [ask("writer", MAKE), follow("reader", "/d/_changes?feed=continuous&include_docs=true")]
        + [ask("writer", put("/d/a", {"v": 7})), rows("reader", 1)]
        + [ask("writer", batch([{"_id": "b", "_rev": "1-b", "text": "x" * 500}])), rows("reader", 2)]
        + [ask("writer", REMOVE), end("reader")],
        "ab",
    ),
    "two feeds": Script(
        [ask("writer", MAKE), ask("writer", put("/d/a", {})), follow("one", "/d/_changes?feed=continuous")]
        + [rows("one", 1), follow("other", "/d/_changes?feed=longpoll&since=1&style=all_docs")]
        + [ask("writer", AGAIN), rows("one", 2), end("other"), ask("writer", REMOVE), end("one")]
    ),
    "a feed of updates": Script(
        [ask("writer", MAKE), follow("reader", "/_db_updates?feed=longpoll&since=1")]
        + [ask("writer", get("/_all_dbs")), ask("writer", REMOVE), end("reader")]
    ),
}
