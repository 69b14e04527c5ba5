#!/usr/bin/env python3
"""How many instructions the hub takes for each kind of request, beside other builds of it.

    python3 bench/instructions.py [--only TEXT] PROGRAM [PROGRAM ..]
    python3 bench/instructions.py --few [--keep FILE] PROGRAM

runs each program over the same requests under valgrind's callgrind, and prints a line for each case. The line
has the instructions of the first program, and of each other program the ratio to these. A program is any
build of changes_hub, so two states of the hub can be compared. Instructions repeat where times do not. A case
that reads has a setup, which is run alone too, and the difference is printed. A feed of listed ids finds their rows
at its second row. So the setup of its rows has the same feeds, each with two rows, and the finding is a case of its
own. All programs have to answer with the same bytes. The line of a case in which they do not says so.

With --keep the instructions of the first program are written to FILE too, a case a line: the name, a tab, the
number. The file bench/instructions.txt is of this form, from the last state that was landed. Without --keep
each line has at its end the number of the case in bench/instructions.txt, and the ratio to it. --few takes
the cases of FEW alone, in about a minute.
"""

import argparse
import hashlib
import os
import re
import subprocess
import sys
import tempfile

from bench import MAKE, batches, compact, diffs, feed, gets, leaves, line, listed, members, puts, request, revision


KEPT = os.path.join(os.path.dirname(os.path.abspath(__file__)), "instructions.txt")
# The cases that most clients meet.
FEW = (
    "a PUT of a new document, 10,000",
    "a document in batches of 1,000",
    "one that is made here, in batches of 1,000",
    "a row",
    "a row with its document",
    "an empty feed",
    "a feed of ten rows",
    "a GET",
)


def digest(text):
    return hashlib.md5(text.encode()).hexdigest()


def write(docs):
    return request("POST /d/_bulk_docs", compact({"docs": docs, "new_edits": False}))


def made_here(count, size, together=1000):
    """Documents whose revisions the hub makes, in batches of so many."""
    docs = [{"_id": "doc%07d" % number, **members(number, size)} for number in range(count)]
    texts = [compact({"docs": docs[at : at + together]}) for at in range(0, count, together)]
    return MAKE + b"".join(request("POST /d/_bulk_docs", text) for text in texts)


def growing(count):
    """A document that comes again and again, each time with a history of one revision more."""
    ids = []
    parts = [MAKE]
    for number in range(count):
        ids.insert(0, digest("g%d" % number))
        parts.append(write([{"_id": "doc", "_revisions": {"start": len(ids), "ids": ids}}]))
    return b"".join(parts)


def replicated(count, revisions):
    """Documents that come with histories of so many revisions."""
    docs = []
    for number in range(count):
        ids = [digest("%d.%d" % (number, at)) for at in range(revisions)]
        docs.append({"_id": "doc%07d" % number, "_revisions": {"start": revisions, "ids": ids}, "v": number})
    return MAKE + b"".join(write(docs[at : at + 1000]) for at in range(0, count, 1000))


def leaf_revisions(count):
    """The revisions of the leaves of `leaves(count)`."""
    return ["2-" + digest(str(number)) for number in range(count)]


def deletions(count):
    return b"".join(("DELETE /d/doc?rev=%s HTTP/1.1\r\n\r\n" % it).encode() for it in leaf_revisions(count))


def edits_of_leaves(count):
    body = compact({"v": 0})
    return b"".join(request("PUT /d/doc?rev=" + it, body) for it in leaf_revisions(count))


def by_turns(lines, count):
    """PUTs on the lines of a document, one after the other."""
    heads = leaf_revisions(lines)
    parts = []
    for number in range(count):
        body = compact({"v": number})
        parts.append(request("PUT /d/doc?rev=" + heads[number % lines], body))
        heads[number % lines] = revision(heads[number % lines], "doc", body)
    return b"".join(parts)


def after(setup, asked):
    """The setup, and the requests behind it."""
    return setup, setup + asked


def of_listed(stored, few, many, count=10000):
    """Feeds of 1,000 listed ids of so many documents: few rows by one query, and more rows by another."""
    return stored + listed(count, few) * 20, stored + listed(count, many) * 20


def cases():
    """The cases: a name, the setup or None, all requests, and the number that divides the instructions."""
    stored = batches(10000, 100)
    get = b"GET /d/doc%s HTTP/1.1\r\n\r\n"
    with_docs = "&include_docs=true"
    found = [
        ("a PUT of a new document, 10,000", None, puts(10000, 100), 10000),
        ("a document in batches of 100", None, batches(10000, 100, 100), 10000),
        ("a document in batches of 1,000", None, stored, 10000),
        ("one that is made here, in batches of 1,000", None, made_here(10000, 100), 10000),
        ("one with 3 revisions", None, replicated(10000, 3), 10000),
        ("one with 20 revisions", None, replicated(10000, 20), 10000),
        ("a PUT in a line of 1,000", None, line(1000), 1000),
        ("a PUT in a line of 5,000", None, line(5000), 5000),
        ("a history that grows to 300", None, growing(300), 300),
        ("a history that grows to 1,000", None, growing(1000), 1000),
        ("a leaf of 250", None, leaves(250), 250),
        ("a leaf of 1,000", None, leaves(1000), 1000),
        ("a leaf of 2,000", None, leaves(2000), 2000),
        ("a row", *after(stored, feed() * 5), 50000),
        ("a row with its document", *after(stored, feed("?include_docs=true") * 5), 50000),
        ("a row with all leaves", *after(stored, feed("?style=all_docs") * 5), 50000),
        ("a row of a continuous feed", *after(stored, feed("?feed=continuous&limit=10000") * 5), 50000),
        ("a row downwards", *after(stored, feed("?descending=true") * 5), 50000),
        ("the finding of a listed id", *of_listed(stored, "&since=now", "&limit=2"), 20000),
        ("a row of a listed id", *of_listed(stored, "&limit=2", ""), 19960),
        ("the same with its document", *of_listed(stored, "&limit=2" + with_docs, with_docs), 19960),
        ("a row where every id is listed", *of_listed(batches(1000, 100), "&limit=2", "", 1000), 19960),
        ("an empty feed", *after(stored, feed("?since=now") * 1000), 1000),
        ("a feed of ten rows", *after(stored, feed("?since=9990") * 1000), 1000),
        ("a GET", *after(stored, gets(10000)), 10000),
        ("an id of _revs_diff", *after(stored, diffs(10000) * 10), 10000),
        ("a GET with revs, of 3", *after(replicated(1000, 3), (get % b"0000007?revs=true") * 1000), 1000),
        ("a GET with revs, of 1,000", *after(line(1000), (get % b"?revs=true") * 100), 100),
    ]
    opened = (get % b"?open_revs=all") * 100
    for count in [10, 100, 300, 1000]:
        found.append(("open_revs=all of a line of %d" % count, *after(line(count), opened), 100))
    found += [
        ("a leaf of 500 deleted", *after(leaves(500), deletions(500)), 500),
        ("a leaf of 500 edited", *after(leaves(500), edits_of_leaves(500)), 500),
        ("a PUT by turns on 2 lines", *after(leaves(2), by_turns(2, 1000)), 1000),
        ("a PUT by turns on 10 lines", *after(leaves(10), by_turns(10, 1000)), 1000),
    ]
    return found


def run(program, data, folder):
    """The instructions that the program takes for these requests, and a digest of its answers."""
    source = os.path.join(folder, "requests")
    with open(source, "wb") as out:
        out.write(data)
    tool = ["valgrind", "--tool=callgrind", "--callgrind-out-file=" + os.path.join(folder, "profile")]
    with open(source, "rb") as stdin:
        done = subprocess.run([*tool, program, "stdin"], stdin=stdin, capture_output=True)
    told = re.search(rb"Collected : (\d+)", done.stderr)
    if done.returncode != 0 or told is None:
        sys.exit("%s ended with status %d" % (program, done.returncode))
    return int(told.group(1)), hashlib.md5(done.stdout).hexdigest()


def kept_table(file):
    """The instructions in a file of --keep, by case. The table is empty where there is no such file."""
    try:
        with open(file, encoding="utf-8") as source:
            lines = [line.rstrip("\n").split("\t") for line in source]
    except FileNotFoundError:
        return {}
    return {name: float(told) for name, told in lines}


def write_table(file, table):
    with open(file, "w", encoding="utf-8") as out:
        out.writelines("%s\t%.0f\n" % it for it in table.items())


def measure(programs, setup, asked, count, folder):
    """The instructions of each program for one request, and whether all answered with the same bytes."""
    each, answers = [], set()
    for program in programs:
        before = 0 if setup is None else run(program, setup, folder)[0]
        whole, told = run(program, asked, folder)
        each.append((whole - before) / count)
        answers.add(told)
    return each, len(answers) == 1


def told_line(name, each, is_same, kept):
    """The line of a case. `kept` is the number of the case in the file, or None."""
    ratios = "".join("%9.3f" % (it / each[0]) for it in each[1:])
    beside = "" if kept is None else "  landed %.0f, %.3f of it" % (kept, each[0] / kept)
    note = "" if is_same else "  other answers"
    return "%-43s %12.0f%s%s%s" % (name, each[0], ratios, beside, note)


def main():
    parser = argparse.ArgumentParser(description=__doc__.split("\n\n")[0])
    parser.add_argument("--only", default="", help="cases whose name has this text")
    parser.add_argument("--few", action="store_true", help="the cases that most clients meet")
    parser.add_argument("--keep", metavar="FILE", help="write the first program's instructions to FILE")
    parser.add_argument("programs", nargs="+", metavar="PROGRAM")
    options = parser.parse_args()
    landed = {} if options.keep else kept_table(KEPT)
    table = {}
    with tempfile.TemporaryDirectory() as folder:
        for name, setup, asked, count in cases():
            if options.only not in name or (options.few and name not in FEW):
                continue
            each, is_same = measure(options.programs, setup, asked, count, folder)
            table[name] = each[0]
            print(told_line(name, each, is_same, landed.get(name)), flush=True)
    if options.keep:
        write_table(options.keep, table)


if __name__ == "__main__":
    main()
