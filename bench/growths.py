#!/usr/bin/env python3
"""What the hub does where it is refused memory.

    python3 bench/growths.py [--short] [--only NAME] [--growth K]
    python3 bench/growths.py --tests CRATE ..
    python3 bench/growths.py --wrong

runs the proved hub (`./hub stdin < crates/changes_hub/stdin` builds it) under a shim that refuses it memory,
and checks each answer. It takes a C compiler, `cc`, and Python's standard library. A script of requests is
run again and again, each time with another growth refused: the first, the second, and so on, until a run
meets no refusal. A growth is a request of the hub for memory or for a thread. Scripts run over standard
input and over TCP, each in three ways: memory is refused once, until the next answer, and for ever. Then
eight clients work beside one another (scarce.py). Growths are refused by chance meanwhile, or the hub's
address space is limited.

The rules:

- Each answer before the refusal is the answer with ample memory.
- The call that meets the refusal is answered 503 `out_of_memory`, or as with ample memory. A feed ends
  without a last chunk, and its bytes are a front. A new connection may be closed unanswered. Over TCP another
  connection may meet the refusal: then its feed is cut beside an answer as with ample memory. A thread that
  is to relieve another thread may meet it too: no answer changes then.
- Further requests, with ample memory, show the state before the call, and the same call then has its answer.
- After a 503 a write may be stored. The table counts such writes: "behind", "unnoted" where the log of
  updates has no note of it, "stopped" where it is a front of a batch.
- A hub that cannot begin ends with status 1 ("start"). Else the status is 0, and over standard input 1 where
  the session closed. No signal ends it.

`--tests` runs each test of these crates in the same way (`rt test` builds their programs), and each run has
to end with status 0. Tests that do not make their own refused growths again are left out. `--wrong` puts a
process before the hub that answers wrongly, in two ways, and the rules have to find both. A rule that does
not hold is printed with its script, its growth and the bytes, and the status is 1. `--only` with `--growth`
runs that script again. On four processors beside other work the whole took three minutes.
"""

import argparse
import collections
import functools
import json
import multiprocessing
import os
import subprocess
import sys
import tempfile
import time

from answers import Late, Wrong
from refusals import BENCH, HUB, PLACES, TOP, Stdin, Tools, Violation, build_shim, check_program, ended
from rows import REMOVE, SCENES, SCRIPTS, bare, batch
from scarce import try_scarce

HOWS = ["once", "until the answer", "for ever"]
TEXT = b'{"error":"out_of_memory","reason":"out of memory"}\n'
LINES = b"HTTP/1.1 503 Service Unavailable\r\nContent-Type: application/json\r\nContent-Length: 51\r\n"
REFUSED = [LINES + b"\r\n" + TEXT, LINES + b"Connection: close\r\n\r\n" + TEXT]
# The refusals of a HEAD. The second is for a request that could not be read.
REFUSED_HEADS = [LINES + b"\r\n", REFUSED[1]]
COLUMNS = ["growths", "runs", "refused", "start", "closed", "503", "cut", "same"]
COLUMNS += ["before", "behind", "unnoted", "stopped"]
ALL = {**SCRIPTS, **SCENES}
# How the names of left out tests begin. Most end where a growth of their own is refused, which they do not
# make again.
OWN_GROWTHS = (
    "hint_tests::",
    "id_tests::",
    "random_tests::",
    "tests::long_lists_are_searched",
    # The threads wait for one another: where a thread finds no memory and ends, another one waits for ever.
    "tests::locks::a_held_database_holds_no_other_call",
    # The test has two threads and 2,000 edits: no run is like another run.
    "tests::threads::a_follower_beside_a_writer",
)


class Ample:
    """The answers to a script with ample memory, and how many growths they took."""

    def __init__(self, tools, script, place):
        hub = PLACES[place](tools)
        try:
            self.raws = [hub.make(step).raw for step in script.steps]
            self.growths = tools.get("asked")
            self.feeds = {client: feed.raw for client, feed in hub.feeds.items()}
            if hub.is_closed or getattr(hub, "lost", None) or hub.end() != 0:
                raise Violation("with ample memory the script does not come to its end")
        finally:
            hub.kill()


def requests_of(steps):
    return [it.data for it in steps if it.kind == "ask"]


def behind(script, number):
    """The requests after a step: a look at the state, the step again, the later steps, and a last look."""
    return [*script.shown, *requests_of(script.steps[number:]), *script.shown]


@functools.lru_cache(None)
def shown_behind(tools, name, number, inserted):
    """The answers to the requests after a step, with ample memory, where other requests replace the step."""
    script = ALL[name]
    hub = Stdin(tools)
    try:
        for data in [*requests_of(script.steps[:number]), *inserted]:
            hub.ask("", data)
        return [hub.ask("", data).raw for data in behind(script, number)]
    finally:
        hub.kill()


def fronts(data):
    """The batches that may have been stored of a request that is a batch: its beginnings."""
    if not data.startswith(b"POST /d/_bulk_docs ") or b"\r\n\r\n{" not in data:
        return []
    asked = json.loads(data.split(b"\r\n\r\n", 1)[1])
    return [batch(asked["docs"][:count], asked["new_edits"]) for count in range(1, len(asked["docs"]))]


def alternatives(step, kind):
    """The states that may follow a step: a column of the table, and the requests in the place of the step."""
    if step.kind != "ask" or kind in ("cut", "closed"):
        return [("before", ())]
    if kind == "same":
        return [("same", (step.data,))]
    return [("before", ()), ("behind", (step.data,)), *(("stopped", (it,)) for it in fronts(step.data))]


def is_unnoted(requests, got, before, wanted):
    """Whether the answers are as wanted, but that the log of updates has no note of the write."""
    looks = [at for at, data in enumerate(requests) if data.startswith(b"GET /_db_updates")]
    others = [at for at in range(len(requests)) if at not in looks]
    return got[looks[0]] == before[looks[0]] and all(got[at] == wanted[at] for at in others)


def state_behind(tools, name, number, kind, got):
    """The state after a step, by the answers to the requests after it."""
    script = ALL[name]
    before, nearest = shown_behind(tools, name, number, ()), (-1, None)
    for state, inserted in alternatives(script.steps[number], kind):
        wanted = shown_behind(tools, name, number, inserted)
        if got == wanted:
            return state
        if state in ("behind", "stopped") and is_unnoted(behind(script, number), got, before, wanted):
            return "unnoted"
        at = next(at for at, (one, other) in enumerate(zip(got, wanted)) if one != other)
        nearest = max(nearest, (at, wanted[at]))
    at, wanted = nearest
    told = "the state behind %r is none that may stand there: %r is answered %r, and not %r"
    raise Violation(told % (script.steps[number], behind(script, number)[at], got[at], wanted))


def kind_of(hub, step, got, wanted):
    """The kind of an answer: as with ample memory, a refusal, a front, or no byte."""
    if got is None or step.client in getattr(hub, "lost", ()):
        return "cut"
    if got.raw == wanted:
        return "same"
    is_head = step.kind == "ask" and step.data.startswith(b"HEAD ")
    if got.raw in (REFUSED_HEADS if is_head else REFUSED):
        return "503"
    if got.chunks is not None and not got.is_whole and wanted.startswith(got.raw):
        return "cut"
    if not got.raw and got.is_first:
        return "closed"
    raise Violation("%r is answered %r, and not %r" % (step, got.raw, wanted))


def first_refused(hub, script, ample):
    """Runs the script to the step that meets the refusal. Returns the step's number and its answer."""
    for number, (step, wanted) in enumerate(zip(script.steps, ample.raws)):
        got = hub.make(step)
        if hub.is_refused():
            return number, got
        if got.raw != wanted:
            raise Violation("before any refusal %r is answered %r, and not %r" % (step, got.raw, wanted))
    return None, None


def look_behind(hub, script, number):
    """Looks at the state after a step, and makes the step and all later ones again. Returns the answers."""
    got = [hub.ask("control", data).raw for data in script.shown]
    for step in script.steps[number:]:
        if step.kind == "open" and step.client in hub.feeds:
            continue
        answer = hub.make(step)
        if step.kind == "ask":
            got.append(answer.raw)
    return got + [hub.ask("control", data).raw for data in script.shown]


def go_on(hub, script, ample, number, counted):
    """Makes the later steps without memory: each answer is a refusal, or as with ample memory."""
    for step, wanted in list(zip(script.steps, ample.raws))[number + 1 :]:
        if hub.is_closed:
            return
        if step.kind in ("ask", "open"):
            counted[kind_of(hub, step, hub.make(step), wanted)] += 1


def check_end(hub, ample, is_whole):
    """Checks that feeds are fronts, and then the status. Requests between give waiting feeds an item."""
    hub.tools.allow()
    for client, feed in hub.feeds.items():
        same = feed.raw == ample.feeds[client]
        if not ample.feeds[client].startswith(feed.raw) or is_whole and not same and client not in hub.lost:
            raise Violation("the feed of %s is %r, and not %r" % (client, feed.raw, ample.feeds[client]))
    if hub.feeds:
        for data in (bare("PUT", "/z"), REMOVE):
            hub.ask("control", data)
    status, wanted = hub.end(), hub.wanted_status()
    if status != wanted:
        raise Violation("the status is %d, and not %d" % (status, wanted))


def run_refused(hub, name, ample, how, counted):
    """Runs a script on a hub that is refused memory, and counts answers. Says whether it met a refusal."""
    script = ALL[name]
    number, got = first_refused(hub, script, ample)
    if number is None:
        check_end(hub, ample, True)
        return False
    kind = kind_of(hub, script.steps[number], got, ample.raws[number])
    if kind == "closed" and number == 0 and hub.has_failed_to_start():
        counted.update(start=1, refused=hub.tools.get("refused"))
        return True
    counted[kind] += 1
    if how == "for ever":
        go_on(hub, script, ample, number, counted)
        counted["refused"] += hub.tools.get("refused")
        check_end(hub, ample, False)
        return True
    hub.tools.allow()
    shown = None if hub.is_closed else look_behind(hub, script, number)
    counted["refused"] += hub.tools.get("refused")
    check_end(hub, ample, True)
    if shown is not None:
        state = state_behind(hub.tools, name, number, kind, shown)
        counted[state] += state != "same"
    return True


def try_script(tools, name, place, how, stride, growth):
    """Runs a script with each growth refused. Returns the counts and the violations."""
    counted, violations = collections.Counter(), []
    ample = Ample(tools, ALL[name], place)
    counted["growths"] = ample.growths
    first, is_met = growth or 1, True
    while is_met and len(violations) < 3:
        hub = PLACES[place](tools, first, how != "once")
        counted["runs"] += 1
        try:
            is_met = run_refused(hub, name, ample, how, counted)
        except (Violation, Wrong, Late, OSError) as error:
            told = "script '%s' over %s, growth %d refused %s: %s" % (name, place, first, how, error)
            told += "\n    the last that was asked: %r; the status: %r" % (hub.last, hub.process.poll())
            told += "\n    the script:"
            violations.append(told + "".join("\n    %r" % it for it in ALL[name].steps))
        finally:
            hub.kill()
        first += stride
        is_met = is_met and not growth
    return counted, violations


def try_test(tools, program, test, most):
    """Runs a test with each growth refused, or with ever fewer of them beyond the first `most` growths."""
    counted, violations = collections.Counter(), []
    first, is_met = 0, True
    while is_met and not violations:
        process = tools.start([program], [test], first, stderr=subprocess.PIPE, stdin=subprocess.DEVNULL)
        try:
            wrote, complained = process.communicate(timeout=60)
            status = ended(process)
        except subprocess.TimeoutExpired:
            process.kill()
            wrote, complained = process.communicate()
            status = "none within 60 seconds"
        except Violation as error:
            status = str(error)
        if status != 0 or not wrote.endswith(b"\ntest result: ok\n"):
            told = "test %s, growth %d refused once: status %s, %r" % (test, first, status, complained[-500:])
            violations.append(told)
        is_met = first == 0 or tools.get("refused") > 0
        if first == 0:
            counted["growths"] = tools.get("asked")
        counted["refused"] += tools.get("refused")
        counted["runs"] += 1
        first += 1 + first // most
    return counted, violations


def begin(shim, program):
    """Makes the tools of a process of the pool: its folder, and the words that it shares with the shim."""
    global TOOLS
    TOOLS = Tools(os.path.dirname(shim), shim, program)


def work(task):
    """Does a task in a process of the pool."""
    kind, arguments = task
    call = {"script": try_script, "scarce": try_scarce, "test": try_test}[kind]
    try:
        return (task, *call(TOOLS, *arguments))
    except (Violation, Wrong, Late, OSError) as error:
        return task, collections.Counter(), ["%s: %s" % (task, error)]


def work_all(shim, program, tasks):
    """Does all tasks, as many at once as there are processors."""
    context = multiprocessing.get_context("fork")
    processors = len(os.sched_getaffinity(0))
    with context.Pool(processors, begin, (shim, program)) as pool:
        return list(pool.imap_unordered(work, tasks, 1))


def tasks_asked(options):
    """The tasks. Tasks that take long come first."""
    stride, seconds = (9, 5) if options.short else (1, 60)
    tasks = [("scarce", ("one in", number, seconds)) for number in (1000, 50)]
    limits = (12, 60, 200) if options.short else (12, 20, 30, 40, 50, 60, 80, 100, 120, 150, 200)
    tasks += [("scarce", ("megabytes", it, 3 if options.short else 10)) for it in limits]
    if options.growth:
        tasks = []
    for name in ALL:
        for place in ("TCP",) if name in SCENES else ("stdin", "TCP"):
            tasks += [("script", (name, place, how, stride, options.growth)) for how in HOWS]
    return [it for it in tasks if options.only in label(it)]


def tests_asked(crates, most):
    tasks = []
    for crate in crates:
        program = os.path.join(TOP, "crates", crate, "out", crate + "_tests")
        if not os.access(program, os.X_OK):
            sys.exit("no program %s: run `rt test` in crates/%s first" % (os.path.relpath(program), crate))
        listed = subprocess.run([program, "--list"], stdout=subprocess.PIPE, check=True).stdout.decode()
        names = [line[: -len(": test")] for line in listed.splitlines() if line.endswith(": test")]
        tasks += [("test", (program, name, most)) for name in names if not name.startswith(OWN_GROWTHS)]
    return tasks


def label(task):
    kind, arguments = task
    if kind == "script":
        return "%s, %s" % (arguments[0], arguments[1])
    if kind == "test":
        return os.path.basename(arguments[0])
    return "eight clients, %s %d" % arguments[:2]


def tell(results, columns, labels):
    """Prints the table: a line for each label, and a line for all."""
    lines, total = collections.defaultdict(collections.Counter), collections.Counter()
    for task, counted, _ in results:
        # Each way of refusing runs the same script, so its growths count once.
        growths = max(lines[label(task)]["growths"], counted["growths"])
        lines[label(task)].update(counted)
        if task[0] == "script":
            lines[label(task)]["growths"] = growths
    wide = max(map(len, labels), default=0) + 2
    print(" " * wide + "".join("%11s" % it for it in columns))
    for name in labels:
        print(name.ljust(wide) + "".join("%11d" % lines[name][it] for it in columns))
        total.update(lines[name])
    print("all".ljust(wide) + "".join("%11d" % total[it] for it in columns), flush=True)


def report(results, tasks, columns):
    """Prints the tables and the violations, and returns the status."""
    for is_scarce in (False, True):
        asked = [it for it in tasks if (it[0] == "scarce") == is_scarce]
        if asked:
            some = [it for it in results if it[0] in asked]
            tell(some, SCARCE if is_scarce else columns, list(dict.fromkeys(map(label, asked))))
    violations = [text for _, _, some in results for text in some]
    for text in violations:
        print("VIOLATION: " + text, file=sys.stderr)
    return 1 if violations else 0


SCARCE = ["answers", "503", "closed", "cut", "behind", "stored", "rows", "refused"]
# The kinds of wrong answers, each with the script whose run has to show it.
FAULTS = {"leaves-out": "two documents", "claims": "two documents"}


def try_faults(shim, program):
    """Puts a process that answers wrongly before the hub. Returns 0 where each fault is seen, else 1."""
    seen = 0
    for fault, name in FAULTS.items():
        between = [sys.executable, "-B", "-I", "-S", os.path.join(BENCH, "wrong_hub.py"), fault, program]
        tasks = [("script", (name, "stdin", "once", 1, growth)) for growth in range(1, 200)]
        violations = [text for _, _, some in work_all(shim, between, tasks) for text in some]
        print("%s: %d runs of the script '%s' break a rule" % (fault, len(violations), name))
        if violations:
            print("    the first: " + violations[0].splitlines()[0])
            seen += 1
    print("%d of %d faults were seen" % (seen, len(FAULTS)))
    return 0 if seen == len(FAULTS) else 1


def main():
    parser = argparse.ArgumentParser(description=__doc__.split("\n\n")[0])
    parser.add_argument("--short", action="store_true", help="every ninth growth alone, and less load")
    parser.add_argument("--only", default="", help="lines of the table whose name has this text")
    parser.add_argument("--growth", type=int, default=0, help="this growth alone")
    parser.add_argument("--tests", nargs="+", metavar="CRATE", help="the tests of these crates, and no scripts")
    parser.add_argument("--wrong", action="store_true", help="sees that wrong answers are seen")
    parser.add_argument("--program", default=HUB, help="a program of the same commands in the hub's place")
    options = parser.parse_args()
    began = time.monotonic()
    with tempfile.TemporaryDirectory() as folder:
        shim = build_shim(folder)
        if not options.tests:
            check_program(options.program)
        if options.wrong:
            return try_faults(shim, options.program)
        if options.tests:
            tasks, columns = tests_asked(options.tests, 50 if options.short else 500), COLUMNS[:3]
        else:
            tasks, columns = tasks_asked(options), COLUMNS
        status = report(work_all(shim, [options.program], tasks), tasks, columns)
    print("%d seconds, %s" % (time.monotonic() - began, "a rule was broken" if status else "no rule was broken"))
    return status


if __name__ == "__main__":
    sys.exit(main())
