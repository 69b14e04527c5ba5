"""Proves a program's crates side by side, each as soon as the crates below it are proved, and builds the program.

It calls the kit's `rattle` itself. `rt` holds a lock on a crate and on all crates below it, and so proves one crate
at a time. A library that `rt lib` builds keeps its proofs, and each crate above it would load them. Here a library
keeps its statements alone, as under `rt ci`.
"""
import contextlib
import fcntl
import functools
import hashlib
import os
import re
import shutil
import signal
import subprocess
import sys
import time

PARTS = ("src", "specs", "proofs")
# The most processors that one proof gains from.
MOST_JOBS = 4
# The niceness that a proof gains for each unproved crate with a longer chain of crates above it.
STEP = 10
TARGET = "x86_64-unknown-linux-gnu"


def kit():
    """The folder of the kit that the command rt belongs to."""
    return os.path.dirname(os.path.dirname(os.path.realpath(shutil.which("rt"))))


class Crate:
    """A crate of crates.txt: its folder, its lines of code, and the libraries of repository and kit that it uses."""

    def __init__(self, top, name, line, listed):
        self.name, self.line, self.folder = name, line, f"{top}/crates/{name}"
        words = line.partition(":")[2].split()
        self.uses = [it for it in words if it in listed]
        self.of_kit = ["std", *[it for it in words if it not in listed]]
        self.is_program = os.path.isfile(f"{self.folder}/src/main.rt")
        self.root = "src/main.rt" if self.is_program else "src/lib.rt"
        self.out = f"{self.folder}/out/proved"
        self.rlib = f"{self.out}/{name}.rlib"

    def files(self):
        for part in PARTS:
            for at, _, names in os.walk(f"{self.folder}/{part}"):
                yield from (f"{at}/{name}" for name in names)

    @functools.cached_property
    def code(self):
        total = 0
        for file in self.files():
            if file.endswith(".rt"):
                with open(file, "rb") as it:
                    total += it.read().count(b"\n")
        return total

    def stamp(self, below):
        """A digest of its line of crates.txt, its files and the kit. `below` has the digests of the crates below."""
        total = hashlib.sha256(f"{self.line}\n{below}\n".encode())
        for file in [f"{kit()}/WHAT", *sorted(self.files())]:
            with open(file, "rb") as it:
                data = it.read()
            total.update(f"{os.path.relpath(file, self.folder)} {len(data)}\n".encode())
            total.update(data)
        return total.hexdigest()


def read_crates(top, name):
    """The crate of this name and all crates below it, by name, the lowest first."""
    with open(f"{top}/crates.txt", encoding="utf-8") as it:
        lines = [line.partition("#")[0].strip() for line in it]
    listed = {line.partition(":")[0].split()[0]: line for line in lines if ":" in line}
    found = {}

    def add(name):
        if name not in found:
            crate = Crate(top, name, listed[name], listed)
            for it in crate.uses:
                add(it)
            found[name] = crate

    add(name)
    return found


def below(crates, name):
    """The names of all crates below this crate, the lowest first."""
    seen = set()

    def visit(name):
        for it in crates[name].uses:
            if it not in seen:
                seen.add(it)
                visit(it)

    visit(name)
    return [it for it in crates if it in seen]


def is_built(top, program):
    """Whether the program is there, and none of its sources is newer than the start of its last build."""
    out = f"{top}/crates/{program}/out"
    if not os.access(f"{out}/{program}", os.X_OK) or not os.path.isfile(f"{out}/built"):
        return False
    since = os.stat(f"{out}/built").st_mtime_ns
    files = [it for crate in read_crates(top, program).values() for it in crate.files()]
    return all(os.stat(it).st_mtime_ns <= since for it in [f"{top}/crates.txt", *files])


def processors():
    """The number of processors that this process may use, so that `taskset` bounds a build."""
    return len(os.sched_getaffinity(0))


def free_memory():
    """The bytes of memory that are free now."""
    with open("/proc/meminfo", encoding="ascii") as it:
        return 1024 * int(re.search(r"MemAvailable:\s+(\d+)", it.read())[1])


def code_below(crates, name):
    """The lines of code of all crates below a crate."""
    return sum(crates[it].code for it in below(crates, name))


def memory_of(crates, name, jobs):
    """The bytes that a proof of the crate takes at most, by the lines of code below it and its jobs, as measured."""
    return (1e9 + 4e4 * code_below(crates, name)) * (1 + 0.5 * (jobs - 1))


def work_of(crates, name):
    """The time of a proof of the crate beside other proofs, in lines of code, as measured. A proof reads the statements
    of the crates below, and begins and ends with steps that use one processor."""
    return 1500 + crates[name].code + code_below(crates, name) / 10


def words_of(crates, name):
    """The arguments by which rattle finds a crate and the libraries below it."""
    crate, libraries = crates[name], f"{kit()}/rlibs"
    words = ["--crate-name", name, crate.root, "--links", f"{name}="]
    words += ["--antt-project", f"{kit()}/rattle/logic/antt-project.json"]
    for it in crate.of_kit:
        words += ["--extern", f"{it}={libraries}/{it}.rlib"]
    for it in crate.uses:
        words += ["--extern", f"{it}={crates[it].rlib}"]
    for at in [libraries, *[crates[it].out for it in below(crates, name)]]:
        words += ["-L", f"dependency={at}"]
    return words


def steps_of(crates, name, jobs):
    """The commands that prove a crate and build it, one after the other. A library is checked first, since a build does
    not tell of its functions one by one. The program is built at once: it has few functions, and reads all
    libraries."""
    crate, rattle, words = crates[name], f"{kit()}/bin/rattle", words_of(crates, name)
    proves = ["--logic-built", f"{kit()}/logic_built", "--jobs", str(jobs)]
    if not crate.is_program:
        checked = f"{crate.out}/checked"
        check = [rattle, "check", *words, *proves, "--statements", "--progress", "-o", checked]
        return [check, [rattle, "build", *words, "--crate-checked", checked, "-o", crate.rlib]]
    program, toolchain = f"{crate.folder}/out/{name}", ["--toolchain", f"{kit()}/toolchain"]
    build = [rattle, "build", *words, *proves, *toolchain, "-o", f"{program}.o"]
    link = [f"{kit()}/bin/rattle-link", "--target", TARGET, *toolchain, "-o", program, f"{program}.o"]
    return [build, [*link, *[f"{kit()}/c/{it}" for it in ("libos_c.a", "liblibc_c.a")]]]


class Screen:
    """Shows the state of the build: on a terminal one line that is rewritten, elsewhere a line for each crate."""

    def __init__(self, count):
        self.count, self.begun, self.proved = count, time.monotonic(), 0
        self.is_terminal = sys.stderr.isatty()

    def clock(self):
        minutes, seconds = divmod(int(time.monotonic() - self.begun), 60)
        return f"{minutes:2d}:{seconds:02d}"

    def say(self, text):
        clear = "\r\x1b[K" if self.is_terminal else ""
        print(f"{clear}hub: {self.clock()}  {text}", file=sys.stderr, flush=True)

    def end(self, name, how):
        self.proved += 1
        self.say(f"{self.proved:2d} of {self.count} crates: {name} {how}")

    def show(self, running):
        if not self.is_terminal:
            return
        now = ", ".join(f"{it.name} {it.done} of {it.functions or '..'}" for it in running)
        line = f"hub: {self.clock()}  {self.proved} of {self.count} crates; functions proved: {now}"
        width = shutil.get_terminal_size().columns - 1
        print(f"\r\x1b[K{line[:width]}", end="", file=sys.stderr, flush=True)


class Proof:
    """A running proof of a crate, and the number of its functions that are proved so far."""

    def __init__(self, crates, name, jobs, niceness):
        crate = crates[name]
        self.name, self.jobs, self.folder, self.niceness = name, jobs, crate.folder, niceness
        self.done, self.functions, self.at = 0, 0, 0
        shutil.rmtree(crate.out, ignore_errors=True)
        os.makedirs(crate.out)
        self.log = f"{crate.folder}/out/build.log"
        open(self.log, "wb").close()
        self.steps = steps_of(crates, name, jobs)
        self.start_next()

    def start_next(self):
        words = ["nice", "-n", str(self.niceness), *self.steps.pop(0)]
        with open(self.log, "ab") as out:
            how = {"stdin": subprocess.DEVNULL, "stdout": out, "stderr": subprocess.STDOUT}
            # Each proof has a group of processes of its own, in one session. Linux shares processors among sessions
            # whatever their niceness is (sched_autogroup).
            self.process = subprocess.Popen(words, cwd=self.folder, preexec_fn=os.setpgrp, **how)

    def has_ended(self):
        """Begins the next step where a step has ended well. Says whether the last step has ended, or a step failed."""
        status = self.process.poll()
        if status == 0 and self.steps:
            self.start_next()
            return False
        return status is not None

    def read(self):
        """Takes in the lines that the proof has written since the last call."""
        with open(self.log, "rb") as it:
            it.seek(self.at)
            text = it.read()
        self.at += len(text)
        for done, functions in re.findall(rb"^checked \S+, (\d+) of (\d+)$", text, re.M):
            self.done, self.functions = int(done), int(functions)
        for functions in re.findall(rb"^logic=proved functions=(\d+)", text, re.M):
            self.done = self.functions = int(functions)

    def stop(self):
        with contextlib.suppress(ProcessLookupError):
            os.killpg(self.process.pid, signal.SIGTERM)
        self.process.wait()

    def last_lines(self):
        with open(self.log, errors="replace") as it:
            return it.read().splitlines()[-20:]


class Build:
    """The proofs of a program's crates: the finished ones, and the running ones."""

    def __init__(self, top, program):
        self.crates = read_crates(top, program)
        self.screen, self.running, self.done = Screen(len(self.crates)), [], set()
        self.stamps, self.chain, self.memory = self.all_stamps(), self.chains(), free_memory()

    def all_stamps(self):
        stamps = {}
        for name, crate in self.crates.items():
            stamps[name] = crate.stamp(" ".join(stamps[it] for it in crate.uses))
        return stamps

    def chains(self):
        """For each crate the work of the longest chain from it upwards: these proofs wait for one another."""
        chain = {}
        for name in reversed([*self.crates]):
            above = [chain[it] for it in chain if name in self.crates[it].uses]
            chain[name] = work_of(self.crates, name) + max(above, default=0)
        return chain

    def is_kept(self, name):
        """Whether an earlier build proved the crate with the same sources."""
        try:
            with open(f"{self.crates[name].out}/stamp", encoding="ascii") as it:
                return it.read() == self.stamps[name]
        except OSError:
            return False

    def keep(self, name):
        """Notes that the crate is proved, with the sources that it had as the build began."""
        out = self.crates[name].out
        shutil.rmtree(f"{out}/checked", ignore_errors=True)
        with open(f"{out}/stamp", "w", encoding="ascii") as it:
            it.write(self.stamps[name])

    def take_kept(self):
        """Takes over the libraries that an earlier build proved. The sources below each of them are the same, too."""
        for name, crate in self.crates.items():
            if not crate.is_program and self.is_kept(name):
                self.done.add(name)
                self.screen.end(name, "proved before")

    def rank(self, name):
        """The number of unproved crates with a longer chain above them."""
        return sum(self.chain[it] > self.chain[name] for it in self.crates if it not in self.done)

    def ready(self):
        """The crates that can begin. The crate with the longest chain above it comes first."""
        begun = self.done | {it.name for it in self.running}
        found = [it for it in self.crates if it not in begun and self.done.issuperset(self.crates[it].uses)]
        return sorted(found, key=lambda it: -self.chain[it])

    def start_ready(self):
        """Starts as many proofs as processors and memory allow, each with as many jobs as it gains from. Where
        processors are short, the system serves the crate with the longest chain above it first."""
        for name in self.ready():
            jobs = min(MOST_JOBS, processors())
            while jobs > 1 and memory_of(self.crates, name, jobs) > self.room():
                jobs -= 1
            is_short = memory_of(self.crates, name, jobs) > self.room() or len(self.running) == processors()
            if self.running and is_short:
                return
            self.running.append(Proof(self.crates, name, jobs, min(STEP * self.rank(name), 19)))

    def room(self):
        """The bytes of memory that no running proof is likely to take."""
        return self.memory - sum(memory_of(self.crates, it.name, it.jobs) for it in self.running)

    def end(self, proof):
        """Takes in the end of a proof, and says whether the crate is proved."""
        proof.read()
        self.running.remove(proof)
        if proof.process.returncode:
            self.screen.say(f"{proof.name} is not proved; the whole log is {proof.log}")
            print(*proof.last_lines(), sep="\n", file=sys.stderr)
            return False
        self.keep(proof.name)
        self.done.add(proof.name)
        self.screen.end(proof.name, f"proved, {proof.functions} functions")
        return True

    def run(self):
        """Proves all crates, and says whether all are proved. A proved crate is kept, also where the build stops."""
        try:
            self.take_kept()
            while len(self.done) < len(self.crates):
                self.start_ready()
                time.sleep(0.2)
                for it in [*self.running]:
                    it.read()
                    if it.has_ended() and not self.end(it):
                        return False
                self.screen.show(self.running)
            return True
        except KeyboardInterrupt:
            self.screen.say("stopped; the next start goes on from here")
            return False
        finally:
            for it in self.running:
                it.stop()


def interrupt(*_):
    raise KeyboardInterrupt


def build(top, program):
    """Proves and builds the program, one build at a time. Says whether the program is built."""
    for it in (signal.SIGTERM, signal.SIGHUP):
        signal.signal(it, interrupt)
    out = f"{top}/crates/{program}/out"
    os.makedirs(out, exist_ok=True)
    with open(f"{out}/lock", "w") as lock:
        fcntl.flock(lock, fcntl.LOCK_EX)
        if is_built(top, program):
            return True
        with open(f"{out}/built.next", "w"):
            pass
        is_well = Build(top, program).run()
        if is_well:
            os.rename(f"{out}/built.next", f"{out}/built")
        return is_well
