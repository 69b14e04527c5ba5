#!/usr/bin/env python3
"""Counts forms that a change of the house should make fewer, in the product's crates or in the named crates.

    tools/shape.py            the counts
    tools/shape.py --list     and where each is

It counts lines of code, functions, and functions whose body is one call of a function of the same name (pass-ons). It
also counts clauses of contracts, those that stand more than once, `unreachable!()`, and calls that are made only for
the prover (`let _name = ..;`). Tests, crates of tests, their interpreter (`hub_transcript`) and `threads_bench` are
left out. The script reads texts, so a count is a place to look.
"""
import collections
import os
import re
import sys

TOP = os.path.dirname(os.path.dirname(os.path.realpath(__file__)))
CLAUSE = re.compile(r"\b(?:requires|ensures)\b(?: \w+)? \{")
HEAD = re.compile(r"^[ ]*(?:pub(?:\([^)]*\))? )?(?:const )?fn (\w+)", re.M)


def crates(words):
    names = sorted(os.listdir(f"{TOP}/crates"))
    product = [it for it in names if not it.endswith("_tests") and it not in ("hub_transcript", "threads_bench")]
    return words or product


def sources(crate):
    """The paths and texts of a crate's code, without its tests."""
    for at, _, names in sorted(os.walk(f"{TOP}/crates/{crate}/src")):
        for name in sorted(names):
            path = os.path.relpath(f"{at}/{name}", TOP)
            if name.endswith(".rt") and "tests" not in path.split("src/", 1)[1]:
                with open(f"{at}/{name}", encoding="utf-8") as it:
                    yield path, it.read()


def closing(text, at):
    """The place after the bracket that closes the bracket at this place."""
    depth = 0
    for place in range(at, len(text)):
        depth += {"{": 1, "}": -1}.get(text[place], 0)
        if depth == 0:
            return place + 1
    return len(text)


def clauses(text):
    """The beginnings, the ends and the texts of a text's clauses, without their layout and their names."""
    for found in CLAUSE.finditer(text):
        end = closing(text, found.end() - 1)
        kind = found[0].split()[0]
        yield found.start(), end, kind + " " + " ".join(text[found.end():end - 1].split())


def functions(text):
    """The names, places and bodies of a text's functions, without contracts. A missing body is empty."""
    for found in HEAD.finditer(text):
        at = found.end()
        while at < len(text) and text[at] not in "{;":
            clause = CLAUSE.match(text, at)
            at = closing(text, clause.end() - 1) if clause else at + 1
        body = text[at + 1:closing(text, at) - 1] if at < len(text) and text[at] == "{" else ""
        yield found[1], found.start(), " ".join(re.sub(r"//.*", "", body).split())


def is_pass_on(name, body):
    """Whether the body is one call of a function of this name, and returns the answer of the call."""
    one = re.fullmatch(r"(?:Ok\()?[\w:.&*<>\[\]() ]*?(?:\.|::)" + name + r"\((.*)\)\??;?\)?", body)
    return bool(one) and ";" not in body.rstrip(";") and "{" not in body


def main(words):
    lists = "--list" in words
    names = crates([it for it in words if not it.startswith("--")])
    counts, seen, places = collections.Counter(), collections.defaultdict(list), []
    for crate in names:
        for path, text in sources(crate):
            counts["lines"] += text.count("\n")
            for start, _, clause in clauses(text):
                seen[clause].append(f"{path}:{text.count(chr(10), 0, start) + 1}")
            for name, start, body in functions(text):
                counts["functions"] += 1
                if is_pass_on(name, body):
                    counts["pass-ons"] += 1
                    places.append(f"pass-on {path}:{text.count(chr(10), 0, start) + 1} {name}")
            code = re.sub(r"//.*", "", text)
            counts["unreachable!()"] += code.count("unreachable!()")
            counts["calls for the prover"] += len(re.findall(r"let _\w+ = [^;]*;", code))
    counts["clauses"] = sum(len(it) for it in seen.values())
    repeated = {clause: at for clause, at in seen.items() if len(at) > 1}
    counts["clauses that stand more than once"] = sum(len(it) for it in repeated.values())
    for what, count in counts.items():
        print(f"{count:7,d}  {what}")
    if lists:
        print(*places, sep="\n")
        for clause, at in sorted(repeated.items(), key=lambda it: -len(it[1])):
            print(f"{len(at)} times: {clause[:160]}\n    " + " ".join(at[:6]))


if __name__ == "__main__":
    main(sys.argv[1:])
