#!/usr/bin/env python3
"""Prints the lines of .rt and .antt files that are longer than 110 columns. Exit status 1 if there are any.

    tools/long_lines.py [FOLDER]     the files that git lists below this folder, or below the repository's top

A line passes that is one generated name alone, which nothing can break: `use M.{NAME}`. A line of a text that goes
over several lines, as a transcript, passes too: it is data.
"""
import os
import re
import subprocess
import sys

TOP = os.path.dirname(os.path.dirname(os.path.realpath(__file__)))
WIDTH = 110
ONE_NAME = re.compile(r"\s*(pub |ghost |use )*[^\s\",(){}]+(\{[^\s\",(){}]+\})?;?")

# The beginning of a text whose first line is empty, as it stands at a line's end: `"`, `r"` or `r#"`.
TEXT = re.compile(r'(?:^|[\s(])r?(#*)"$')


def outside_texts(lines):
    """The lines with their numbers, without the lines of texts that go over several lines."""
    end = None
    for number, line in enumerate(lines, 1):
        if end is not None:
            if re.search(end, line):
                end = None
            continue
        begin = TEXT.search(line)
        if begin:
            end = r'(?<!\\)"' + begin[1]
        yield number, line


def long_lines(folder):
    """The long lines of the files that git lists, each as 'FILE:LINE: COLUMNS: BEGINNING'."""
    listed = subprocess.run(
        ["git", "-C", folder, "ls-files", "-z", "*.rt", "*.antt"], capture_output=True, text=True, check=True
    )
    for file in filter(None, listed.stdout.split("\0")):
        with open(f"{folder}/{file}", encoding="utf-8") as it:
            lines = it.read().split("\n")
        for number, line in outside_texts(lines):
            if len(line) > WIDTH and not ONE_NAME.fullmatch(line):
                yield f"{file}:{number}: {len(line)} columns: {line.strip()[:60]}"


def main(folder=TOP):
    found = [*long_lines(folder)]
    print(*found, sep="\n", end="\n" if found else "")
    return 1 if found else 0


if __name__ == "__main__":
    sys.exit(main(*sys.argv[1:]))
