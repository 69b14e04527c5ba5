#!/usr/bin/env python3
"""Counts a document's words, the median and the 90th percentile of a sentence's words, and the word 'what'.

    docs/prose.py [FILE ..]     these files, or README.md and docs/*.md
    docs/prose.py crates/*      the comments of the crates that these folders have

Code blocks, tables and headings are left out. A list's item ends a sentence, and so does a comment's end. The output
has a line for each file or folder.
"""
import glob
import os
import re
import statistics
import sys

TOP = os.path.dirname(os.path.dirname(os.path.realpath(__file__)))


def paragraphs(text):
    """The paragraphs and list items of a document, each on one line."""
    text = re.sub(r"(?ms)^```.*?^```", "\n", text)
    text = re.sub(r"(?m)^(#|\|).*$", "\n", text)
    text = re.sub(r"(?m)^\s*([-*]|\d+\.)\s+", "\n\n", text)
    return [" ".join(it.split()) for it in re.split(r"\n\s*\n", text) if it.strip()]


def sentences(text):
    """The sentences as lists of words. A code span counts as one word."""
    for paragraph in paragraphs(text):
        plain = re.sub(r"`[^`]*`", "CODE", paragraph)
        for sentence in re.split(r"(?<=[.!?])\s+(?=[^a-z])", plain):
            words = [it for it in sentence.split() if re.search(r"\w", it)]
            if words:
                yield words


def comments(folder):
    """The comments of a crate, each as a paragraph."""
    for part in ("src", "specs", "proofs"):
        for path in sorted(glob.glob(f"{folder}/{part}/**/*.*", recursive=True)):
            mark = {".rt": r"//[/!]?", ".antt": "--"}.get(os.path.splitext(path)[1])
            if mark and os.path.isfile(path):
                with open(path, encoding="utf-8") as it:
                    lines = [re.match(rf"\s*{mark}(.*)", line) for line in it]
                yield from ("".join((it[1] if it else "") + "\n" for it in lines), "\n")


def text_of(path):
    """The prose of a document, or the comments of a crate's folder."""
    if os.path.isdir(path):
        return "".join(comments(path))
    with open(path, encoding="utf-8") as it:
        return it.read()


def main(files):
    files = files or [f"{TOP}/README.md", *sorted(glob.glob(f"{TOP}/docs/*.md"))]
    for file in files:
        found = [*sentences(text_of(file))]
        if not found:
            continue
        lengths = sorted(map(len, found))
        words = sum(lengths)
        whats = sum(word.strip(".,;:()*_'\"").lower() == "what" for it in found for word in it)
        median, most = statistics.median(lengths), lengths[len(lengths) * 9 // 10]
        name = os.path.relpath(file, TOP)
        print(f"{name}: words {words}, sentence median {median:g}, 90% {most}, what {1000 * whats / words:.1f} per 1,000")


if __name__ == "__main__":
    main(sys.argv[1:])
