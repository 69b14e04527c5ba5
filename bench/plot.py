#!/usr/bin/env python3
"""Pictures of the last measurements.

    python3 bench/bench.py
    python3 bench/beside.py --keep hub=crates/changes_hub/out/changes_hub hyper=bench/hyper/target/release/hyper_hub
    python3 bench/plot.py

draws docs/pictures/growth.svg from bench/out/figures.json, and docs/pictures/beside.svg from
bench/out/beside.json. A picture whose figures are not there is left as it is. It takes Debian's
python3-matplotlib.
"""
import json
import os
import statistics
import sys

import matplotlib

matplotlib.use("svg")
import matplotlib.pyplot as pyplot
import matplotlib.ticker as ticker

TOP = os.path.dirname(os.path.dirname(os.path.abspath(__file__)))
FIGURES = os.path.join(TOP, "bench", "out")
PICTURES = os.path.join(TOP, "docs", "pictures")
# The panels of growth.svg: a title, the member of an entry by which its seconds are divided, and the cases.
PANELS = [
    (
        "One document, answer or row",
        "counted",
        [
            "pipelined PUTs",
            "pipelined GETs",
            "replicated batches",
            "feed with documents",
            "descending feed",
            "normal feed",
        ],
    ),
    (
        "One request",
        "requests",
        [
            "feed of 1,000 listed ids",
            "missing of 1,000 ids",
            "feeds from ten below the end",
            "empty feeds",
        ],
    ),
]


def read(name):
    """The figures in the file of this name, None where the file is not there."""
    path = os.path.join(FIGURES, name)
    if not os.path.exists(path):
        print("not measured: %s" % os.path.relpath(path, TOP), file=sys.stderr)
        return None
    with open(path, encoding="utf-8") as file:
        return json.load(file)


def save(figure, name):
    """Writes a picture, whose bytes are the same for the same figures."""
    os.makedirs(PICTURES, exist_ok=True)
    path = os.path.join(PICTURES, name)
    figure.savefig(path, metadata={"Date": None})
    pyplot.close(figure)
    print("drawn: %s" % os.path.relpath(path, TOP))


def draw_panel(axes, title, each, cases, entries):
    """Draws the time of each case by the number of documents."""
    for case in cases:
        row = sorted((e for e in entries if e["case"] == case), key=lambda e: e["documents"])
        sizes = [e["documents"] for e in row]
        times = [1e6 * e["seconds"] / e[each] for e in row]
        axes.loglog(sizes, times, marker="o", label=case)
    axes.set_title(title)
    axes.set_xlabel("documents of the database")
    axes.set_ylabel("processor time of the hub, µs")
    for axis in (axes.xaxis, axes.yaxis):
        axis.set_major_formatter(ticker.FormatStrFormatter("%g"))
    axes.yaxis.set_major_locator(ticker.LogLocator(subs=(1, 2, 5)))
    axes.grid(True, which="major", alpha=0.3)
    axes.legend(fontsize="small", loc="upper center", bbox_to_anchor=(0.5, -0.16), ncol=2)


def draw_growth(entries):
    """Draws how times grow with the number of documents."""
    figure, both = pyplot.subplots(1, 2, figsize=(11, 4.5), layout="constrained")
    for axes, (title, each, cases) in zip(both, PANELS):
        draw_panel(axes, title, each, cases, entries)
    save(figure, "growth.svg")


def draw_beside(cases):
    """Draws the rate of the hub by the rate of the server beside it, case by case."""
    figure, axes = pyplot.subplots(figsize=(8, 4), layout="constrained")
    names = [case["case"] for case in cases]
    for at, case in enumerate(cases):
        axes.barh(at, statistics.median(case["ratios"]), height=0.6, color="tab:blue", alpha=0.7)
        axes.plot(case["ratios"], [at] * len(case["ratios"]), ".", color="black")
    axes.axvline(1.0, color="black", linewidth=1)
    axes.set_yticks(range(len(names)), names)
    axes.invert_yaxis()
    axes.set_xlabel("%s's rate by %s's: a dot is a round, a bar the median" % (cases[0]["first"], cases[0]["other"]))
    save(figure, "beside.svg")


def main():
    matplotlib.rcParams.update({"svg.hashsalt": "hub", "svg.fonttype": "none"})
    growth, beside = read("figures.json"), read("beside.json")
    if growth is not None:
        draw_growth(growth["cases"])
    if beside is not None:
        draw_beside(beside)


if __name__ == "__main__":
    main()
