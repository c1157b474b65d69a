#!/usr/bin/env -S python3 -IB
"""Programmes of workloads of the generator: how long one takes to make, and how long a bound, one over lists, a carried
one and a round of rent multipliers take, beside the numbers of templates and grants."""
import argparse
import os
import sys

sys.path.insert(0, os.path.dirname(os.path.realpath(__file__)))
from advice import Advice, add_options, made  # noqa: E402
from measure import print_row  # noqa: E402
from searches import numbers  # noqa: E402
from workloads import Workload  # noqa: E402

TABLES = 20
SEED = 1
STATEMENTS = (20, 100, 500)
HEADS = (
    "statements",
    "candidates",
    "parts",
    "templates",
    "grants",
    "programme ms",
    "bound us",
    "lists us",
    "opened us",
    "terms us",
    "carry us",
    "total us",
    "carried us",
    "improve us",
)
WIDTHS = (10, 10, 5, 9, 6, 12, 8, 8, 9, 8, 8, 8, 10, 10)
# What is hoped for at the most statements, in microseconds.
GOALS = {"bound": 20, "opened": 20, "carried": 5}


def unmet(told: dict[str, int]) -> list[str]:
    """The goals that the nanoseconds of a line don't meet. A bound is made anew, by `bound` or over lists that are made
    once, by `open_ledger`; a carried one is one of `bound_by`, where one candidate changes."""
    return [
        f"{name}: {told[name] / 1000:.1f} us in the place of {most}"
        for name, most in GOALS.items()
        if told[name] > 1000 * most
    ]


def print_line(told: dict[str, int]) -> None:
    counts = [told[name] for name in ("statements", "candidates", "parts", "templates", "grants")]
    calls = ("bound", "lists", "opened", "terms", "carry", "total", "carried", "improve")
    times = [f"{told[name] / 1000:.1f}" if name in told else "-" for name in calls]
    print_row((*counts, f"{told['programme'] / 1e6:.1f}", *times), WIDTHS)


def print_all(advice: Advice, workloads: list[Workload], rounds: int) -> None:
    texts = advice.printed([["programme", *workload.words, str(rounds)] for workload in workloads])
    print_row(HEADS, WIDTHS)
    for workload, text in zip(workloads, texts):
        told = numbers(text)
        print_line(told)
        if workload.statements >= max(STATEMENTS):
            for goal in unmet(told):
                print(f"  NOT MET: {goal}", flush=True)


def main() -> None:
    parser = argparse.ArgumentParser(description=__doc__)
    add_options(parser)
    parser.add_argument(
        "--rounds", type=int, default=7, help="how often each is measured; the fastest counts (default: 7)"
    )
    options = parser.parse_args()
    counts = STATEMENTS[:2] if options.quick else STATEMENTS
    with made(options) as advice:
        print_all(advice, [Workload(SEED, TABLES, count) for count in counts], options.rounds)


if __name__ == "__main__":
    main()
