#!/usr/bin/python3 -IB
"""Compares `cophy` with PostgreSQL's planner: of queries with one index each, does the plan take it, and what does it cost?

The server that psql's environment names has the tables of tpch.sql and the extension hypopg. The index is hypothetical
there, and one that exists in the catalogue. `prepare` writes a case for each query, `ask` runs the program over the cases,
and `judge` compares.
"""
from __future__ import annotations

import argparse
import re
import statistics
import subprocess
import sys
from pathlib import Path

HERE = Path(__file__).resolve().parent
sys.path[:0] = [str(HERE.parent), str(HERE.parents[1] / "common")]

from cophy_pg.catalogue import catalogue_text  # noqa: E402
from cophy_pg.explain import Explainer, statement_of  # noqa: E402
from cophy_pg.parameters import Columns  # noqa: E402
from cophy_pg.picks import home_of, hypothetical, index_names  # noqa: E402
from cophy_pg.rewrite import Options, Rewriter  # noqa: E402
from cophy_pg.schema import Index  # noqa: E402
from cophy_pg.server import connected, reading  # noqa: E402
from cophy_pg.statistics import read_database  # noqa: E402

PAIR = re.compile(r"-- index (\w+) (.*)\n(.*);\n")
SETTINGS = [(page, is_plain) for page in ("4", "1.1") for is_plain in (True, False)]
PLAIN = Options(rows=False, limits=False, look_ups=False, deletes=False, insert_share=False)


def pairs() -> list[tuple[str, list[str], str]]:
    """The table, the columns and the query of each pair."""
    return [(it[1], it[2].split(", "), it[3]) for it in PAIR.finditer((HERE / "pairs.sql").read_text())]


def prepare(folder: Path) -> None:
    """Writes catalogues, workloads and words for the program, and what PostgreSQL says."""
    for number, (page, is_plain) in enumerate(SETTINGS):
        with connected() as server:
            server.rows(f"SET random_page_cost TO {page}")
            found, said = read_database(server, set(), set(), lambda _: None), []
            for at, (table, columns, query) in enumerate(pairs()):
                home = found.schema.tables[("public", table)]
                with reading(server):
                    name = hypothetical(server, home_of(server), home, columns, len(columns))
                    plan = Explainer(server, Columns()).explain(statement_of(query))
                said.append(f"{int(name in index_names(plan))} {plan['Total Cost']}")
                case = folder / f"{number}-{at}"
                home.indexes.append(Index("tried", "tried", columns))
                case.with_suffix(".toml").write_text(catalogue_text(found.schema, found.rates, []))
                home.indexes.pop()
                written = Rewriter(found.schema, PLAIN if is_plain else Options()).rewrite(query).statements
                case.with_suffix(".sql").write_text(";\n".join(written) + ";\n")
            (folder / f"{number}.said").write_text("\n".join(said))


def ask(folder: Path, program: str) -> None:
    """Runs the program over the cases."""
    for case in sorted(folder.glob("*.toml")):
        words = [program, "explain", str(case), str(case.with_suffix(".sql")), "/dev/null", "1"]
        case.with_suffix(".out").write_bytes(subprocess.run(words, capture_output=True, check=True).stdout)


def judge(folder: Path) -> None:
    """Prints a line for each setting."""
    print(
        "| random_page_cost | options | agree | both | neither | ours alone | PostgreSQL's alone | rank correlation | median ratio |"
    )
    print("|---|---|---|---|---|---|---|---|---|")
    for number, (page, is_plain) in enumerate(SETTINGS):
        counts, ours, theirs = {(it, other): 0 for it in (True, False) for other in (True, False)}, [], []
        for at, line in enumerate((folder / f"{number}.said").read_text().splitlines()):
            taken, cost = line.split()
            text = (folder / f"{number}-{at}.out").read_text()
            counts["index tried on " in text, taken == "1"] += 1
            ours.append(int(text.split()[3]) / 1000)
            theirs.append(float(cost))
        ratio = statistics.median(one / other for one, other in zip(ours, theirs))
        both, neither, own, other = counts[True, True], counts[False, False], counts[True, False], counts[False, True]
        print(
            f"| {page} | {'ranges alone' if is_plain else 'all'} | {both + neither} of {len(ours)} | {both} | {neither} | {own} | {other} "
            f"| {correlation(ours, theirs):.2f} | {ratio:.2f} |"
        )


def correlation(one: list[float], other: list[float]) -> float:
    """Spearman's rank correlation."""

    def ranks(values: list[float]) -> list[float]:
        ordered = sorted(values)
        return [(ordered.index(it) + len(ordered) - 1 - ordered[::-1].index(it)) / 2 for it in values]

    return statistics.correlation(ranks(one), ranks(other))


def main() -> None:
    """Takes the step, the folder of the cases and, for `ask`, the program."""
    parser = argparse.ArgumentParser(description=__doc__)
    parser.add_argument("step", choices=("prepare", "ask", "judge"))
    parser.add_argument("folder", type=Path)
    parser.add_argument("--program", default=str(HERE.parents[2] / "cophy"))
    words = parser.parse_args()
    words.folder.mkdir(exist_ok=True)
    if words.step == "prepare":
        prepare(words.folder)
    elif words.step == "ask":
        ask(words.folder, words.program)
    else:
        judge(words.folder)


if __name__ == "__main__":
    main()
