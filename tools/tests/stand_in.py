#!/usr/bin/python3 -IB
"""Stands for the program in tests: its answers have the program's form and none of its sense.

A statement costs 900000. A candidate is an index over one column of a table of the catalogue that a statement names; a
statement that names table and column costs a tenth of that under it, and one that writes its table 1000 more. Where a table
may be clustered there is a clustered candidate too, over columns with an index as well, under which such a statement costs
a twentieth. Advice is what saves something, or rules want, clustered ones before others and otherwise in the order of the
candidates, as long as it fits, one for a column and one clustered one for a table; its certificate says what is to be proved.
Statements that differ in literals are folded.
"""
from __future__ import annotations

import os
import re
import sys
import tomllib
from pathlib import Path

MOST = int(os.environ.get("STAND_IN_MOST", "256"))
"""How many picks an advice has at most."""
Index = tuple[str, str, int, bool]
"""The table, the column and the pages of a candidate, and whether it is clustered."""


def main() -> int:
    if len(sys.argv) < 4:
        print(__doc__)
        return 0
    command, catalogue, workload, *more = sys.argv[1:]
    listed = re.findall(r"^-- weight (\d+)\n((?:(?!^--).*\n?)*)", Path(workload).read_text(), re.MULTILINE)
    every = [(int(weight), text.lower()) for weight, text in listed]
    indexes = candidates(Path(catalogue).read_text(), " ".join(text for _, text in every))
    if command in ("cost", "whatif"):
        chosen = [int(it) for it in Path(more[0]).read_text().split()] if more else []
        print(f"size {sum(indexes[it - 1][2] for it in chosen)}")
        for at, (weight, text) in enumerate(every, 1):
            print(f"statement {at} weight {weight} cost {price(text, [indexes[it - 1] for it in chosen])}")
        print(f"total {total(every, [indexes[it - 1] for it in chosen])}")
    elif command in ("advise", "ruled"):
        is_ruled = command == "ruled"
        budget = int(more[0])
        print("must 0 never 0\n" * is_ruled, end="")
        certificate = advise(budget, every, indexes, Path(more[1]).read_text() if is_ruled else "")
        if "--cert" in more:
            Path(more[more.index("--cert") + 1]).write_text(certificate)
    elif command == "sweep":
        sweep(more, every, indexes)
    elif command == "retune":
        retune(Path(more[0]).read_text(), int(more[1]), every, Path(catalogue).read_text())
    elif command == "candidates":
        for at, it in enumerate(indexes[:256], 1):
            print(f"{at} {shown(it)} {it[2]} pages")
        print(f"left over {max(0, len(indexes) - 256)}")
    elif command == "check":
        print(Path(more[0]).read_text().splitlines()[-1])
    elif command == "fold":
        print(folded(listed, Path(more[0])))
    elif command == "explain":
        print(f"statement {more[1]} plan 900000 upkeep 0")
    return 0


def shown(index: Index) -> str:
    return f"{index[0]}({index[1]}){' clustered' * index[3]}"


def advise(budget: int, every: list[tuple[int, str]], indexes: list[Index], rules: str = "") -> str:
    """Prints advice; its certificate."""
    picks, size, cost, certificate = advised(budget, every, indexes, rules)
    print(f"budget {budget}\ncandidates {len(indexes)} left over 0")
    for at in picks:
        print(f"pick {at} {shown(indexes[at - 1])} {indexes[at - 1][2]} pages")
    print(f"size {size}\ncost {cost}\nbound {cost}\ngap 0\nnodes 1 of 20000\nfinished")
    return certificate


def retune(edits: str, budget: int, every: list[tuple[int, str]], catalogue: str) -> None:
    """Prints advice wherever the edits ask for it."""
    count = 0
    for verb, *rest in (it.split(" ", 2) for it in edits.splitlines()):
        if verb == "add":
            every.append((int(rest[0]), rest[1].lower().replace(" where ", "\nwhere ")))
        elif verb == "remove":
            every.pop(int(rest[0]) - 1)
        elif verb == "weigh":
            every[int(rest[0]) - 1] = (int(rest[1]), every[int(rest[0]) - 1][1])
        else:
            count += 1
            print(f"advice {count}")
            advise(budget, every, candidates(catalogue, " ".join(text for _, text in every)))


def sweep(words: list[str], every: list[tuple[int, str]], indexes: list[Index]) -> None:
    """Prints the points of the words, and writes their certificates."""
    first, step, count = map(int, words[:3])
    for at in range(1, count + 1):
        budget = first + (at - 1) * step
        _, size, cost, certificate = advised(budget, every, indexes)
        print(f"point {at} budget {budget} size {size} cost {cost} bound {cost} best {cost} low {cost} nodes 1")
        Path(f"{words[words.index('--cert') + 1]}{at}").write_text(certificate)
    print("finished")


def advised(
    budget: int, every: list[tuple[int, str]], indexes: list[Index], rules: str = ""
) -> tuple[list[int], int, int, str]:
    """The picks, their pages, the cost, and a certificate."""
    size, picks, lines = 0, list[int](), rules.splitlines()
    for at, it in sorted(enumerate(indexes, 1), key=lambda it: (f"must {shown(it[1])}" not in lines, not it[1][3])):
        is_good = total(every, [it]) < total(every, []) or f"must {shown(it)}" in lines
        others = [indexes[other - 1] for other in picks]
        is_free = not any(it[0] == other[0] and (it[1] == other[1] or it[3] and other[3]) for other in others)
        is_allowed = not {f"never {shown(it)}", f"never {it[0]}.{it[1]}"} & {*lines}
        if is_good and is_free and len(picks) < MOST and size + it[2] <= budget and is_allowed:
            picks, size = picks + [at], size + it[2]
    picks.sort()
    cost = total(every, [indexes[it - 1] for it in picks])
    config = "".join(f" {it}" for it in picks)
    return picks, size, cost, f"config{config}\nproved cost {cost} bound {cost} budget {budget}\n"


def folded(listed: list[tuple[str, str]], out: Path) -> str:
    """Writes each first statement of a form with the weight of all."""
    groups: dict[str, tuple[str, int]] = {}
    for weight, text in listed:
        form = re.sub(r"'[^']*'|\b\d+\b", "?", text)
        first, known = groups.get(form, (text, 0))
        groups[form] = (first, known + int(weight))
    parts = ((weight, re.findall(r"'[^']*'|\w+|[^\w\s;]+", first)) for first, weight in groups.values())
    out.write_text("".join(f"-- weight {weight}\n{' '.join(tokens)} ;\n" for weight, tokens in parts))
    return f"statements {len(listed)} folded {len(groups)} total 0"


def candidates(catalogue: str, texts: str) -> list[Index]:
    """The candidates."""
    found = list[Index]()
    for table in tomllib.loads(catalogue)["table"]:
        keys = {tuple(it["keys"][:1]) for it in table.get("index", ())}
        for it in table["column"]:
            is_named = all(re.search(rf"\b{name.lower()}\b", texts) for name in (table["name"], it["name"]))
            if is_named and "postgres_no_key" not in it and it.get("postgres") != "":
                flags = [False] * ((it["name"],) not in keys) + [True] * table.get("may_cluster", False)
                found += ((table["name"], it["name"], table["pages"] // 4 + 2, flag) for flag in flags)
    return found


def price(text: str, indexes: list[Index]) -> int:
    cost = 900000
    for table, column, _, is_clustered in indexes:
        names = re.search(rf"\b{table.lower()}\b", text)
        if names and not text.startswith("select"):
            cost += 1000
        elif names and re.search(rf"\b{column.lower()}\b", text.partition("\nwhere")[2]):
            cost = min(cost, 45000 if is_clustered else 90000)
    return cost


def total(every: list[tuple[int, str]], indexes: list[Index]) -> int:
    return sum(weight * price(text, indexes) for weight, text in every)


if __name__ == "__main__":
    sys.exit(main())
