"""Workloads of the generator as files, and what the product's commands say of them."""
import os
import re
from dataclasses import dataclass

from generator import texts
from measure import Run, need_status_0, run_once

# An amount of pages that every budget fits.
AMPLE = 10**12


@dataclass(frozen=True)
class Workload:
    """The generator's numbers."""

    seed: int
    tables: int
    statements: int

    @property
    def words(self) -> list[str]:
        return [str(self.seed), str(self.tables), str(self.statements)]

    def __str__(self) -> str:
        return "-".join(self.words)


def workload_of(text: str) -> Workload:
    seed, tables, statements = map(int, text.split("-"))
    return Workload(seed, tables, statements)


def put(workload: Workload, folder: str) -> tuple[str, str]:
    """The paths of the catalogue and of the statements, which are written."""
    paths = tuple(os.path.join(folder, f"{workload}.{end}") for end in ("toml", "sql"))
    for path, text in zip(paths, texts(workload.seed, workload.tables, workload.statements)):
        with open(path, "w") as file:
            file.write(text)
    return paths


def candidate_pages(program: str, workload: Workload, folder: str) -> int:
    """The pages of all candidates together."""
    run = run_once([program, "candidates", *put(workload, folder)])
    need_status_0(run, f"candidates of {workload}")
    return sum(int(pages) for pages in re.findall(r" (\d+) pages$", run.output.decode(), re.M))


def budget_of(share: int, pages: int) -> int:
    """So many of a hundred of the pages, and from 100 on an ample budget."""
    return AMPLE if share >= 100 else pages * share // 100


@dataclass
class Advice:
    """What `advise` or `bench` printed."""

    cost: int
    bound: int
    nodes: int
    finished: bool

    @property
    def gap(self) -> float:
        """Hundredths of the cost by which the bound falls short."""
        return max(0.0, 100 * (self.cost - self.bound) / max(1, self.cost))


def advice_of(run: Run) -> Advice:
    text = run.output.decode()
    told = {name: int(number) for name, number in re.findall(r"^(cost|bound|nodes) (-?\d+)", text, re.M)}
    return Advice(told["cost"], told["bound"], told["nodes"], text.endswith("finished\n"))
