#!/usr/bin/python3 -IB
"""A fleet of made databases on a local cluster: throughput by workers, a worker's memory, and what Dask takes.

By the clock it wants a machine with nothing else at work; the processor's time says more on one that others use.
"""
import argparse
import asyncio
import os
import resource
import sys
import tempfile
import time
from pathlib import Path

ROOT = Path(__file__).resolve().parent.parent
sys.path[:0] = [str(ROOT / "tools" / "fleet"), str(ROOT / "tools" / "common"), str(ROOT / "bench")]

from cophy_fleet.cluster import client  # noqa: E402
from cophy_fleet.run import Run  # noqa: E402
from cophy_fleet.settings import Database, Fleet  # noqa: E402
from cophy_fleet.store import opened  # noqa: E402
from cophy_fleet import points  # noqa: E402
from cophy_fleet.calls import Settings  # noqa: E402
import generator  # noqa: E402

TASKS = 2000
"""How many tasks without work are tried."""
BUILT = ROOT / "crates" / "cophy_cli" / "out" / "cophy_cli"


def peak() -> float:
    """The largest resident set of a worker's process, in MiB."""
    return resource.getrusage(resource.RUSAGE_SELF).ru_maxrss / 1024


def spent() -> tuple[float, float]:
    """The processor's seconds of a worker's process, and of the programs that it called and that have ended."""
    mine, called = (resource.getrusage(it) for it in (resource.RUSAGE_SELF, resource.RUSAGE_CHILDREN))
    return mine.ru_utime + mine.ru_stime, called.ru_utime + called.ru_stime


def nothing(number: int) -> int:
    """A task without work."""
    return number


async def measure(fleet: Fleet, workers: int, program: str, folder: str) -> dict[str, float]:
    """The seconds of a run, without the cluster's start, and what it took."""
    settings = Settings(program, "cophy-pg", fleet.steps, fleet.nodes, fleet.timeout)
    faults: list[str] = []
    results = os.path.join(folder, f"results{workers}.sqlite")
    with opened(results, is_new=True) as store:
        async with client(None, workers) as found:
            before = await found.run(spent)
            began, used = time.monotonic(), time.process_time()
            await Run(found, fleet, settings, store, lambda answer, _: faults.append(answer.fault)).all()
            took, ours = time.monotonic() - began, time.process_time() - used
            after = await found.run(spent)
            theirs, called = (sum(after[it][at] - before[it][at] for it in after) for at in (0, 1))
            largest = max((await found.run(peak)).values())
            used = time.process_time()
            await found.gather(found.map(nothing, range(TASKS), pure=False))
            alone = (time.process_time() - used) / TASKS
            began = time.monotonic()
            await Run(found, fleet, settings, store, lambda *_: None).all()
            again = time.monotonic() - began
    bad = [it for it in faults if it]
    if bad:
        sys.exit(f"{len(bad)} databases have no answer: {bad[0]}")
    parts = {"run": ours, "workers": theirs, "program": called}
    return {"seconds": took, **parts, "peak": largest, "alone": alone, "again": again}


def direct(fleet: Fleet, program: str, folder: str, count: int) -> float:
    """The seconds that one database's calls take without a cluster, in the middle of some."""
    settings = Settings(program, "", fleet.steps, fleet.nodes, fleet.timeout)
    began = time.monotonic()
    for database in fleet.databases[:count]:
        for ending, name in (("catalogue.toml", database.catalogue), ("workload.sql", database.workload)):
            Path(folder, ending).write_bytes(Path(name).read_bytes())
        points.fold(folder, settings)
        points.fault_of(folder, points.sweep(folder, settings), settings)
    return (time.monotonic() - began) / count


def main() -> None:
    parser = argparse.ArgumentParser(description=__doc__)
    parser.add_argument("--databases", type=int, default=200)
    parser.add_argument("--tables", type=int, default=10)
    parser.add_argument("--statements", type=int, default=100)
    parser.add_argument("--workers", default="1,2,4")
    parser.add_argument("--program", default=str(BUILT))
    words = parser.parse_args()
    with tempfile.TemporaryDirectory() as folder:
        databases = []
        for seed in range(words.databases):
            files = [os.path.join(folder, f"db{seed}{ending}") for ending in (".toml", ".sql")]
            for name, text in zip(files, generator.texts(seed, words.tables, words.statements)):
                Path(name).write_text(text)
            databases.append(Database(f"db{seed}", catalogue=files[0], workload=files[1]))
        fleet = Fleet(tuple(databases))
        alone = direct(fleet, words.program, folder, min(20, len(databases)))
        print(
            f"{words.databases} databases of {words.statements} statements over {words.tables} tables, "
            f"{fleet.steps + 1} budgets each; {os.cpu_count()} processors"
        )
        print(f"without a cluster, one after the other: {1000 * alone:.1f} ms a database")
        print(f"{'':39}processor's ms a database")
        print("workers  seconds  databases/s  times one  run  workers  program  empty task ms  worker MiB  again s")
        first = None
        for workers in map(int, words.workers.split(",")):
            found = asyncio.run(measure(fleet, workers, words.program, folder))
            first = first or found["seconds"]
            rate = words.databases / found["seconds"]
            run, theirs, called = (1000 * found[it] / words.databases for it in ("run", "workers", "program"))
            print(
                f"{workers:7d}  {found['seconds']:7.1f}  {rate:11.1f}  {first / found['seconds']:9.2f}  "
                f"{run:3.0f}  {theirs:7.0f}  {called:7.0f}  {1000 * found['alone']:13.2f}  "
                f"{found['peak']:10.0f}  {found['again']:7.1f}",
                flush=True,
            )
            print(f"         10,000 databases at this rate: {10000 / rate / 60:.1f} minutes")


if __name__ == "__main__":
    main()
