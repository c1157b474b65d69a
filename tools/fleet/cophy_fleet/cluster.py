"""The cluster that a run uses: one of its own on this machine, or one that runs."""
from __future__ import annotations

import argparse
import asyncio
import logging
import os
import sys
import tempfile
from collections.abc import AsyncIterator
from contextlib import asynccontextmanager

import dask
from distributed import Client, LocalCluster
from rich.console import Console
from rich.progress import BarColumn, MofNCompleteColumn, Progress, TextColumn, TimeElapsedColumn, TimeRemainingColumn

from cophy_fleet.calls import Settings
from cophy_fleet.main import say
from cophy_fleet.run import Run
from cophy_fleet.settings import Fault, Fleet
from cophy_fleet.store import Answer, opened

MOST_NAMED = 20
"""How many databases without an answer are named at the end; each has a line of its own in the output."""

_SETTINGS = {
    # Else a process that begins anew just then, since it died twice or the machine is slow, is given up for good.
    "distributed.deploy.lost-worker-timeout": "1 hour",
    # The scheduler's own queue lets a task go whose inputs were lost with a worker, and waits for it for ever (2022.12).
    "distributed.scheduler.worker-saturation": "inf",
    # What Dask looks at for its dashboard, many times a second in each process; nobody looks at that here.
    "distributed.worker.profile.enabled": False,
    "distributed.worker.memory.monitor-interval": "1s",
    "distributed.admin.tick.interval": "1s",
    "distributed.admin.system-monitor.interval": "10s",
    "distributed.admin.system-monitor.disk": False,
    # The source of what calls for a task is looked up for each task, but for these modules: all.
    "distributed.diagnostics.computations.ignore-modules": [""],
}


def run_fleet(fleet: Fleet, words: argparse.Namespace, results: str) -> int:
    """Runs the fleet and tells what became of it."""
    limits = (fleet.steps, fleet.nodes, fleet.timeout)
    settings = Settings(os.path.abspath(words.program), words.exporter, *limits, fleet.fold)
    tally = Tally(fleet)
    with opened(results, is_new=True) as store, tally.bar:

        async def whole() -> None:
            async with client(words.scheduler, words.workers) as found:
                await Run(found, fleet, settings, store, tally.tell).all()

        asyncio.run(whole())
    return tally.end()


class Tally:
    """What is told while a run goes on, and at its end."""

    def __init__(self, fleet: Fleet) -> None:
        columns = (TextColumn("databases"), BarColumn(), MofNCompleteColumn(), TimeElapsedColumn())
        console = Console(stderr=True)
        self.bar = Progress(*columns, TimeRemainingColumn(), console=console, disable=not console.is_terminal)
        self.task = self.bar.add_task("", total=len(fleet.databases))
        self.new = self.kept = self.alone = 0
        self.faults: dict[str, str] = {}

    def tell(self, answer: Answer, is_new: bool) -> None:
        """Prints an answer, and counts it."""
        print(answer.line(is_new), flush=True)
        if answer.fault:
            self.faults[answer.database] = answer.fault
        else:
            self.new += is_new
            self.kept += not is_new
            self.alone += is_new and answer.advised_on == answer.checked_on
        self.bar.advance(self.task)

    def end(self) -> int:
        """Says what became of all, and gives the status."""
        say(f"{self.new} answered, {self.kept} unchanged, {len(self.faults)} without an answer")
        if self.alone:
            say(f"{self.alone} were checked by the worker that advised, since there was no other")
        for name, fault in sorted(self.faults.items())[:MOST_NAMED]:
            say(f"{name}: {fault}")
        return 1 if self.faults else 0


@asynccontextmanager
async def client(scheduler: str | None, workers: int) -> AsyncIterator[Client]:
    """A client of the cluster at an address, or of one of so many processes that ends with it."""
    if scheduler:
        try:
            found = await Client(scheduler, asynchronous=True)
        except (OSError, ValueError) as fault:
            raise Fault(f"the cluster at {scheduler} can't be reached: {fault}") from None
        async with found:
            yield found
        return
    with tempfile.TemporaryDirectory(prefix="cophy-fleet-") as folder, dask.config.set(_SETTINGS):
        # Others on this machine reach its ports, too; certificates that are made for the run keep them out.
        async with LocalCluster(
            n_workers=workers,
            threads_per_worker=1,
            processes=True,
            security=True,
            dashboard_address=None,
            local_directory=folder,
            silence_logs=logging.CRITICAL,
            asynchronous=True,
        ) as cluster, Client(cluster, asynchronous=True) as found:
            yield found
