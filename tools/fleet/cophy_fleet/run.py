"""A run over a fleet: what is asked of the cluster for each database, and what is done where a part of it fails.

Dask places, moves and retries tasks. For each database it gets two, one after the other: `advise`, and `check` that is held to
the workers that didn't advise; before them `export` where the inputs come from a server. It blames a worker's death on all
that waits there, so a database that is blamed has no fault yet: it is tried once more when the others are done and nothing
waits beside it.
"""
from __future__ import annotations

import asyncio
import math
import os
from collections.abc import Callable
from concurrent.futures import CancelledError
from contextlib import suppress
from dataclasses import replace
from typing import Any

from distributed import Client, Future, KilledWorker, Semaphore

from cophy_fleet import work
from cophy_fleet.calls import Failed, Settings
from cophy_fleet.outcomes import Checked
from cophy_fleet.settings import Database, Fault, Fleet
from cophy_fleet.store import Answer, Store, answer_of

ROOM = 8
"""How many databases are under way for each thread of the cluster: so many inputs lie in the workers' memory."""
PATIENCE = 300
"""The seconds for which a checking worker is awaited where there was one before."""
GLANCE = 1
"""The seconds between two looks at which workers are there."""
CHECKS = 2
"""How often a check is asked for, where all workers that it was held to go away or the advice has to be made anew."""


class Deserted(Exception):
    """No check has come to an end."""


LOST = (KilledWorker, Deserted, CancelledError, OSError)
"""What a database may meet with because of another one that was on the same worker."""

Told = Callable[[Answer, bool], None]


class Run:
    """A run. `tell` gets each answer, and whether it is new."""

    def __init__(self, client: Client, fleet: Fleet, settings: Settings, store: Store, tell: Told) -> None:
        self.client, self.fleet, self.settings, self.store, self.tell = client, fleet, settings, store, tell
        self.workers: dict[str, int] = {}
        self.most = 0
        self.gates: dict[str, Semaphore] = {}

    async def all(self) -> None:
        """Answers for each database of the fleet, the failures too."""
        client: Any = self.client  # its types say that nothing is awaited
        await client.wait_for_workers(1)
        for server in sorted({it.server for it in self.fleet.databases if it.service}):
            # Whoever uses the same cluster counts the same connections.
            name = f"cophy-fleet {self.fleet.connections} {server}"
            self.gates[server] = await Semaphore(self.fleet.connections, name)
        await self._look()
        room = asyncio.Semaphore(ROOM * sum(self.workers.values()))
        lost: list[Database] = []

        async def one(database: Database) -> None:
            async with room:
                if not await self._answered(database, is_alone=False):
                    lost.append(database)

        async def each() -> None:
            await asyncio.gather(*(one(it) for it in self.longest_first()))
            for it in lost:
                await self._answered(it, is_alone=True)

        whole = asyncio.ensure_future(each())
        try:
            while not (await asyncio.wait((whole,), timeout=GLANCE))[0]:
                if self.client.status in ("closing", "closed"):
                    raise Fault("the cluster has gone; what is done is kept")
                with suppress(OSError):
                    await self._look()
            whole.result()
        finally:
            whole.cancel()
            await asyncio.gather(whole, return_exceptions=True)

    def longest_first(self) -> list[Database]:
        """The databases in the order in which they are begun. What is new comes first, by the sizes of workloads that are here,
        then the others by what they took: a long one that began last would be waited for by all other workers."""
        took = self.store.seconds()

        def length(database: Database) -> tuple[float, int]:
            is_here = bool(database.workload) and os.path.isfile(database.workload)
            return took.get(database.name, math.inf), os.path.getsize(database.workload) if is_here else 0

        return sorted(self.fleet.databases, key=length, reverse=True)

    def _keep(self, answer: Answer, is_new: bool) -> None:
        if answer.fault and not answer.digest:
            self.store.fail(answer.database, answer.fault)
        elif is_new:
            self.store.keep(answer)
        self.tell(answer, is_new)

    async def _answered(self, database: Database, is_alone: bool) -> bool:
        """Whether there is an answer, which then is kept: none where the fault may be that of another database, unless it is
        tried alone. An answer without a digest is tried again by the next run."""
        try:
            answer, is_new = self._told(database.name, await self._checked(database))
        except Exception as fault:
            if isinstance(fault, LOST) and not is_alone:
                return False
            answer, is_new = Answer(database.name, "", _named(fault)), True
        self._keep(answer, is_new)
        return True

    def _told(self, database: str, checked: Checked) -> tuple[Answer, bool]:
        """The answer, and whether it is new. Inputs that are what they were have the points that they had, or are refused
        again."""
        if not checked.advised.is_new() and (kept := self.store.answer(database)) is not None:
            is_back = bool(kept.points and kept.fault)
            return (replace(kept, fault="") if is_back else kept), is_back
        answer = answer_of(database, checked)
        return (answer if self.fleet.keep_inputs else replace(answer, kept=None)), True

    async def _checked(self, database: Database) -> Checked:
        """Advice that is checked, on another worker than advised as long as there is one."""
        source: Future | Database = database
        if database.service:
            # An export waits until its server has a connection to give.
            async with self.gates[database.server]:
                source = await _ended(self._task(work.export, database))
        made = await _ended(self._task(work.advise, source, self.store.digest(database.name), priority=1))
        advised_on = next(iter((await self.client.who_has([made]))[made.key]), "")
        for _ in range(CHECKS):
            others = await self._others(advised_on)
            checked = await self._check(made, others)
            if checked is None:
                continue
            # Advice that was lost with its worker is made anew by another one, which may be the one that checks.
            if checked.advised.worker != checked.worker or not others:
                return checked
            advised_on = checked.advised.worker
        raise Deserted

    async def _check(self, made: Future, others: list[str]) -> Checked | None:
        """What a check on one of these workers says, on any where they are none; nothing where all of them have gone. It would
        wait for them for ever, as would a result that they had."""
        task = self._task(work.check, made, priority=2, workers=others or None)
        ended = asyncio.ensure_future(task.result())
        try:
            while not ended.done() and (not others or set(others) & {*self.workers}):
                await asyncio.wait((ended,), timeout=GLANCE)
            if ended.done():
                checked: Checked = await ended
                return checked
            # The task is given up, not what waits for it: this may be fetching the results of others too.
            await task.cancel()
            with suppress(*LOST):
                await ended
            return None
        finally:
            ended.cancel()

    async def _others(self, worker: str) -> list[str]:
        """The workers but this one; where the last of them has gone, its successor is awaited."""
        for _ in range(PATIENCE // GLANCE):
            others = [it for it in self.workers if it != worker]
            if others or self.most < 2:
                return others
            await asyncio.sleep(GLANCE)
        self.most = 1
        return []

    async def _look(self) -> None:
        """Asks the scheduler for the workers that are there now, with their threads. What Dask keeps of that here is late."""
        self.workers = dict(await self.client.nthreads())
        self.most = max(self.most, len(self.workers))

    def _task(self, function: Callable[..., Any], *values: Any, **how: Any) -> Future:
        """A task; Dask tries it again where it fails."""
        task: Future = self.client.submit(
            function, *values, self.settings, retries=self.fleet.retries, pure=False, **how
        )
        return task


async def _ended(task: Future) -> Future:
    """A task that has come to an end without a fault; its result stays where it is."""
    fault = await task.exception()
    if fault is not None:
        raise fault
    return task


def _named(fault: Exception) -> str:
    """A fault in words."""
    if isinstance(fault, (KilledWorker, Deserted)):
        return "its workers died while they were at it"
    if isinstance(fault, CancelledError):
        return "the cluster gave it up"
    return str(fault) if isinstance(fault, Failed) else f"{type(fault).__name__}: {fault}"[:300]
