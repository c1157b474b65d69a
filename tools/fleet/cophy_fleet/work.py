"""What a worker does for one database: it exports its inputs, advises on them, and checks what another worker advised.

Inputs and certificates go from worker to worker as results of Dask's tasks; no storage is shared. Files stand in the worker's
own folder while a program runs, which Dask removes.
"""
from __future__ import annotations

import hashlib
import os
import tempfile
import time
import zlib
from collections.abc import Iterator
from contextlib import contextmanager
from dataclasses import replace
from functools import lru_cache
from pathlib import Path

from distributed import get_worker

from cophy_fleet import points
from cophy_fleet.calls import DONE, Failed, NoCommand, Refused, Settings, last_line, ran
from cophy_fleet.outcomes import Advised, Checked, Inputs
from cophy_fleet.settings import Database

FORM = 2
"""Grows where the same inputs get another answer by these tools."""
NAMES = ("catalogue.toml", "workload.sql")
"""The inputs in a folder in which the program is called."""


def export(database: Database, settings: Settings) -> Inputs:
    """Exports a catalogue and a workload from the server."""
    with _folder() as folder:
        files = [f"{folder}/{it}" for it in NAMES]
        words = [settings.exporter, "export", *files, *database.export]
        done = ran(words, settings.timeout, PGSERVICE=database.service)
        if done.returncode != DONE:
            raise Failed(last_line(done.stderr) or f"the export ended with status {done.returncode}")
        return _inputs(*files)


def advise(source: Inputs | Database, known: str, settings: Settings) -> Advised:
    """Folds, and advises at even budgets, unless the digest is the one that is known. Of a database without a service the
    inputs are files."""
    here, began = get_worker().address, time.monotonic()
    inputs = source if isinstance(source, Inputs) else _inputs(source.catalogue, source.workload)
    digest = _digest(inputs, settings)
    if digest == known:
        return Advised(digest, here)
    with _laid(inputs) as folder:
        try:
            points.fold(folder, settings)
            found = points.sweep(folder, settings)
        except Refused as refused:
            return Advised(digest, here, refusal=str(refused))
        except NoCommand:
            raise Failed("the program doesn't know advise") from None
        kept = replace(inputs, workload=zlib.compress(_content(f"{folder}/{NAMES[1]}")))
    return Advised(digest, here, found, inputs, kept, seconds=time.monotonic() - began)


def check(advised: Advised, settings: Settings) -> Checked:
    """Folds the inputs anew, and checks each certificate against them, and what it proves against the advice. What was checked
    is handed on, but for what was folded."""
    here, began = get_worker().address, time.monotonic()
    fault = _fault_of(advised, settings) if advised.points else ""
    return Checked(replace(advised, inputs=Inputs()), here, fault, time.monotonic() - began)


def _fault_of(advised: Advised, settings: Settings) -> str:
    with _laid(advised.inputs) as folder:
        try:
            points.fold(folder, settings)
            if _content(f"{folder}/{NAMES[1]}") != zlib.decompress(advised.kept.workload):
                return "the workers don't fold the workload alike"
            return points.fault_of(folder, advised.points, settings)
        except Refused as refused:
            return f"the check is {refused}"
        except NoCommand:
            raise Failed("the program doesn't know check") from None


@contextmanager
def _folder() -> Iterator[str]:
    with tempfile.TemporaryDirectory(prefix="cophy-fleet-", dir=get_worker().local_directory) as folder:
        yield folder


@contextmanager
def _laid(inputs: Inputs) -> Iterator[str]:
    with _folder() as folder:
        for name, content in zip(NAMES, (inputs.catalogue, inputs.workload)):
            Path(folder, name).write_bytes(zlib.decompress(content))
        yield folder


def _inputs(*files: str) -> Inputs:
    return Inputs(*(zlib.compress(_content(it)) for it in files))


def _content(file: str) -> bytes:
    try:
        return Path(file).read_bytes()
    except OSError as fault:
        raise Failed(f"{file}: {fault.strerror}") from None


def _digest(inputs: Inputs, settings: Settings) -> str:
    """The digest of the inputs, of the program and of what else the answer hangs on."""
    words = f"{FORM} {settings.steps} {settings.nodes} {settings.fold}"
    texts = (zlib.decompress(it) for it in (inputs.catalogue, inputs.workload))
    parts = (*texts, words.encode(), _program_digest(settings.program))
    return hashlib.sha256(b"".join(hashlib.sha256(it).digest() for it in parts)).hexdigest()


def _program_digest(program: str) -> bytes:
    try:
        found = os.stat(program)
        return _file_digest(program, found.st_mtime_ns, found.st_size)
    except OSError as fault:
        raise Failed(f"{program}: {fault.strerror}") from None


@lru_cache(4)
def _file_digest(file: str, changed: int, size: int) -> bytes:
    return hashlib.sha256(Path(file).read_bytes()).digest()
