"""The commands that take each step of `advise` alone, over the files of its folder."""
from __future__ import annotations

import argparse
import shlex
import sys
from collections.abc import Iterator, Sequence
from contextlib import contextmanager

from cophy_text.files import shown
from cophy_pg import clustering, folder
from cophy_pg.ddl import Applied
from cophy_pg.folder import Folder
from cophy_pg.progress import say
from cophy_pg.rewrite.options import words_of


def commands_text(
    words: argparse.Namespace,
    kept: Folder,
    budget: int,
    has_rules: bool,
    order: Sequence[int] = (),
    unadvised: Sequence[int] = (),
    also: Sequence[Applied] = (),
) -> str:
    """A line for each step, without the connection. The budget is the program's, in pages; the order is that of the
    picks, of which the ones at the unadvised places aren't recommended; others are made too."""
    both = [kept.path(folder.CATALOGUE), kept.path(folder.WORKLOAD)]
    chosen, written = _chosen(words), [*words_of(words), *clustering.words_of(words)]
    nodes = ["--nodes", str(words.nodes)] if words.nodes else []
    ours = ["--program", words.program]
    trusted = ["--i-trust-the-statements"] if words.is_trusted else []
    advice, certificate, curve = kept.path(folder.ADVICE), kept.path(folder.CERTIFICATE), kept.path(folder.CURVE)
    ruled: list[list[str]] = []
    if has_rules:
        ruled = [[words.program, "ruled", *both, str(budget), kept.path(folder.RULES), *nodes]]
        advice = kept.path(folder.RULED)
    steps = [
        ["cophy-pg", "export", *both, "--report", kept.path(folder.EXPORT), *chosen, *written, *ours],
        ["cophy-lint", *both],
        [words.program, "advise", *both, str(budget), *nodes, "--cert", certificate],
        [words.program, "check", *both, certificate],
        *ruled,
        ["cophy-pg", "verify", *both, advice, *chosen, *trusted, *["--include"] * words.include, *ours],
        ["cophy-pg", "why", *both, kept.path(folder.KEPT), *ours],
        [*_script_of(words, kept, folder.KEPT), *_ordered(order, unadvised, also)],
        ["cophy-pg", "curve", *both, "--json", *nodes, *ours],
        ["cophy-pg", "report", kept.name],
    ]
    head = [
        "# Each step of cophy-pg advise alone. The connection is that of PGHOST, PGDATABASE and their like, or of --dsn.",
        f"# What cophy {'ruled' if ruled else 'advise'} prints goes to {shown(advice)}, what curve prints to {shown(curve)}.",
        f"# No step writes {shown(kept.path(folder.KEPT))}: it has what cophy-pg advise chose of them all.",
    ]
    return "\n".join([*head, *map(shlex.join, steps)]) + "\n"


def _ordered(order: Sequence[int], unadvised: Sequence[int], also: Sequence[Applied]) -> list[str]:
    """The words that say in which order what is made, and what else."""
    ordered = ["--order", ",".join(map(str, order))] if len(order) > 1 else []
    ordered += ["--unadvised", ",".join(map(str, unadvised))] if unadvised else []
    return ordered + [word for it in also for word in ("--also", it.shown())]


@contextmanager
def unless_broken_off(words: argparse.Namespace, kept: Folder) -> Iterator[None]:
    """Says what is left of a run that is broken off; where it ends well, that goes."""
    try:
        yield
    except BaseException:
        if kept.has(folder.UNFINISHED):
            kept.clear(*[folder.RULES] * (not kept.has(folder.RULED)))
            command = shlex.join([sys.argv[0], *_script_of(words, kept, folder.UNFINISHED)[1:]])
            found, script = shown(kept.path(folder.UNFINISHED)), shlex.quote(kept.path(folder.DDL))
            say(f"broken off: the last search's advice, which the server didn't judge, is in {found}; as a script:")
            say(f"{command} > {script}")
        raise
    kept.clear(folder.UNFINISHED)


def _script_of(words: argparse.Namespace, kept: Folder, advice: str) -> list[str]:
    """What prints the script of an advice in the folder."""
    included = ["--include", kept.path(folder.WORKLOAD)] if words.include else []
    return ["cophy-pg", "ddl", kept.path(folder.CATALOGUE), kept.path(advice), "--script", *included]


def _chosen(words: argparse.Namespace) -> list[str]:
    """The words that say which statements count."""
    listed = []
    for name, value in (("--sql", words.sql), ("--log", words.log), ("--since", words.since)):
        listed += [name, value] if value else []
    listed += ["--min-calls", str(words.min_calls)] if words.min_calls > 1 else []
    for name, values in (("--table", words.tables), ("--user", words.users)):
        for it in values:
            listed += [name, it]
    return listed
