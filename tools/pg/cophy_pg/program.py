"""Calls of the program."""
from __future__ import annotations

import argparse
import os
import shutil
import subprocess
import tempfile
from collections.abc import Iterable
from dataclasses import replace
from pathlib import Path

from cophy_text.answers import Advice, Prices, read_advice, read_candidates, read_config, read_points, read_prices
from cophy_text.files import shown

SCRIPT = Path(__file__).resolve().parents[3] / "cophy"
BUILT = SCRIPT.parent / "crates" / "cophy_cli" / "out" / "cophy_cli"
NAME = "cophy"
UNPROVED = "cophy-unproved"
"""The program's file where `cophy --unproved` built it."""
MOST_POINTS = 16
"""How many points a sweep has at most."""


class ProgramFault(Exception):
    """The program didn't answer, or answered by a refusal."""


class NoCommand(ProgramFault):
    """The program is older than the command."""


def add_program(parser: argparse.ArgumentParser) -> None:
    """The word that names the program."""
    parser.add_argument(
        "--program",
        default=found_program(),
        metavar="FILE",
        help="the program; else that of COPHY_PROGRAM, the script cophy of this repository, or cophy on the path",
    )


def found_program() -> str:
    """The program where no word names it: that of COPHY_PROGRAM, the script of the repository that this module stands in, or
    the one on the path, which comes first where the script would have to build one."""
    if given := os.environ.get("COPHY_PROGRAM"):
        return given
    is_ready = BUILT.is_file() or _on_path(NAME) is None
    return str(SCRIPT) if SCRIPT.is_file() and is_ready else NAME


def _on_path(name: str) -> str | None:
    """A file on the path, of which only folders that are named whole count."""
    return shutil.which(name, path=os.pathsep.join(it for it in os.get_exec_path() if os.path.isabs(it)))


def program_file(name: str) -> str:
    """The file of a program; a name alone is one on the path."""
    found = name if os.sep in name else _on_path(name)
    if found is None or not os.path.isfile(found):
        raise ProgramFault(f"the program {shown(name)} isn't there: name it by --program or COPHY_PROGRAM")
    return found


def is_unproved(name: str) -> bool:
    """Whether a program was built without its proof, be it named by a link."""
    file = program_file(name)
    return UNPROVED in (os.path.basename(file), os.path.basename(os.path.realpath(file)))


class Program:
    """The program over a catalogue and a workload."""

    def __init__(self, file: str, catalogue: str, workload: str) -> None:
        self.file, self.catalogue, self.workload = file, catalogue, workload

    def text(self, command: str, *more: str) -> str:
        """What a command prints. The program gets nothing of the connection to a server."""
        kept = {it: value for it, value in os.environ.items() if not it.startswith("PG")}
        words = [program_file(self.file), command, self.catalogue, self.workload, *more]
        ran = subprocess.run(
            words, stdin=subprocess.DEVNULL, stdout=subprocess.PIPE, env={**kept, "COPHY_HINTS": "0"}, check=False
        )
        text = ran.stdout.decode(errors="replace")
        if ran.returncode not in (0, 1):
            said = text.split("\n", 1)[0] or f"status {ran.returncode}"
            fault = NoCommand if said.startswith("usage: unknown command") else ProgramFault
            raise fault(f"cophy {command} answers: {said}")
        return text

    def cost(self) -> Prices:
        return read_prices(self.text("cost"))

    def advise(self, budget: int, nodes: int | None = None) -> Advice:
        return read_advice(self.text("advise", str(budget), *_nodes(nodes)))

    def sweep(self, first: int, step: int, count: int, nodes: int | None = None) -> list[Advice]:
        """Advice for budgets an equal step apart, by one search over all of them."""
        with tempfile.TemporaryDirectory(prefix="cophy-sweep-") as folder:
            prefix = os.path.join(folder, "point-")
            numbers = map(str, (first, step, count))
            found = read_points(self.text("sweep", *numbers, *_nodes(nodes), "--cert", prefix))
            configs = [read_config(Path(f"{prefix}{it}").read_text("ascii")) for it in range(1, len(found) + 1)]
        candidates = {it.number: it for it in read_candidates(self.text("candidates"))}
        return [replace(it, picks=[candidates[pick] for pick in config]) for it, config in zip(found, configs)]

    def whatif(self, picks: Iterable[int]) -> Prices:
        """The prices under a configuration of candidates."""
        with tempfile.NamedTemporaryFile("w", prefix="cophy-conf-") as file:
            file.write("".join(f"{it}\n" for it in sorted(picks)))
            file.flush()
            return read_prices(self.text("whatif", file.name))


def _nodes(nodes: int | None) -> tuple[str, ...]:
    return ("--nodes", str(nodes)) if nodes else ()
