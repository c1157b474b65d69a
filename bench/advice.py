"""The program of advice_bench, on workloads of the generator: built once, or run unproved."""
import argparse
import os
from collections.abc import Iterator
from contextlib import contextmanager
from dataclasses import dataclass
from tempfile import TemporaryDirectory

from builds import Source, built, run_built, run_unproved
from measure import ROOT
from plain import plain


USES = (
    "branch_bound",
    "relaxations",
    "lagrange_bound",
    "tuning",
    "workload_gen",
    "candidates",
    "binder",
    "catalogue",
    "sql_reader",
    "plan_model",
    "bip_model",
    "adv_shelf",
    "adv_base",
)
ADVICE = Source("advice_bench", USES, ("programme", "1", "2", "1", "1"))


@dataclass
class Advice:
    """The program, by the path of what was built, or as what is run unproved."""

    program: str | None
    folder: str
    root: str

    def printed(self, calls: list[list[str]]) -> list[str]:
        """What it prints, call by call."""
        if self.program:
            return run_built(self.program, calls)
        return run_unproved(ADVICE, self.folder, calls, self.root)


def add_options(parser: argparse.ArgumentParser) -> None:
    parser.add_argument("--program", help="an advice_bench that is built (default: it is proved and built first)")
    parser.add_argument("--root", default=ROOT, help="the repository whose crates it is made of (default: this one)")
    parser.add_argument(
        "--folder",
        help="where it is proved and built, and what is kept for the next time (default: a " "temporary folder)",
    )
    parser.add_argument(
        "--unproved",
        action="store_true",
        help="run it by `rt try`, without proof and unoptimised: numbers " "of nodes and costs are right, times aren't",
    )
    parser.add_argument(
        "--plain",
        action="store_true",
        help="build it by rustc, as plain Rust without contracts: unproved, in "
        "a minute; its times are a little above those of what is proved",
    )
    parser.add_argument("--quick", action="store_true", help="smaller workloads alone")


@contextmanager
def made(options: argparse.Namespace) -> Iterator[Advice]:
    """The program that the options ask for."""
    with TemporaryDirectory() as temporary:
        folder = os.path.abspath(options.folder or os.path.join(temporary, "copy"))
        os.makedirs(folder, exist_ok=True)
        program = options.program
        if options.plain:
            program = plain(folder, options.root)
        elif not program and not options.unproved:
            program = built(ADVICE, folder, options.root)
        yield Advice(program, folder, options.root)
