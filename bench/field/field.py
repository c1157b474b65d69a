#!/usr/bin/python3 -IB
"""The field: databases with rows, on which the indexes of `cophy-pg advise` are made and measured beside those of its rivals.

    bench/field/field.py FOLDER                 # all steps; what a former call has measured is taken as it is
    bench/field/field.py FOLDER --half tuning   # the other half of the statements
"""
from __future__ import annotations

import argparse
import json
import random
import signal
import sys
import time
from dataclasses import asdict, dataclass
from pathlib import Path

HERE = Path(__file__).resolve().parent
sys.path[:0] = [str(HERE), str(HERE.parents[1] / "tools" / "tests")]

from databases import SCALES, collect, make  # noqa: E402
from hypothetical import Planner  # noqa: E402
from measuring import Measured, RealSizes, kept, measure  # noqa: E402
from ours import advised, made_of, picks_of  # noqa: E402
from private_server import missing  # noqa: E402
from rivals import RIVALS, Sizes  # noqa: E402
from server import FieldServer  # noqa: E402
from sessions import Index, index_of, session  # noqa: E402
from statements import HALVES, Statement, statements_of  # noqa: E402
from tables import MADE, OURS, text_of  # noqa: E402

BUDGETS = (10, 25, 50, 100)
SIZES = {"foreign keys": ("real",), "Dexter": ("real", "hypopg"), "greedy": ("real", "hypopg")}
"""How a rival measures what its picks take: as they are when they are made, or as hypopg says before."""
BUILT = HERE.parents[1] / "crates" / "cophy_cli" / "out" / "cophy_cli"


@dataclass
class Field:
    """One database with one half of its statements."""

    server: FieldServer
    words: argparse.Namespace
    database: str

    def __post_init__(self) -> None:
        self.scale = SCALES[self.database] * self.words.scale
        self.statements: list[Statement] = [
            it for it in statements_of(self.database) if self.words.half in ("all", it.half)
        ]
        self.folder: Path = self.words.folder / self.words.half / self.database
        self.folder.mkdir(parents=True, exist_ok=True)
        self.sizes = RealSizes(self.server, self.database, self.words.folder / f"sizes_{self.database}.json")

    def run(self) -> None:
        """Measures what isn't measured yet."""
        heap = self.server.heap_pages(self.database)
        self.measured(self.folder / "none.json", [], budget=0, heap=heap)
        budgets = {it: heap * it // 100 for it in self.words.budgets}
        self._ours(budgets)
        with session(self.server, self.database) as connection:
            planner = Planner(connection, self.statements, self.scale)
            for name in (it for it in RIVALS if it in self.words.advisors):
                for sizes in (it for it in SIZES[name] if it in self.words.sizes):
                    for share, budget in budgets.items():
                        self._rival(planner, name, sizes, share, budget)

    def _rival(self, planner: Planner, name: str, sizes: str, share: int, budget: int) -> None:
        file = self.folder / f"{name.replace(' ', '_')}-{sizes}-{share}.json"
        if file.exists():
            return
        self.say(f"{name} at {share} %")
        planner.begin()
        pages: dict[str, Sizes] = {"real": self.sizes, "hypopg": planner.pages}
        chosen = RIVALS[name](planner, pages[sizes], budget)
        calls, took = planner.spent()
        more = {"advisor": name, "sizes": sizes, "share": share, "budget": budget}
        self.measured(file, chosen, **more, calls=calls, seconds_to_advise=took)

    def _ours(self, budgets: dict[int, int]) -> None:
        """All picks, and those that the script makes unless it is told otherwise."""
        parts = {self.words.name: picks_of, f"{self.words.name}{MADE}": made_of}
        files = {(name, share): self.folder / f"{name}-real-{share}.json" for name in parts for share in budgets}
        if OURS not in self.words.advisors or all(it.exists() for it in files.values()):
            return
        self.say("collecting")
        collect(self.server, self.database, self.statements, self.scale)
        chosen = {}
        with session(self.server, self.database) as connection:
            for share, budget in budgets.items():
                folder = self.folder / f"{self.words.name}-advice-{share}"
                self.say(f"{self.words.name} at {share} %")
                words = ["--program", self.words.program, *self._values(), *self.words.passed]
                chosen[share] = advised(self.server, connection, budget, folder, words)
        for (name, share), file in files.items():
            document = chosen[share]
            whole = document if name == self.words.name else document["recommended"]
            self.measured(
                file,
                parts[name](document),
                advisor=name,
                sizes="real",
                share=share,
                budget=budgets[share],
                stored_pages=whole["stored_pages"],
                cost=document["cost"],
                server_cost=document["server_cost"],
                **{it: document[it] for it in ("calls", "seconds_to_advise", "size_pages", "left_out", "seconds")},
            )

    def _values(self) -> list[str]:
        """The words by which ours gets the statements with values, as the rivals have them."""
        if not self.words.values:
            return []
        file = self.folder / "statements.sql"
        listed = ((it.samples(self.scale), it.calls) for it in self.statements)
        file.write_text(
            "".join(f"-- weight {max(1, calls // len(texts))}\n{it};\n" for texts, calls in listed for it in texts)
        )
        return ["--sql", str(file)]

    def measured(self, file: Path, indexes: list[Index], **more: object) -> None:
        """Measures under a set of indexes and writes the file, if it isn't there; the same set is measured once."""
        if file.exists():
            return
        same = [it for it in self.folder.glob("*.json") if same_indexes(it, indexes)]
        self.say(f"measuring {file.stem} with {len(indexes)} indexes{', the same as ' + same[0].stem if same else ''}")
        if same:
            found = Measured(**{it: json.loads(same[0].read_text())[it] for it in asdict(Measured())})
        else:
            runs = None if self.words.untimed else self.words.runs
            found = measure(self.server, self.database, indexes, self.statements, self.scale, runs)
        kept(file, found, **more, calls_of={it.name: it.calls for it in self.statements})

    def again(self) -> None:
        """A further round under all indexes that were chosen before, in an order of its own."""
        done: dict[frozenset[str], Measured] = {}
        files = sorted(self.folder.glob("*.json"))
        for file in random.sample(files, len(files)):
            result = json.loads(file.read_text())
            key = frozenset(result["pages"])
            if key not in done:
                self.say(f"measuring {file.stem} again, with {len(key)} indexes")
                indexes = [index_of(f"ON {it}") for it in result["pages"]]
                done[key] = measure(self.server, self.database, indexes, self.statements, self.scale, self.words.runs)
            for what, found in (("times", done[key].times), ("processor", done[key].processor)):
                for name, taken in found.items():
                    result[what][name] += taken
            file.write_text(json.dumps(result, indent=1) + "\n")

    def say(self, text: str) -> None:
        """Tells what goes on."""
        print(f"{time.strftime('%H:%M:%S')} {self.database}: {text}", file=sys.stderr, flush=True)


def same_indexes(file: Path, indexes: list[Index]) -> bool:
    """Whether a file has what was measured under the same indexes."""
    return set(json.loads(file.read_text())["pages"]) == {str(it) for it in indexes}


def main() -> int:
    """Takes all steps."""
    parser = argparse.ArgumentParser(description=__doc__, formatter_class=argparse.RawDescriptionHelpFormatter)
    parser.add_argument("folder", type=Path, help="where the server's data and all results are kept")
    parser.add_argument("--half", choices=(*HALVES, "all"), default="table", help="which statements (table)")
    parser.add_argument("--databases", default=",".join(SCALES), metavar="NAMES", help="which databases (all)")
    parser.add_argument(
        "--advisors", default=f"{OURS},{','.join(RIVALS)}", metavar="NAMES", help="which advisors (all)"
    )
    parser.add_argument("--sizes", default="real,hypopg", metavar="NAMES", help="by which rivals choose (both)")
    parser.add_argument("--budgets", default=BUDGETS, type=numbers, metavar="SHARES", help="in percent of the heap")
    parser.add_argument("--scale", type=float, default=1.0, help="by what numbers of rows are multiplied (1)")
    parser.add_argument("--name", default=OURS, help=f"by which the results of ours are kept ({OURS})")
    parser.add_argument(
        "--values", action="store_true", help="ours gets statements with values, as its rivals do; name it otherwise"
    )
    parser.add_argument("--runs", type=int, default=5, help="how often each sample is run; the median counts (5)")
    parser.add_argument("--untimed", action="store_true", help="no times: costs and pages alone, for --again to time")
    parser.add_argument("--again", action="store_true", help="a further round over all that was chosen before")
    parser.add_argument("--rounds", type=int, default=1, help="how many rounds --again takes (1)")
    parser.add_argument("--program", default=str(BUILT), help="the built program (default: that of this repository)")
    parser.add_argument(
        "--pass", dest="passed", action="append", default=[], metavar="WORD", help="for cophy-pg advise"
    )
    words = parser.parse_args()
    if missing():
        sys.exit(missing())
    names, words.advisors, words.sizes = (it.split(",") for it in (words.databases, words.advisors, words.sizes))
    if unknown := [it for it in names if it not in SCALES]:
        sys.exit(f"there is no database {unknown[0]}: there are {', '.join(SCALES)}")
    words.folder.mkdir(parents=True, exist_ok=True)
    for ending in (signal.SIGINT, signal.SIGTERM):
        # So that the server ends too.
        signal.signal(ending, lambda number, _: sys.exit(128 + number))
    server = FieldServer(words.folder)
    try:
        for it in names:
            field = Field(server, words, it)
            if it not in server.databases():
                field.say("filling")
                make(server, it, field.scale)
            for _ in range(words.rounds * words.again):
                field.again()
            field.run()
        text = text_of(words.folder / words.half, names, words.budgets)
        (words.folder / f"{words.half}.md").write_text(text)
        print(text, end="")
    finally:
        server.stop()
    return 0


def numbers(text: str) -> tuple[int, ...]:
    """Whole numbers between commas."""
    return tuple(map(int, text.split(",")))


if __name__ == "__main__":
    sys.exit(main())
