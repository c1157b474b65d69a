"""The planner's calls alone, timed by a program that is proved and built in a copy of the repository."""
import re
import subprocess

from builds import Source, built

SEARCH = Source("search_bench", ("planner", "plan_model", "adv_base"), ("chain", "2", "0", "1"))
# A round of calls takes about so long.
NANOSECONDS = 20_000_000


def numbers(text: str) -> dict[str, int]:
    """The numbers of a text by their names."""
    return {name: int(number) for name, number in re.findall(r"(\w+) (-?\d+)", text)}


class Searches:
    """The program that calls `least`, `Search::new` and `cost` many times on one task."""

    def __init__(self, program: str | None, folder: str):
        self.program = program or built(SEARCH, f"{folder}/copy")

    def nanoseconds(self, graph: str, slots: int, indexes: int, calls: int) -> dict[str, int]:
        words = [self.program, graph, str(slots), str(indexes), str(calls)]
        return numbers(subprocess.run(words, capture_output=True, text=True, check=True).stdout)

    def microseconds(self, graph: str, slots: int, indexes: int) -> dict[str, float]:
        first = self.nanoseconds(graph, slots, indexes, 3)
        calls = max(5, min(2000, NANOSECONDS // max(1, first["least"])))
        times = self.nanoseconds(graph, slots, indexes, calls)
        return {name: times[name] / 1000 for name in ("least", "new", "cost")}
