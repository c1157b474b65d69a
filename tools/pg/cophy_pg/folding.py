"""Finds statements that stand for others, by the program's `fold`, where there are more than a workload may have."""
from __future__ import annotations

import functools
import tempfile
from collections.abc import Callable, Iterator
from pathlib import Path

from cophy_text.answers import NoAnswer, counted, read_folded
from cophy_text.tokens import tokens
from cophy_text.workloads import NoWorkload, read_statements
from cophy_pg.program import NoCommand, Program, ProgramFault
from cophy_pg.ranking import ready
from cophy_pg.workload import text_of

KNOWN, CHUNK = (500, 900, 7 * 2**20), (480, 800, 7 * 2**20)
"""How many statements, sources and bytes of a workload are those that stand for others, and how many are new ones."""
BITS = 18
"""How many statements have a bit of their own in the weight of a group, which is at most 10^6."""
LITERALS = ("whole", "decimal", "text")


class Folding:
    """Statements by those that stand for them: one costs as much as the other under all indexes. The catalogue is asked for
    when it is needed, since the statements may have to do with it."""

    def __init__(self, catalogue: Callable[[], bytes], program: str, progress: Callable[[str], None]) -> None:
        self.catalogue, self.file, self.progress = catalogue, program, progress
        self.remark = ""

    def of(self, texts: dict[str, int]) -> dict[str, str]:
        """For each text, which has so many sources, the one that stands for it; none where the program doesn't tell."""
        if not ready(self.file):
            self.remark = "statements beyond the limits aren't folded: the program isn't built"
            return {}
        try:
            with tempfile.TemporaryDirectory(prefix="cophy-fold-") as name:
                here = Path(name)
                (here / "catalogue.toml").write_bytes(self.catalogue())
                found = Batches(here, self.file).of(texts, self.progress)
        except NoCommand:
            self.remark = "statements beyond the limits aren't folded: the program is older than fold"
            return {}
        except (ProgramFault, NoAnswer, OSError) as fault:
            self.remark = f"statements beyond the limits aren't folded: {fault}"
            return {}
        firsts = len(set(found.values()))
        self.remark = f"{counted(len(texts), 'form')} were folded into {firsts:,}, of the same costs under all indexes"
        return found


class Batches:
    """A folder in which the program folds one workload after another."""

    def __init__(self, here: Path, file: str) -> None:
        self.load, self.out = here / "workload.sql", here / "folded.sql"
        self.program = Program(file, str(here / "catalogue.toml"), str(self.load))

    def of(self, texts: dict[str, int], progress: Callable[[str], None]) -> dict[str, str]:
        """For each text the first one, in the given order, that costs the same under all indexes."""
        stands: dict[str, str] = {}
        firsts: list[str] = []
        for chunk in _chunks(texts):
            progress(f"putting like statements together, {len(stands) + 1:,} of {len(texts):,}")
            known: list[str] = next(_chunks({it: texts[it] for it in firsts}, KNOWN), [])
            found = self._of_chunk(known, chunk)
            stands |= {it: found[it] for it in chunk}
            firsts += [it for it in chunk if found[it] == it]
        return stands

    def _of_chunk(self, known: list[str], chunk: list[str]) -> dict[str, str]:
        """By one call, whose weights are all different: a text of the form of one first is taken for one of its group, and the
        weights of the groups tell where that isn't so."""
        weights = {it: weight for weight, it in enumerate([*known, *chunk], 1)}
        rest = self.fold([*weights.items()])
        firsts: dict[bytes, list[str]] = {}
        for it in rest:
            firsts.setdefault(form(it), []).append(it)
        found = {it: it for it in rest}
        unsure = []
        for it in (it for it in weights if it not in rest):
            same = firsts.get(form(it), [])
            if len(same) == 1:
                found[it] = same[0]
            else:
                unsure.append(it)
        found |= self._told(list(rest), unsure)
        for it, first in found.items():
            rest[first] -= weights[it]
        doubtful = [it for it, first in found.items() if it != first and rest[first]]
        return found | self._told(list(rest), doubtful)

    def _told(self, firsts: list[str], texts: list[str]) -> dict[str, str]:
        """The first of each text, by the bits of the groups' weights."""
        found: dict[str, str] = {}
        for at in range(0, len(texts), BITS):
            chunk = texts[at : at + BITS]
            groups = self.fold([*((it, 1) for it in firsts), *((it, 2**bit) for bit, it in enumerate(chunk, 1))])
            for first, weight in groups.items():
                found |= {it: first for bit, it in enumerate(chunk, 1) if weight >> bit & 1}
        if len(found) != len(texts) or not set(found.values()) <= set(firsts):
            raise NoAnswer("the groups of fold aren't those of before")
        return found

    def fold(self, listed: list[tuple[str, int]]) -> dict[str, int]:
        """The first statement of each group, with the weight of the group."""
        self.load.write_bytes(text_of(listed).encode(errors="replace"))
        count = read_folded(self.program.text("fold", str(self.out)))[1]
        by_tokens: dict[bytes, str] = {}
        for it, _ in listed:
            by_tokens.setdefault(joined(it), it)
        try:
            groups = read_statements(self.out.read_bytes())
        except NoWorkload as fault:
            raise NoAnswer(f"fold writes what is no workload: {fault}") from None
        found = {by_tokens[it.text]: it.weight for it in groups if it.text in by_tokens}
        if len(found) != count:
            raise NoAnswer("fold writes other statements than those that it was given")
        return found


@functools.lru_cache(None)
def joined(text: str) -> bytes:
    """The tokens of a statement, as `fold` writes them."""
    return b" ".join(it.text for it in tokens(text.encode(errors="replace")) if it.kind != "weight")


@functools.lru_cache(None)
def form(text: str) -> bytes:
    """A statement without its literals; of two of one form, one most often stands for the other."""
    listed = (it for it in tokens(text.encode(errors="replace")) if it.kind != "weight")
    return b" ".join(b"?" if it.kind in LITERALS else it.text for it in listed)


def _chunks(texts: dict[str, int], most: tuple[int, int, int] = CHUNK) -> Iterator[list[str]]:
    """The texts, which have so many sources, in lists that keep the limits, as far as one text does."""
    chunk, sources, size = list[str](), 0, 0
    for it, own in texts.items():
        length = len(it.encode(errors="replace")) + 40
        if chunk and (len(chunk) == most[0] or sources + own > most[1] or size + length > most[2]):
            yield chunk
            chunk, sources, size = [], 0, 0
        chunk.append(it)
        sources, size = sources + own, size + length
    if chunk:
        yield chunk
