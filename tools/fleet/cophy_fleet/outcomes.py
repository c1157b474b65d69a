"""What comes of a database's tasks."""
from __future__ import annotations

from dataclasses import dataclass, field
from functools import cached_property

from cophy_text.answers import Advice, read_advice


@dataclass(frozen=True)
class Point:
    """What one budget buys: the text of the advice, and its certificate, compressed."""

    budget: int
    advice: str = field(repr=False)
    certificate: bytes = field(repr=False)

    @cached_property
    def numbers(self) -> Advice:
        """The advice, taken apart by whoever asks first: from the worker that checks it goes along with the point."""
        return read_advice(self.advice)


@dataclass(frozen=True)
class Inputs:
    """A catalogue and a workload, compressed."""

    catalogue: bytes = field(default=b"", repr=False)
    workload: bytes = field(default=b"", repr=False)


@dataclass(frozen=True)
class Advised:
    """Points with rising budgets, what they were advised from and what their certificates are of (alike statements of the
    workload may be one there), the worker that made them and its seconds. A refusal is the program's first line; without one
    and without points nothing has changed."""

    digest: str
    worker: str
    points: tuple[Point, ...] = ()
    inputs: Inputs = Inputs()
    kept: Inputs = Inputs()
    refusal: str = ""
    seconds: float = 0.0

    def is_new(self) -> bool:
        """Whether there is more than that nothing has changed."""
        return bool(self.points or self.refusal)


@dataclass(frozen=True)
class Checked:
    """What was checked, and where; a fault names the first certificate that proves something else."""

    advised: Advised
    worker: str
    fault: str = ""
    seconds: float = 0.0
