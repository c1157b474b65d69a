"""Which words of a call name files that the program reads."""
from __future__ import annotations

_PLACES = {
    "explain": (1, 2, 3),
    "whatif": (1, 2, 3),
    "check": (1, 2, 3),
    "retune": (1, 2, 3),
    "ruled": (1, 2, 4),
    "check-ruled": (1, 2, 3, 4),
    "bench": (),
}


def files_read(words: list[str]) -> list[int]:
    """The places of these words, in the order in which the files are read; the command stands at place 0."""
    return [it for it in _PLACES.get(words[0] if words else "", (1, 2)) if it < len(words)]
