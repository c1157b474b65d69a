"""The parts of the script `cophy` that are written in Python."""
from __future__ import annotations

import sys

from cophy_wrapper import build, hints, unproved

PARTS = {"build": build.main, "hints": hints.main, "unproved": unproved.main}


def main() -> int:
    """Takes the name of a part, and its words."""
    return PARTS[sys.argv[1]](sys.argv[2:])
