"""A picture in PNG, drawn by matplotlib."""
from __future__ import annotations

import io
import os
from collections.abc import Callable
from typing import Any

from cophy_text import files


class NoPicture(Exception):
    """Why none is drawn."""


def draw(file: str, lines: Callable[[Any], None]) -> None:
    """Writes a picture of axes, with what `lines` draws on them."""
    here = os.getcwd()
    try:
        # In the current folder it would take its settings from a file there.
        os.chdir("/")
        import matplotlib

        matplotlib.use("Agg")
        from matplotlib import pyplot
    except ImportError:
        raise NoPicture("no curve is drawn: python3-matplotlib isn't installed") from None
    finally:
        os.chdir(here)
    figure, axes = pyplot.subplots(figsize=(8, 5))
    lines(axes)
    axes.grid(alpha=0.3)
    figure.tight_layout()
    image = io.BytesIO()
    figure.savefig(image, format="png", dpi=110)
    pyplot.close(figure)
    files.write([files.File(file, image.getvalue(), is_private=False)])
