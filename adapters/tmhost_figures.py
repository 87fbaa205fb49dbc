"""Pictures of what lines of Python draw, for `python_lines.py`: this module is a backend of matplotlib, and knows values that have a picture.
It is matplotlib's where neither a line nor MPLBACKEND has chosen another one, from the moment at which a line imports `matplotlib.pyplot`; before
that nothing of matplotlib is imported.

The same figure has the same bytes each time: the names in it are made from a fixed salt, and it has no date.
"""
import importlib
import importlib.abc
import io
import os
import sys
from typing import Any, List, Optional

LONGEST_SVG = 500_000  # bytes of a figure; one that would have more is a PNG
SALT = "tmhost"

is_on = False  # whether values and figures are shown as pictures
drawn: List[bytes] = []  # the pictures of the line


class Beginning(importlib.abc.MetaPathFinder):
    """Finds no module, but is asked for each that is imported."""

    def find_spec(self, name: str, path: Any = None, target: Any = None) -> None:
        if name == "matplotlib.pyplot" and self in sys.meta_path:
            sys.meta_path.remove(self)
            become_backend()


def begin() -> None:
    """From now on there are pictures."""
    global is_on
    is_on = True
    sys.meta_path.insert(0, Beginning())


def become_backend() -> None:
    matplotlib: Any = importlib.import_module("matplotlib")
    configured, now = (dict.get(settings, "backend") for settings in (matplotlib.rcParamsOrig, matplotlib.rcParams))  # looked at, not resolved
    if configured == now and not os.environ.get("MPLBACKEND"):
        canvas: Any = importlib.import_module("matplotlib.backends.backend_agg")
        base: Any = importlib.import_module("matplotlib.backend_bases")
        globals().update(FigureCanvas=canvas.FigureCanvasAgg, FigureManager=base.FigureManagerBase)
        matplotlib.rcParams["backend"] = "module://" + __name__


def show(*words: Any, **named: Any) -> None:
    """What `plt.show()` does: draws the figures that are open, and closes them."""
    plots: Any = sys.modules["matplotlib.pyplot"]
    figures = [plots.figure(number) for number in plots.get_fignums()]
    plots.close("all")
    for figure in figures:
        drawn.append(bytes_of(figure))


def draw_what_is_left() -> None:
    """Draws the figures that a line has left open."""
    plots: Any = sys.modules.get("matplotlib.pyplot")
    if getattr(plots, "show", None) and "FigureCanvas" in globals() and plots.get_backend() == "module://" + __name__:
        show()


def taken() -> List[bytes]:
    """The pictures that were drawn, each once."""
    pictures = drawn[:]
    drawn.clear()
    return pictures


def bytes_of(figure: Any) -> bytes:
    """A figure as SVG, or as PNG. It is as large as what is drawn, as inline figures of Jupyter are, so that no label is cut off."""
    matplotlib: Any = sys.modules["matplotlib"]
    file = io.BytesIO()
    with matplotlib.rc_context({"svg.hashsalt": SALT}):
        figure.savefig(file, format="svg", bbox_inches="tight", metadata={"Date": None})
    if file.tell() > LONGEST_SVG:
        file = io.BytesIO()
        figure.savefig(file, format="png", bbox_inches="tight")
    return file.getvalue()


def picture_of(value: Any) -> Optional[bytes]:
    """The picture of a value; None where it has none, or there are no pictures."""
    if not is_on:
        return None
    library: Any = sys.modules.get("matplotlib.figure")
    if library is not None and isinstance(value, library.Figure):
        close(value)
        return bytes_of(value)
    for name in ("_repr_svg_", "_repr_png_"):
        reported = getattr(value, name, lambda: None)
        picture = reported() if callable(reported) else None
        if isinstance(picture, str):
            return picture.encode("utf-8", "backslashreplace")
        if isinstance(picture, bytes):
            return picture
    return None


def close(figure: Any) -> None:
    """A figure that is shown as a value isn't drawn again where its line ends."""
    plots: Any = sys.modules.get("matplotlib.pyplot")
    if hasattr(plots, "close"):
        plots.close(figure)
