"""The files that a page may load: its own, and those of KaTeX and markdown-it, where Debian's packages are installed."""

import os
import re
from typing import Dict, Iterable, Optional, Tuple

PAGE = os.path.join(os.path.dirname(os.path.dirname(os.path.abspath(__file__))), "page")
SHARE = "/usr/share"
# Of each library the places where Debian has it, with the files that there have to be.
KATEX = ("javascript/katex", "nodejs/katex/dist")
KATEX_FONTS = "fonts/truetype/katex"
MARKDOWN = ("javascript/markdown-it/markdown-it.min.js", "javascript/markdown-it/markdown-it.js", "nodejs/markdown-it/dist/markdown-it.min.js",
            "nodejs/markdown-it/dist/markdown-it.js")

KINDS = {
    ".html": "text/html; charset=utf-8",
    ".js": "text/javascript; charset=utf-8",
    ".css": "text/css; charset=utf-8",
    ".svg": "image/svg+xml",
    ".woff2": "font/woff2",
    ".ttf": "font/ttf",
}
LEAST = 10_000  # bytes of a library; a shorter file is one for Node that only names another, as Debian 12's node-markdown-it has it
FONT = re.compile(r"katex/fonts/(KaTeX_[A-Za-z0-9_-]+\.(?:woff2|ttf))")


def first_there(paths: Iterable[str]) -> Optional[str]:
    return next((path for path in paths if os.path.isfile(path)), None)


def page_files() -> Dict[str, str]:
    """What is in the page's folder, by its name after the page's address."""
    names = [name for name in os.listdir(PAGE) if os.path.splitext(name)[1] in KINDS]
    files = {name: os.path.join(PAGE, name) for name in names}
    return {**files, "": files["index.html"]}


class Files:
    """`share` is where libraries are looked for."""

    def __init__(self, share: str = SHARE) -> None:
        self.share = share
        self.files = page_files()
        for name in ("katex.min.js", "katex.min.css"):
            self._add("katex/" + name, [os.path.join(share, folder, name) for folder in KATEX])
        self._add("markdown-it.js", [os.path.join(share, name) for name in MARKDOWN])

    def _add(self, name: str, paths: Iterable[str]) -> None:
        found = first_there(path for path in paths if os.path.isfile(path) and os.path.getsize(path) >= LEAST)
        if found:
            self.files[name] = found

    def path_of(self, name: str) -> Optional[str]:
        font = FONT.fullmatch(name)
        if font:
            folders = [os.path.join(folder, "fonts") for folder in KATEX] + [KATEX_FONTS]
            return first_there(os.path.join(self.share, folder, font[1]) for folder in folders)
        return self.files.get(name)

    def read(self, name: str) -> Optional[Tuple[bytes, str]]:
        """A file and its kind. None where there is no such file; a library that isn't installed is an empty script or style."""
        path = self.path_of(name)
        if path is None:
            is_library = name in ("katex/katex.min.js", "katex/katex.min.css", "markdown-it.js")
            return (b"", KINDS[os.path.splitext(name)[1]]) if is_library else None
        with open(path, "rb") as file:
            return file.read(), KINDS[os.path.splitext(path)[1]]
