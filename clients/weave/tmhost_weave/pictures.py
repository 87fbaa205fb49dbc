"""The pictures of a text, which are files in a folder beside it. Each has a sum of its bytes as its name, so one that is there is whole."""
import base64
import hashlib
import os
import re
import urllib.parse
from typing import Dict, List, Set

from .answers import PICTURE, Shown
from .files import put_in_folder, writing

ADDRESS = re.compile(r"data:image/(\w+)(?:\+xml)?;base64,")
NAME = re.compile(r"[0-9a-f]{20}\.(?:svg|png|jpeg)(?:\.tmhost-weave)?")


class Pictures:
    """Those that the text at a path shows: `course.pictures` has those of `course.md`."""

    def __init__(self, path: str) -> None:
        self.folder = os.path.splitext(path)[0] + ".pictures"
        self.wanted: Dict[str, bytes] = {}  # by the names of their files
        self.left: Set[str] = set()  # names of those that the text shows as it stands, of which nothing else is known

    def add(self, address: str) -> str:
        """Where the text finds the picture with this address, which has all of its data."""
        found = ADDRESS.match(address)
        assert found
        data = base64.b64decode(address[found.end() :])
        name = f"{hashlib.sha256(data).hexdigest()[:20]}.{found[1]}"
        self.wanted[name] = data
        return urllib.parse.quote(f"{os.path.basename(self.folder)}/{name}")

    def leave(self, shown: Shown) -> None:
        """Takes what stays in the text as it stands."""
        self.left.update(urllib.parse.unquote(piece.text).rsplit("/", 1)[-1] for piece in shown.pieces if piece.kind == PICTURE)

    def missing(self) -> List[str]:
        return [name for name in self.wanted if not os.path.exists(os.path.join(self.folder, name))]

    def write(self, kept: str) -> None:
        """Writes those that aren't there, each as a whole. `kept` is what is said to be kept where one can't be written."""
        for name in self.missing():
            path = os.path.join(self.folder, name)
            with writing(path, kept):
                put_in_folder(path, self.wanted[name])

    def remove_others(self) -> None:
        """Removes those of earlier weaves, which the text shows no more, and the folder where it is empty."""
        if not os.path.isdir(self.folder):
            return
        for name in os.listdir(self.folder):
            if NAME.fullmatch(name) and name not in self.wanted and name not in self.left:
                os.unlink(os.path.join(self.folder, name))
        if not os.listdir(self.folder):
            os.rmdir(self.folder)
