"""Where KaTeX and markdown-it are looked for."""

import os
import sys
import tempfile
import unittest

from harness import NOTEBOOK

sys.path[:0] = [NOTEBOOK]
from tmhost_notebook.files import LEAST, Files  # noqa: E402

FOR_NODE = '(function () { "use strict"; module.exports = require("./lib/") })();'  # as in Debian 12's node-markdown-it


class Libraries(unittest.TestCase):
    def setUp(self) -> None:
        room = tempfile.TemporaryDirectory()
        self.addCleanup(room.cleanup)
        self.share = room.name
        self.folder = os.path.join(self.share, "javascript", "markdown-it")
        os.makedirs(self.folder)

    def write(self, name: str, text: str) -> str:
        path = os.path.join(self.folder, name)
        with open(path, "w", encoding="utf-8") as file:
            file.write(text)
        return path

    def test_a_file_for_node(self) -> None:
        """One that only names another is passed over: a page can't load that."""
        self.write("markdown-it.min.js", FOR_NODE)
        whole = self.write("markdown-it.js", ";" * LEAST)
        self.assertEqual(Files(self.share).path_of("markdown-it.js"), whole)

    def test_no_other_file(self) -> None:
        """Then the library counts as one that isn't installed."""
        self.write("markdown-it.js", FOR_NODE)
        self.assertEqual(Files(self.share).read("markdown-it.js"), (b"", "text/javascript; charset=utf-8"))


if __name__ == "__main__":
    unittest.main()
