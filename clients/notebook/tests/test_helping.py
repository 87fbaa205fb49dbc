"""What help leaves: nothing, whatever ends the server."""

import os
import unittest
from unittest import mock

from harness import Case, Page, Server, needs_program

ADAPTER = "tmhost-python"


@needs_program
class Left(Case):
    def begin(self) -> Server:
        """A server that has given help."""
        self.place = os.path.join(self.folder, "temporary")
        os.makedirs(self.place, exist_ok=True)
        with mock.patch.dict(os.environ, TMPDIR=self.place):
            server = self.serve()
        page = Page(server)
        if not page.snapshot()["order"]:
            page.call("session", name="p", words=ADAPTER, tab=False)
            page.call("new", session="p", text="len", after=0)
        reported = page.call("help", id=1, language="python", word="len")
        self.assertIn("Return the number of items", reported["output"]["text"])
        return server

    def helping(self) -> "list[str]":
        return [name for name in os.listdir(self.place) if name.startswith("tmhost-help-")]

    def test_nothing_stays(self) -> None:
        for end in (Server.stop, Server.kill):
            with self.subTest(end=end.__name__):
                server = self.begin()
                self.assertEqual(self.helping(), [])
                end(server)
                self.assertEqual(self.helping(), [])


if __name__ == "__main__":
    unittest.main()
