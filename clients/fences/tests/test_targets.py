"""Where a program may write."""
import os
import tempfile
import unittest
from typing import Optional

from tmhost_fences.targets import MAGIC, refuse_target
from tmhost_fences.troubles import Trouble


class Targets(unittest.TestCase):
    def test_what_would_be_lost(self) -> None:
        with tempfile.TemporaryDirectory() as folder:
            sheet, text, kept = (os.path.join(folder, name) for name in ("sheet", "text", "kept"))
            for path, data in ((sheet, b"TMWSHEET\1A\0"), (text, b"TMWSHEE"), (kept, b"")):
                with open(path, "wb") as file:
                    file.write(data)
            link = os.path.join(folder, "link")
            os.symlink(kept, link)
            asked = ((sheet, "would be lost"), (text, None), (kept, "would be lost"), (link, "would be lost"), (os.path.join(folder, "new"), None), (folder, "is a folder"), (os.path.join(folder, "none", "a"), "there is no folder"))
            for path, wanted in asked:
                said: Optional[str] = None
                try:
                    refuse_target("--output", path, [os.path.realpath(kept)])
                except Trouble as trouble:
                    said = str(trouble)
                self.assertEqual(said is None, wanted is None, (path, said))
                self.assertIn(wanted or "", said or "")

    def test_a_pipe(self) -> None:
        """It is a place to write to, and nothing is read from it: who does waits for ever where nobody writes."""
        with tempfile.TemporaryDirectory() as folder:
            pipe = os.path.join(folder, "pipe")
            os.mkfifo(pipe)
            end = os.open(pipe, os.O_RDWR | os.O_NONBLOCK)
            try:
                os.write(end, MAGIC)
                refuse_target("--output", pipe, [])
                self.assertEqual(os.read(end, 100), MAGIC)
            finally:
                os.close(end)
