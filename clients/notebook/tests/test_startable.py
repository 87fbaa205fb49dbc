"""Sessions that can't be started, and those that are offered, by what is on this machine."""

import os
import sys
import unittest
from unittest import mock

from harness import NOTEBOOK

sys.path[:0] = [NOTEBOOK, os.path.join(os.path.dirname(NOTEBOOK), "python")]
from tmhost import Session, starting  # noqa: E402
from tmhost_notebook import startable, suggested  # noqa: E402

ADAPTERS = os.path.join(os.path.dirname(NOTEBOOK), "..", "adapters")


class Startable(unittest.TestCase):
    def test_an_adapter_without_its_interpreter(self) -> None:
        startable._missed.cache_clear()
        self.addCleanup(startable._missed.cache_clear)
        session = Session("g", ("tmhost-gap", "--x"), False)
        with mock.patch.object(starting, "is_found", lambda word: word == "tmhost-gap"):
            reported = "session g can't be started: there is no program gap, which tmhost-gap starts (Debian's package gap-core). Its words are: tmhost-gap --x"
            self.assertEqual((startable.why_not(session), startable.missing(session)), (reported, "gap"))
        startable._missed.cache_clear()
        with mock.patch.object(starting, "is_found", lambda word: True):
            self.assertEqual((startable.why_not(session), startable.missing(session)), (None, None))


class Suggested(unittest.TestCase):
    def test_that_all_adapters_are_offered(self) -> None:
        """Each one that this repository has, as one that completes where it does."""
        sys.path.append(ADAPTERS)
        from languages import PROFILES  # type: ignore[import]

        offered = {words.split()[0]: tab for words, tab in suggested.ADAPTERS}
        self.assertEqual({*offered}, {*starting.PROGRAMS})
        self.assertEqual({name: tab for name, tab in offered.items() if name not in ("gp", "python")}, {name: bool(one.names) for name, one in PROFILES.items() if name != "python"})

    def test_those_whose_interpreter_is_here(self) -> None:
        there = {"R": "/R", "tmhost-R": "/tmhost-R", "lua": "/lua", "tmhost-lua": "/tmhost-lua", "maxima": "/maxima", "tmhost-perl": "/tmhost-perl"}
        with mock.patch("shutil.which", lambda word, path=None: there.get(word)), mock.patch.object(suggested, "kernels", lambda: []):
            self.assertEqual(suggested.suggestions(), [{"name": "r", "words": "tmhost-R", "tab": True}, {"name": "lua", "words": "tmhost-lua", "tab": True}])


if __name__ == "__main__":
    unittest.main()
