"""The calls for blocking and those for asyncio are the same: names, parameters, and what is only looked at."""

import inspect
import unittest
from typing import Any, Dict, List, Set, Tuple

from support import PACKAGE  # noqa: F401  (it makes the package known)
from tmhost import AsyncCell, AsyncEvaluation, AsyncWorksheet, Cell, Evaluation, Worksheet

# Calls that send nothing, so that nothing has to be awaited; and what only the one for asyncio has, since a constructor can't wait.
AT_ONCE = {"cell", "listen"}
ONLY_ASYNC = {"open"}
LISTENERS = {"callback"}  # of which one may be awaited, and the other not

Parameter = Tuple[str, str, Any, str]


def public(kind: type) -> Dict[str, Any]:
    """What a class has of its own or of our other classes, by its name."""
    return {name: value for base in reversed(kind.__mro__) if base.__module__.startswith("tmhost") for name, value in vars(base).items() if name[0] != "_"}


def plain(annotation: object) -> str:
    return str(annotation).replace("Async", "").replace("tmhost.aio.", "tmhost.blocking.")


def parameters(call: Any) -> List[Parameter]:
    return [(one.name, one.kind.name, one.default, "" if one.name in LISTENERS else plain(one.annotation)) for one in inspect.signature(call).parameters.values()]


def calls(kind: type) -> Dict[str, List[Parameter]]:
    return {name: parameters(value) for name, value in public(kind).items() if inspect.isfunction(value)}


def seen(kind: type) -> Set[str]:
    """The properties of a class."""
    return {name for name, value in public(kind).items() if isinstance(value, property)}


class Alike(unittest.TestCase):
    maxDiff = None

    def test_calls(self) -> None:
        for ours, theirs in ((Worksheet, AsyncWorksheet), (Cell, AsyncCell)):
            with self.subTest(kind=ours.__name__):
                both = calls(theirs)
                for name in ONLY_ASYNC:
                    both.pop(name, None)
                self.assertEqual(calls(ours), both)
                self.assertGreater(len(both), 6)
        self.assertEqual(parameters(Worksheet.__init__), parameters(AsyncWorksheet.__init__))

    def test_what_is_looked_at(self) -> None:
        for ours, theirs in ((Worksheet, AsyncWorksheet), (Cell, AsyncCell)):
            self.assertEqual(seen(ours), seen(theirs))
        self.assertIn("cells", seen(Worksheet))
        self.assertIn("text", seen(Cell))

    def test_what_is_awaited(self) -> None:
        for theirs in (AsyncWorksheet, AsyncCell):
            awaited = {name for name in calls(theirs) if inspect.iscoroutinefunction(getattr(theirs, name))}
            self.assertEqual(awaited, set(calls(theirs)) - AT_ONCE)
        for ours in (Worksheet, Cell):
            self.assertEqual([name for name in calls(ours) if inspect.iscoroutinefunction(getattr(ours, name))], [])

    def test_evaluations(self) -> None:
        self.assertEqual(parameters(Evaluation.result), parameters(AsyncEvaluation.result))
        self.assertEqual([name for name in public(AsyncEvaluation) if not hasattr(Evaluation, name)], [])


if __name__ == "__main__":
    unittest.main()
