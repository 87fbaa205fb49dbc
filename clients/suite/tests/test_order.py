"""In which order the cases of several sessions come: as they stand in the text, or with --jobs side by side."""
import json
import os
import sys
import unittest
from typing import List

from .support import INTERPRETER, Case, case


class Order(Case):
    def write_shared(self, *parts: str) -> None:
        """A suite whose sessions a and b log their lines in one file."""
        words = json.dumps([sys.executable, INTERPRETER, self.place("all.log")])
        self.make_file("suite.md", f"---\nsessions: {{b: {words}, a: {words}}}\n---\n\n" + "\n".join(parts))

    def lines(self) -> List[str]:
        found = self.log("all")
        self.remove_file("all.log")
        return found

    def test_that_of_the_text(self) -> None:
        """Across sessions. What takes down comes last of all."""
        self.write_shared(
            case("say end", "end", "a {teardown}"), case("say 1", "1"), case("sleep 0.3"), case("say 2", "2", "b {setup}"), case("say 3", "3", "b"), case("say 4", "4"), case("say 5", "5", "b"),
        )
        self.assertEqual(self.verdicts(self.path), ["ok", "ok", "new", "ok", "ok", "ok", "ok"])
        order = ["say 1", "sleep 0.3", "say 2", "say 3", "say 4", "say 5", "say end"]
        self.assertEqual(self.lines(), order)
        self.verdicts(self.path, "--jobs", "1")
        self.assertEqual(self.lines(), order)
        # What a chosen case needs stands where it stood.
        self.verdicts(self.path, "--only", "say [45]")
        self.assertEqual(self.lines(), order)

    def test_a_file_of_another_session(self) -> None:
        """An earlier case of that has written it."""
        for _ in range(2):
            self.write(case("sleep 0.3"), case("say 1", "1"), case(f"file {self.place('a.log')}", "sleep 0.3\nsay 1", "b"))
            self.assertEqual(self.verdicts(self.path), ["new", "ok", "ok"])
            self.remove_file("a.log")

    def test_side_by_side(self) -> None:
        """A case that waits for one below it, of another session."""
        self.write(case(f"until {self.place('b.log')}", None, "a {timeout 1}"), case("say 1", "1", "b"))
        self.assertEqual(self.verdicts(self.path), ["over", "ok"])
        self.remove_file("b.log")
        self.write(case(f"until {self.place('b.log')}"), case("say 1", "1", "b"))
        self.assertEqual(self.verdicts(self.path, "--jobs", "2"), ["new", "ok"])

    @unittest.skipIf((os.cpu_count() or 1) < 2, "there is one processor")
    def test_several_suites(self) -> None:
        other = self.place("other.md")
        self.write(case(f"until {self.place('b.log')}", None, "a"))
        self.write(case("say 1", "1", "b"), path=other)
        self.assertEqual(self.verdicts(self.path, other), ["new", "ok"])

    def test_shuffled(self) -> None:
        """Each session by itself, at the places of its cases."""
        self.write_shared(*(case(f"say {name}{at}", f"{name}{at}", name) for at in range(6) for name in "ab"))
        orders = []
        for seed in "112":
            self.assertEqual(set(self.verdicts(self.path, "--random", seed)), {"ok"})
            orders.append(self.lines())
        self.assertEqual(orders[0], orders[1])
        self.assertNotEqual(orders[0], orders[2])
        self.assertEqual([[line[4] for line in order] for order in orders], [["a", "b"] * 6] * 3)

    def test_a_run_that_goes_on(self) -> None:
        self.write(case("say 1", "1"), case("say 2", "2", "b"), self.waiting(), case("say 3", "3"))
        self.cut_off(2)
        self.assertEqual(self.log("a"), ["say 1"])
        self.assertEqual(self.verdicts(self.path, "--resume"), ["ok", "ok", "xfail", "ok"])
        self.assertEqual(self.log("a"), ["say 1", "say 1", "say 3"])
