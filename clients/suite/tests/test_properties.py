"""Suites that are written from random sessions pass, and one byte that is changed in one wanted answer is the failure of its case alone. The text form of
a notebook with random prose has the notebook's cases."""
import dataclasses
import json
import os
import random
import string
import unittest
from typing import Any, Dict, List, Tuple

from .support import Case, case
from .values import expected
from tmhost_suite.cases import Case as SuiteCase
from tmhost_suite.forms import PYTHON
from tmhost_suite.readers import as_text, read_notebook
from tmhost_suite.results import Result
from tmhost_suite.running import is_good, verdict_of
from tmhost_suite.text import Text

# Of each suite one run is of the suite as it is, and some are of one with a change; more changes are judged by what came.
SUITES, RUNS, CHANGES = 6, 2, 100
NOTEBOOKS = 300
# Lines of prose, many of which begin or end what may hold a fence.
PROSE = ["", "", "text", "# Title", "```", "````", "~~~", "```py", "~~~~py", "```answer", "```error", "2", "<!--", "-->", "<pre>", "</pre>", "<div>", "- item", "  more", "> quote"]
PROSE += ["    code", "1. one", "---", "===", "\\", "[a]: <b", "<script>", "<![CDATA[", "]]>", "| a |"]
# Those that make no pattern of a line, and no fence.
BYTES = [letter for letter in string.printable[:95] if letter not in "`.()"] + ["\t"]
LETTERS = "abxyz019 .#>`-*[]()\u00e9"


class Random(Case):
    def setUp(self) -> None:
        super().setUp()
        self.random = random.Random(self.id())

    def code(self, at: int) -> str:
        kind = self.random.random()
        return "die" if kind < 0.1 else "quiet" if kind < 0.2 else f"x{at}" if kind < 0.6 else "say " + self.said()

    def said(self) -> str:
        lines = ["".join(self.random.choices(LETTERS, k=self.random.randint(1, 12))) for _ in range(self.random.randint(1, 3))]
        # An answer is compared without line ends after it, and a line that reads as a pattern would be one.
        return "\\n".join(line.strip(" .") or "z" for line in lines)

    def session(self) -> List[Tuple[str, str, str]]:
        """Random cases, each with its session, its code, and what is wanted."""
        code = [(self.random.choice("ab"), self.code(at), self.random.random() < 0.15) for at in range(self.random.randint(6, 25))]
        code = [(session, line, is_setup and line != "die") for session, line, is_setup in code]
        values = expected(code)
        return [
            (session + (" {setup}" if is_setup else ""), line, self.shown(line, value)) for (session, line, is_setup), value in zip(code, values)
        ]

    def shown(self, line: str, value: str) -> str:
        word, _, rest = line.partition(" ")
        return "" if word == "quiet" else rest.replace("\\n", "\n") if word == "say" else value

    def changed(self, text: str) -> str:
        """The text with one of its characters that end no line put in another's place, taken away, or put beside it."""
        at = self.random.choice([at for at, character in enumerate(text) if character != "\n"])
        other = self.random.choice([letter for letter in BYTES if letter != text[at]])
        kind = self.random.random()
        found = text[:at] + (other if kind < 0.6 else other + text[at] if kind < 0.8 else "") + text[at + 1 :]
        # A fence leaves no trace of an answer that is empty, and `...` stands for any lines.
        return found if found and "..." not in found else text[:at] + other + text[at + 1 :]

    def put(self, cases: List[Tuple[str, str, str]]) -> None:
        for name in "ab":
            if os.path.exists(self.place(name + ".log")):
                os.unlink(self.place(name + ".log"))
        self.write(*(case(line, wanted, info) if wanted else case(line, None, info) for info, line, wanted in cases))

    def with_a_change(self, cases: List[Tuple[str, str, str]]) -> List[str]:
        """Writes the suite with one byte changed in one wanted answer, and says what is to come of each case."""
        at = self.random.choice([at for at, one in enumerate(cases) if one[2]])
        info, line, wanted = cases[at]
        self.put([*cases[:at], (info, line, self.changed(wanted)), *cases[at + 1 :]])
        return ["ok" if it != at else "ended" if line == "die" else "differs" for it in range(len(cases))]

    def judged(self, came: List[Dict[str, Any]]) -> List[str]:
        """What the suite as it is now makes of what came."""
        suite = Text(self.path, self.read()).suite
        found = [(case, Result(str(one["came"]), 0.0, end=one["end"] or "")) for case, one in zip(suite.cases, came)]
        return [verdict_of(case, result, is_good(suite, case, result)) for case, result in found]

    def test_they_pass_and_each_change_is_one_failure(self) -> None:
        for _ in range(SUITES):
            cases = self.session()
            self.put(cases)
            came = self.objects(self.path)
            self.assertEqual([one["verdict"] for one in came], ["ok"] * len(cases), self.read())
            for at in range(CHANGES):
                wanted = self.with_a_change(cases)
                self.assertEqual(self.judged(came), wanted, self.read())
                if at < RUNS:
                    self.assertEqual(self.verdicts(self.path), wanted, self.read())


class Prose(unittest.TestCase):
    def cases(self, text: str) -> List[SuiteCase]:
        return [dataclasses.replace(case, line=1) for case in Text("", text).cases]

    def test_it_takes_no_case(self) -> None:
        chosen = random.Random(self.id())
        kept, left_out = 0, 0
        for _ in range(NOTEBOOKS):
            code = [{"cell_type": "code", "metadata": {}, "source": f"x = {at}", "outputs": []} for at in range(chosen.randint(0, 4))]
            prose = ["\n".join(chosen.choices(PROSE, k=chosen.randint(1, 5))) for _ in range(len(code) + 1)]
            cells: List[Any] = []
            for at, text in enumerate(prose):
                cells += [{"cell_type": "markdown", "metadata": {}, "source": text}, *code[at : at + 1]]
            full, said = as_text(read_notebook("a.ipynb", json.dumps({"cells": cells}), PYTHON))
            bare, _ = as_text(read_notebook("a.ipynb", json.dumps({"cells": code}), PYTHON))
            self.assertEqual(self.cases(full), self.cases(bare), full)
            for text in prose:
                kept += bool(text.strip("\n")) and text.strip("\n") in full
            left_out += len(said)
        self.assertTrue(kept > NOTEBOOKS and left_out > NOTEBOOKS / 3, (kept, left_out))
