"""A course of 40 fences over three real interpreters: python, gp and maxima, or in place of those that aren't here sh and bc.

TMHOST_KILLS says at how many moments the weave of a change is killed.
"""
import os
import re
import shutil
import subprocess
import sys
import time
from typing import Dict, List

from .support import HERE, ROOT, Case, command_words, environment, fences
from .trees import CMARK, PANDOC, body_of, cmark_tree, codes, pandoc_tree, without_answers

ADAPTERS = os.path.join(ROOT, "adapters")
KILLS = int(os.environ.get("TMHOST_KILLS", "20"))
FENCES, CHANGED = 40, 19  # the 20th
WORDS = {
    "python3": [os.path.join(ADAPTERS, "python")],
    "gp": [os.path.join(ADAPTERS, "gp"), "--text"],
    "maxima": [os.path.join(ADAPTERS, "prompted.py"), "maxima"],
    "sh": [os.path.join(ADAPTERS, "prompted.py"), "sh"],
    "bc": [os.path.join(ADAPTERS, "prompted.py"), "bc"],
}
# The name of a session is that of its program. Each fence is one field but those of python3 and bc, which are two.
FIRST = {"python3": "x = 0", "gp": "x = 0;", "maxima": "x : 0$", "sh": "x=0", "bc": "x = 0"}
ADD = {"python3": "x = x + {}\n\nx", "gp": "x = x + {}", "maxima": "x : x + {}", "sh": "x=$((x + {})); echo $x", "bc": "x = x + {}\nx"}


def interpreters() -> List[str]:
    return [name for name in WORDS if shutil.which(name)][:3]


class Tracebacks(Case):
    def test_a_line_before_changes_none(self) -> None:
        """An error of Python is the same where a field is put in front of its own."""
        error = ("py", "def f(n):\n    return 1 / n\n\nf(0)")
        front = self.front(py=["tmhost-python"])
        one = self.weave(front + fences([("py", "x = 1"), error]))
        more = self.weave(one.replace("x = 1\n", "x = 1\ny = 2\nz = 3\n"))
        self.assertIn('  File "<input>", line 1, in <module>\n    f(0)\n  File "<earlier input>", line 2, in f\n    return 1 / n\n', one)
        self.assertEqual(more, one.replace("x = 1\n", "x = 1\ny = 2\nz = 3\n"))


class Course(Case):
    def setUp(self) -> None:
        super().setUp()
        self.names = interpreters()
        if len(self.names) < 3:
            self.skipTest("three of python3, gp, maxima, sh and bc are wanted")
        self.numbers = list(range(1, FENCES + 1))

    def source(self) -> str:
        """Each fence adds a number to a variable of its session. Some stand in quotes and lists, some are folded. Each line that an
        interpreter is sent is in a log."""
        logged = [sys.executable, "-B", os.path.join(HERE, "logged.py")]
        words = {name: [*logged, self.place(name + ".log"), *WORDS[name]] for name in self.names}
        parts = [self.front(**words), "# A course\n\n", *(f"```{name}\n{FIRST[name]}\n```\n\n" for name in self.names)]
        for at, number in enumerate(self.numbers):
            name = self.names[at % 3]
            info = f"{{.{name} .fold}}" if at % 10 == 9 else name
            fence = f"```{info}\n{ADD[name].format(number)}\n```"
            marks = [("", ""), ("> ", "> "), ("- item\n- ", "  ")][at % 7 if at % 7 < 3 else 0]
            parts.append(f"Paragraph {at}.\n\n" + marks[0] + fence.replace("\n", "\n" + marks[1]) + "\n\n")
        return "".join(parts) + "```c\nint x;\n```\n"

    def sums(self) -> List[int]:
        """What stands after the fences, in their order."""
        sums: Dict[str, int] = {}
        found = []
        for at, number in enumerate(self.numbers):
            name = self.names[at % 3]
            sums[name] = sums.get(name, 0) + number
            found.append(sums[name])
        return found

    def answered(self, woven: str) -> List[int]:
        """The numbers that are answers, whichever way an interpreter writes one."""
        blocks = re.findall(r"^[> ]*```tmhost-answer\n(?:[> ]*)(.*)\n[> ]*```$", woven, re.MULTILINE)
        return [int(re.findall(r"-?\d+", block)[-1]) for block in blocks]

    def test_course(self) -> None:
        source = self.source()
        woven = self.weave(source)
        self.assertEqual(self.answered(woven), self.sums())
        self.assertTrue(all(self.logged(name) for name in self.names))
        self.assertEqual(self.weave(woven), woven)
        self.as_it_was_meant(source, woven)
        self.numbers[CHANGED] = 1000
        again = self.run_changed()
        self.assertEqual(self.answered(again), self.sums())
        self.assertEqual(sum(a != b for a, b in zip(self.answered(again), self.answered(woven))), 7)

    def run_changed(self) -> str:
        """The changed fence is the seventh of its session, after the first one, and seven stand from it on. Those are evaluated, after a
        replay of the seven in front of them, and no other session is sent a line."""
        self.write(self.source())
        done = self.run_weave()
        name = self.names[CHANGED % 3]
        self.assertEqual((done.status, done.errors), (0, f"{self.text}: {name}: 7 kept, 7 evaluated again, 7 replayed\n"))
        numbers = [number for at, number in enumerate(self.numbers) if at % 3 == CHANGED % 3]
        self.assertEqual(self.logged(name), [FIRST[name], *(ADD[name].format(number) for number in numbers)])
        self.assertEqual([self.logged(other) for other in self.names if other != name], [[], []])
        return self.read()

    def as_it_was_meant(self, source: str, woven: str) -> None:
        """Beside the answers, readers see the text as it was; and the answers as code."""
        if CMARK:
            self.assertEqual(without_answers(cmark_tree(woven)), cmark_tree(source))
            self.assertEqual(len(codes(cmark_tree(woven), "tmhost-answer")), FENCES)
        if PANDOC:
            self.assertEqual(str(pandoc_tree(woven)).count("CodeBlock"), str(pandoc_tree(source)).count("CodeBlock") + FENCES)
            read = subprocess.run([PANDOC, "-f", "markdown", "-t", "native"], input=body_of(woven).encode(), capture_output=True, check=True)
            self.assertEqual(read.stdout.count(b'[ "tmhost-answer" ]'), FENCES)
        readers = " and ".join(name for name, path in [("cmark", CMARK), ("pandoc", PANDOC)] if path) or "nobody"
        print(f"course over {', '.join(self.names)} read by {readers}", file=sys.stderr)

    def test_kills(self) -> None:
        """A weave of the change that is killed at each of so many moments of it: the next one ends in the same text."""
        self.weave(self.source())
        before = [self.place(name) for name in ("before.md", "before.sheet", "before.sheet.alt")]
        now = [self.text, self.sheet, self.sheet + ".alt"]
        self.numbers[CHANGED] = 1000
        self.write(self.source())
        for kept, file in zip(before, now):
            shutil.copyfile(file, kept)
        begun = time.monotonic()
        self.assertEqual(self.run_weave().status, 0)
        long, woven = time.monotonic() - begun, self.read()
        self.assertEqual(self.answered(woven), self.sums())
        killed = tried = 0
        while killed < KILLS and tried < 4 * KILLS:
            for kept, file in zip(before, now):
                shutil.copyfile(kept, file)
            begun, tried = time.monotonic(), tried + 1
            if self.is_killed(long * (killed + 0.5) / KILLS):
                killed += 1
            else:
                long = min(long, time.monotonic() - begun)  # the machine has more time now
            self.assertEqual(self.run_weave().status, 0)
            self.assertEqual(self.read(), woven)
        print(f"course: killed at {killed} moments, and each time woven to the same text", file=sys.stderr)
        self.assertEqual(killed, KILLS)

    def is_killed(self, seconds: float) -> bool:
        with subprocess.Popen(command_words(self.text), env=environment(), cwd=ROOT, stderr=subprocess.DEVNULL) as weave:
            try:
                weave.wait(seconds)
            except subprocess.TimeoutExpired:
                weave.kill()
        return weave.returncode != 0

    def test_formulas(self) -> None:
        """Of gp and of Maxima formulas stand in the text as such."""
        words = {"gp": [os.path.join(ADAPTERS, "gp")], "maxima": [*WORDS["maxima"], "--latex"]}
        here = {name: words[name] for name in words if name in self.names}
        if not here:
            self.skipTest("there is no gp and no maxima")
        woven = self.weave(self.front(**here) + "".join(f"```{name}\n1/3\n```\n\n" for name in here))
        self.assertEqual(woven.count("\n\n<!-- tmhost-answer -->\n\n$"), len(here))
        self.assertEqual(woven.count("\\frac{1}{3}$\n\n<!-- /tmhost-answer -->\n\n"), len(here))
        self.assertEqual(self.weave(woven), woven)

    def test_lines_of_gp(self) -> None:
        """Code as a mathematician writes it: remarks over lines and with brackets in them, a matrix and a loop over lines, without braces."""
        if not shutil.which("gp"):
            self.skipTest("there is no gp")
        code = "/* squares (of\n   those */\ns(n) = n^2; \\\\ one (\nM = [1, 2;\n3, s(2)]\nfor(i = 1, 2,\nprint(i)\n)\nf(x) =\n{\n  x + 1;\n}\nf(1) + \\\n2"
        words = [os.path.join(ADAPTERS, "gp"), "--text", "--no-numbers"]
        woven = self.weave(self.front(gp=words) + f"```gp\n{code}\n```\n")
        found = re.findall(r"```tmhost-answer\n(.*?)\n```", woven, re.DOTALL)
        self.assertEqual(found, ["\n[1 2]\n\n[3 4]", "1\n2", "4"])
