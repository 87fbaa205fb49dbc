"""What a difference shows: lines that are alike by the rules as common ones, and each that isn't."""
import random
import re
import unittest
from decimal import Decimal
from typing import List

from . import support  # noqa: F401
from tmhost_suite.diffs import diff
from tmhost_suite.rules import Normal, Rules

RULES = Rules((Normal(re.compile("0x[0-9a-f]+"), "ADDRESS"),), relative=Decimal("1e-6"))
ROUNDS = 300


def changed(wanted: str, came: str, rules: Rules = RULES) -> List[str]:
    return [line for line in diff(wanted, came, rules, "")[2:] if line[:1] in "-+"]


class Differences(unittest.TestCase):
    def test_what_rules_make_alike_is_common(self) -> None:
        self.assertEqual(changed("0x1\n1.0\nx[0-9] (re)\nq\n*.c (glob)", "0x2\n1.0000001\nx7\nz\na.c"), ["-q", "+z"])
        self.assertEqual(diff("0x1\nq", "0x2\nz", RULES, "")[3:], [" 0x2", "-q", "+z"])

    def test_long_ones(self) -> None:
        came = [f"0x{at}" for at in range(1000)]
        wanted = [f"0x{at + 1}" for at in range(1000)]
        wanted[100], wanted[900] = "first", "last"
        self.assertEqual(changed("\n".join(wanted), "\n".join(came)), ["-first", "+0x100", "-last", "+0x900"])
        self.assertEqual(len(changed("\n".join(wanted[:901]), "\n".join(came))), 2 + 101)

    def test_any_lines(self) -> None:
        self.assertEqual(changed("...\nZeroDivisionError: .* (re)", "Traceback\n  1/0\nTypeError: no"), ["-ZeroDivisionError: .* (re)", "+TypeError: no"])
        self.assertEqual(changed("a\n...\nb\n...\nc", "x\n1\nb\n2\n3\nc"), ["-a", "+x"])
        self.assertEqual(changed("a\n...\nb\n...\nc", "a\n1\n2\n3\nc"), ["-b"])
        self.assertEqual(changed("a\n...\nb", "a"), ["-b"])

    def test_rules_that_make_other_lines(self) -> None:
        rules = Rules((Normal(re.compile("a\nb"), "AB"),))
        self.assertEqual(diff("a\nb\nq", "a\nb\nz", rules, "")[3:], [" AB", "-q", "+z"])

    def test_each_line_that_is_changed_is_shown(self) -> None:
        chance = random.Random(self.id())
        for _ in range(ROUNDS):
            came = [chance.choice([f"x{at}", f"0x{at}", f"{at}.25", "same"]) for at in range(chance.randint(1, 30))]
            wanted = [re.escape(line) + " (re)" if chance.random() < 0.3 else f"0x{at + 1}" if line.startswith("0x") else line for at, line in enumerate(came)]
            places = chance.sample(range(len(came)), chance.randint(1, min(3, len(came))))
            for at in places:
                wanted[at] = f"other {at}"
            expected = [f"-other {at}" for at in sorted(places)]
            found = changed("\n".join(wanted), "\n".join(came))
            self.assertEqual([line for line in found if line[0] == "-"], expected, (wanted, came))
            self.assertEqual(len(found), 2 * len(places), (wanted, came))
