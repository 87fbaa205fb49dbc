"""How what came is compared with what is wanted, and what is said of rules."""
import dataclasses
import random
import re
import unittest
from decimal import Decimal
from fractions import Fraction
from typing import Callable, List, Tuple

from .support import Case, case
from tmhost_suite.rules import Normal, Rules, as_wanted, exactly


def alike(wanted: str, got: str, rules: Rules = Rules()) -> bool:
    return rules.are_alike(wanted, got, set())


class Lines(unittest.TestCase):
    def test_texts_are_compared_exactly(self) -> None:
        self.assertTrue(alike("a\nb", "a\nb"))
        self.assertFalse(alike("a\nb", "a\nb "))
        self.assertFalse(alike("a\nb", "a"))
        self.assertFalse(alike("3.0", "3.00"))

    def test_a_pattern_of_a_text_alone(self) -> None:
        """It matches that text and no other, and its blanks, signs and remarks stand as people write them."""
        self.assertEqual(exactly("<a b at 0x.> - [1, 2] # & ~"), r"<a b at 0x\.> - \[1, 2\] # & ~")
        chance = random.Random(7)
        for _ in range(3_000):
            text, other = ("".join(chance.choices(" -#&~\\.[](){}*+?^$|ab", k=chance.randint(0, 4))) for _ in range(2))
            pattern = exactly(text)
            self.assertEqual([bool(re.fullmatch(pattern, one)) for one in (text, other)], [True, other == text], pattern)

    def test_patterns_are_of_one_line(self) -> None:
        self.assertTrue(alike("a[0-9]+ (re)\nz", "a17\nz"))
        self.assertFalse(alike("a[0-9]+ (re)", "a17b"))
        self.assertTrue(alike("*.py (glob)", "x.py"))
        self.assertFalse(alike("*.py (glob)", "x.pyc"))

    def test_dots_stand_for_any_lines(self) -> None:
        self.assertTrue(alike("...", ""))
        self.assertTrue(alike("a\n...\nz", "a\nz"))
        self.assertTrue(alike("...\nb\n...\nb", "b\na\nb\nc\nb"))
        self.assertFalse(alike("a\n...\nz", "a\nb"))
        self.assertFalse(alike("...\nb", "b\nc"))

    def test_an_answer_is_wanted_as_it_is(self) -> None:
        for text in ("...", "x (re)", "x (glob)", "a\n..."):
            wanted = "\n".join(as_wanted(text))
            self.assertTrue(alike(wanted, text))
            self.assertFalse(alike(wanted, text + "\nmore"))
            self.assertFalse(alike(wanted, "y"))


class Numbers(unittest.TestCase):
    near = Rules(relative=Decimal("1e-6"))

    def test_a_rounded_number_may_be_near(self) -> None:
        self.assertTrue(alike("x = 3.14159265", "x = 3.14159266", self.near))
        self.assertFalse(alike("x = 3.1415", "x = 3.1416", self.near))
        self.assertFalse(alike("x = 3.14159265", "y = 3.14159266", self.near))
        self.assertTrue(alike("1.5 E-10", "1.5000000001 E-10", self.near))
        self.assertFalse(alike("1.5 E-10", "1.5 E-11", self.near))

    def test_an_integer_is_exact(self) -> None:
        self.assertFalse(alike("1000000000000", "1000000000001", self.near))
        self.assertFalse(alike("x1.y", "x2.y", Rules(absolute=Decimal(5))))

    def test_long_numbers_are_compared_in_full(self) -> None:
        long = "3." + "1" * 60
        self.assertFalse(alike(long, long[:-1] + "2", Rules(relative=Decimal("1e-80"))))

    def test_no_two_numbers_outside_of_the_tolerance_are_equal(self) -> None:
        chance = random.Random(1)
        for _ in range(3000):
            relative, absolute = (Decimal(10) ** chance.randint(-12, -1) for _ in range(2))
            one = Decimal(chance.randint(-10**9, 10**9)) / 10 ** chance.randint(1, 9)
            other = one * (1 + Decimal(chance.uniform(-0.01, 0.01)))
            texts = [f"v {value:.9f} w" for value in (one, other)]
            values = [Decimal(text.split()[1]) for text in texts]
            is_near = abs(values[0] - values[1]) <= max(absolute, relative * abs(values[0]))
            self.assertEqual(alike(texts[0], texts[1], Rules((), relative, absolute)), is_near, texts)


    def test_no_text_is_a_number(self) -> None:
        for wanted, got in (("v # w", "v 1.5 w"), ("# 1.0", "1.0 #"), ("1.5 ", "1.5"), ("\u0661.5", "1.5"), ("1.5 #", "# 1.5")):
            self.assertFalse(alike(wanted, got, self.near), (wanted, got))
            self.assertFalse(alike(got, wanted, self.near), (wanted, got))

    def test_numbers_out_of_all_bounds(self) -> None:
        one, other = "1.0e999999999999999999999", "1.0e5"
        self.assertFalse(alike(one, other, self.near) or alike(other, one, self.near) or alike(one, "1.5" + one[3:], self.near))
        self.assertTrue(alike(one, one, self.near))
        self.assertFalse(alike("1.0e-9999999", "1.1e-9999999", self.near))
        self.assertTrue(alike("1.0000000e9999999", "1.0000001e9999999", self.near))

    def test_a_number_that_is_cut_is_exact(self) -> None:
        rules = Rules(absolute=Decimal("0.5"), columns=8)
        for wanted, got in (("x = 1.23\n45 E10", "x = 1.2445 E10"), ("y = 1.2 \nE10", "y = 1.3 E10"), ("y= 1.2 E\n10", "y= 1.3 E10"), ("x = 1.5e\n+10", "x = 1.6e+10")):
            self.assertFalse(alike(wanted, got, rules), (wanted, got))
        self.assertTrue(alike("x = 1.23", "x = 1.24", rules))
        self.assertTrue(alike("1.5 text\n and", "1.6 text and", rules))


# What stands around numbers, and what rules make the same.
BETWEEN = ("#", "x =", "(", ")", "[", "E", "e", "a_", "^", "*", "/", "-", "+", "v1", "0", "\u0661", "...x", "\u00e9", "1.5x", "# #")
FREE = ((re.compile("0x[0-9a-f]+"), "ADDRESS"), (re.compile("in [0-9]+ ms"), "in TIME"), (re.compile("<id[0-9]+>"), "#"))
ROUNDS = 2000

Part = Tuple[str, str, bool]  # of one text, of the other, and whether they may be taken for the same


class Random(unittest.TestCase):
    """Lines with many numbers, of which it is known whether they are apart, under random rules."""

    def setUp(self) -> None:
        self.random = random.Random(self.id())

    def number(self, relative: Decimal, absolute: Decimal) -> Part:
        """Two numbers that are the same, near or apart, as texts, in one way of writing them."""
        digits, exponent = self.random.randint(1, 9), self.random.randint(-12, 12)
        one = self.random.randint(-(10**9), 10**9)
        change = self.random.choice([0, 0, 1, -1, self.random.randint(-(10**9), 10**9), int(one * Decimal(self.random.uniform(-2, 2)) * relative)])
        form = self.random.choice(["{}", "{}e{}", "{} E{}"])
        texts = [form.format(f"{Decimal(value).scaleb(-digits):.{digits}f}", exponent) for value in (one, one + change)]
        scale = Fraction(10) ** ((exponent if "E" in form.upper() else 0) - digits)
        is_near = abs(change) * scale <= max(Fraction(absolute), Fraction(relative) * abs(one) * scale)
        return texts[0], texts[1], is_near

    def integer(self) -> Part:
        one = self.random.randint(-999, 10**12)
        other = one + self.random.choice([0, 0, 0, 0, 1])
        return str(one), str(other), one == other

    def other(self, is_free: bool) -> Part:
        """Texts that are the same, or by a rule, or a number against what isn't one."""
        kind = self.random.random()
        if kind < 0.1:
            return "#", "1.5", False
        if kind < 0.3:
            form = self.random.choice(["0x{}", "in {} ms", "<id{}>"])
            one, other = self.random.randint(0, 9), self.random.randint(0, 9)
            return form.format(one), form.format(other), is_free or one == other
        text = self.random.choice(BETWEEN)
        return text, text, True

    def parts(self, rules: Rules) -> List[Part]:
        makers: List[Callable[[], Part]] = [lambda: self.number(rules.relative, rules.absolute), self.integer, lambda: self.other(bool(rules.normal))]
        return [self.random.choices(makers, (5, 1, 4))[0]() for _ in range(self.random.randint(1, 6))]

    def rules(self) -> Rules:
        relative, absolute = (self.random.choice([Decimal(0), Decimal(10) ** self.random.randint(-12, 1)]) for _ in range(2))
        normal = tuple(Normal(*rule) for rule in FREE) if self.random.random() < 0.5 else ()
        return Rules(normal, relative, absolute, self.random.random() < 0.5)

    def test_numbers_outside_of_the_tolerance_are_never_equal(self) -> None:
        seen = {True: 0, False: 0}
        for _ in range(ROUNDS):
            rules = self.rules()
            parts = self.parts(rules)
            blanks = "  " if rules.any_spaces and self.random.random() < 0.5 else " "
            texts = " ".join(part[0] for part in parts), blanks.join(part[1] for part in parts)
            is_same = all(part[2] for part in parts)
            seen[is_same] += 1
            self.assertEqual(alike(*texts, rules), is_same, (texts, rules))
        self.assertGreater(min(seen.values()), ROUNDS // 10, seen)

    def test_nor_where_lines_are_cut(self) -> None:
        seen = 0
        for _ in range(ROUNDS):
            rules = dataclasses.replace(self.rules(), normal=(), columns=self.random.randint(3, 30))
            parts = [part for part in self.parts(rules) if not part[0].startswith(("<", "in ", "0x"))]
            one, other = " ".join(part[0] for part in parts), " ".join(part[1] for part in parts)
            wanted = "\n".join(one[at : at + (rules.columns or 1)] for at in range(0, max(1, len(one)), rules.columns or 1))
            if not all(part[2] for part in parts):
                seen += 1
                self.assertFalse(alike(wanted, other, rules), (wanted, other, rules))
            self.assertTrue(alike(wanted, one, rules), (wanted, rules))
        self.assertGreater(seen, ROUNDS // 10)

    def test_no_text_ends_a_comparison(self) -> None:
        """Texts of numbers' characters are compared, whatever they are, and the same ones are alike."""
        for _ in range(ROUNDS):
            texts = ["".join(self.random.choices("0123456789.eE+- #\n", k=self.random.randint(0, 30))) for _ in range(2)]
            rules = self.rules()
            alike(texts[0], texts[1], rules)
            self.assertTrue(alike(texts[0], texts[0], rules))


class Normals(unittest.TestCase):
    def test_rules_apply_to_both_in_turn(self) -> None:
        rules = Rules((Normal(re.compile("0x[0-9a-f]+"), "ADDRESS"), Normal(re.compile("ADDRESS at .*"), "ADDRESS")))
        applied: "set[int]" = set()
        self.assertTrue(rules.are_alike("<o 0x12 at noon>", "<o 0xab at night>", applied))
        self.assertEqual(applied, {0, 1})

    def test_a_rule_that_finds_nothing_is_known(self) -> None:
        applied: "set[int]" = set()
        self.assertFalse(Rules((Normal(re.compile("z"), ""),)).are_alike("a", "b", applied))
        self.assertEqual(applied, set())


class Said(Case):
    def test_rules_that_find_nothing_are_reported(self) -> None:
        self.write(case("say 0x12", "0xff"), more="normal: {'0x[0-9a-f]+': N, 'never': M}\n")
        ran = self.run_suite(self.path, "--verbose")
        self.assertEqual(ran.status, 0)
        self.assertIn("the rule 'never' found nothing", ran.output)
        self.assertNotIn("'0x[0-9a-f]+' found nothing", ran.output)
        self.assertIn(f"normalised: {self.path}:8 say 0x12\n  N\n", ran.output)

    def test_rules_of_one_case(self) -> None:
        self.write(case("say 17 ms", "TIME", "a {normal '[0-9]+ ms' TIME}"), case("say 17 ms", "TIME"), case("say 1.01", "1.0", "a {tolerance 0.1} {normal z y}"), case("say 1.01", "1.0"))
        self.assertEqual(self.verdicts(self.path), ["ok", "differs", "ok", "differs"])
        self.assertIn("say 1.01: its rule 'z' found nothing", self.outcome.output)
        self.assertNotIn("ms' found nothing", self.outcome.output)
