"""Texts, the rows that they take, and completions in place of a front."""
import unittest

from .support import Screen  # the module puts the packages on the path

from tmhost import Completions
from tmhost_repl.completion import matches
from tmhost_repl.texts import after, columns, harmless, rows


class Texts(unittest.TestCase):
    def test_harmless(self) -> None:
        cases = {
            "plain text\twith a tab": "plain text\twith a tab",
            "caf\u00e9 \u2211 \u3000 \u00a0": "caf\u00e9 \u2211 \u3000 \u00a0",
            "\x1b[31mred\x07": "\\x1b[31mred\\x07",
            "\x9b31m \x7f": "\\x9b31m \\x7f",
            "a\u202eb\u2066c\ufeff": "a\\u202eb\\u2066c\\ufeff",
            "a\r\nb": "a\\x0d\nb",
            "a\u2028b": "a\nb",
            "\U000e0001": "\\U000e0001",
        }
        for text, shown in cases.items():
            self.assertEqual(harmless(text), shown)
        self.assertEqual(harmless(b"caf\xe9"), "caf\\xe9")

    def test_every_character_is_harmless(self) -> None:
        """Of all characters none that steers is left."""
        steering = [chr(n) for n in [*range(32), *range(127, 160), 0x200E, 0x200F, *range(0x2028, 0x202F), *range(0x2066, 0x206A)]]
        for character in steering:
            if character not in "\n\t\u202f":
                self.assertNotIn(character, harmless(f"a{character}b"))

    def test_rows(self) -> None:
        cases = {"": 1, "a" * 9: 1, "a" * 10: None, "a" * 11: 2, "a\nb": 2, "a\n" + "b" * 25: 4, "\u4e2d" * 6: 2, "a\tb": None, "e\u0301": None}
        for text, expected in cases.items():
            self.assertEqual(rows(text, 10), expected, repr(text))
        self.assertEqual(columns("\u4e2da"), 3)

    def test_after(self) -> None:
        self.assertEqual(after("In 1] ", "a\nb"), "a\n      b")
        self.assertEqual(after("first\n> ", "a\nb"), "a\n  b")

    def test_matches(self) -> None:
        self.assertEqual(matches(Completions("pri", ("nt(", "or")), "len(pri"), ["len(print(", "len(prior"])
        self.assertEqual(matches(Completions("pri", ("nt(",)), "len("), [])
        self.assertEqual(matches(Completions("a", ("b\x1b[2J", "\u202ec", b"\xff", "d")), "a"), ["a\\xff", "ad"])
        self.assertEqual(matches(None, "a"), [])


class Support(unittest.TestCase):
    """The screen of the tests itself."""

    def test_screen(self) -> None:
        screen = Screen(5)
        screen.feed("abcdefg\r\nx\x1b[2A\r\x1b[JZ\b\x1b[1@Y")
        self.assertEqual(screen.text(), "YZ")
