"""Answers that are long: what is shown of them, what is said, and that a next weave finds them again."""
import os
import random
import unittest

from .support import ROOT, Case, answers, fences

from tmhost_weave.answers import ANSWER, ERROR, FORMULA, PICTURE, Piece
from tmhost_weave.cutting import LONGEST, NOTE, cut, size_of


class Cut(unittest.TestCase):
    def test_what_is_short_stays(self) -> None:
        several = [Piece(FORMULA, "$x$"), Piece(ANSWER, "y" * 97), Piece(ERROR, "z" * 100), Piece(PICTURE, "p" * 1000)]
        for pieces in (several[:0], [Piece(ANSWER, "x" * 100)], several):
            self.assertEqual(cut(pieces, 100), (pieces, 0))

    def test_the_beginning_and_how_much_is_left_out(self) -> None:
        self.assertEqual(cut([Piece(ANSWER, "x" * 101)], 100), ([Piece(ANSWER, "x" * 100 + "\n" + NOTE.format(1))], 1))
        self.assertEqual(cut([Piece(ANSWER, "x" * 90 + "\n" + "y" * 90)], 100), ([Piece(ANSWER, "x" * 90 + "\n" + NOTE.format(91))], 91))
        self.assertEqual(cut([Piece(ANSWER, "a\n" + "y" * 1234)], 100), ([Piece(ANSWER, "a\n" + "y" * 98 + "\n" + NOTE.format(1136))], 1136))
        self.assertEqual(cut([Piece(ANSWER, "\u00e9" * 4)], 5), ([Piece(ANSWER, "\u00e9\u00e9\n" + NOTE.format(4))], 4))
        self.assertEqual(cut([Piece(FORMULA, "$" + "x" * 100 + "$")], 10), ([Piece(ANSWER, "$" + "x" * 9 + "\n" + NOTE.format(92))], 92))

    def test_several_pieces(self) -> None:
        """Their texts count together, and errors and pictures after them stay."""
        pieces = [Piece(ANSWER, "a" * 60), Piece(FORMULA, "$" + "b" * 58 + "$"), Piece(ANSWER, "c"), Piece(PICTURE, "p"), Piece(ANSWER, "d" * 9), Piece(ERROR, "e" * 99)]
        wanted = [pieces[0], Piece(ANSWER, "$" + "b" * 39 + "\n" + NOTE.format(30)), pieces[3], pieces[5]]
        self.assertEqual(cut(pieces, 100), (wanted, 30))
        pieces = [Piece(ANSWER, "a" * 100), Piece(ANSWER, "b"), Piece(ERROR, "e" * 103)]
        self.assertEqual(cut(pieces, 100), ([pieces[0], Piece(ANSWER, NOTE.format(1)), Piece(ERROR, "e" * 100 + "\n" + NOTE.format(3))], 4))

    def test_what_an_adapter_has_left_out(self) -> None:
        """Its mark stays after the note, and counts as no bytes. A line that only has such words is a text like any other."""
        mark, other = "[1000002 bytes more]", "[7 bytes more]"
        self.assertEqual(cut([Piece(ANSWER, "x" * 101 + "\n" + mark)], 100), ([Piece(ANSWER, "x" * 100 + "\n" + NOTE.format(1) + "\n" + mark)], 1))
        self.assertEqual(cut([Piece(ANSWER, "x" * 100 + "\n" + mark)], 100), ([Piece(ANSWER, "x" * 100 + "\n" + mark)], 0))
        self.assertEqual(cut([Piece(ERROR, "x" * 101 + "\n" + mark)], 100), ([Piece(ERROR, "x" * 100 + "\n" + NOTE.format(1) + "\n" + mark)], 1))
        several = [Piece(ANSWER, "x" * 101 + "\n" + mark), Piece(FORMULA, "$y$"), Piece(ANSWER, "z\n" + other), Piece(ERROR, "no")]
        self.assertEqual(cut(several, 100), ([Piece(ANSWER, "\n".join(["x" * 100, NOTE.format(1 + 3 + 1), mark, other])), several[-1]], 5))
        in_a_quote = [Piece(ERROR, "x" * 101 + "\n" + mark + "\nError: no")]
        self.assertEqual(cut(in_a_quote, 100), ([Piece(ERROR, "\n".join(["x" * 100, NOTE.format(1 + 1 + 9), mark]))], 11))
        text = "x" * 90 + "\nso [7 bytes more]\n[x bytes more]"
        self.assertEqual(cut([Piece(ANSWER, text)], 100), ([Piece(ANSWER, "x" * 90 + "\n" + NOTE.format(len(text) - 90))], len(text) - 90))

    def test_random_pieces(self) -> None:
        """What is left out and what is shown are all of it."""
        for seed in range(300):
            chance = random.Random(seed)
            longest = chance.randrange(1, 40)
            pieces = [Piece(chance.choice((ANSWER, ERROR, FORMULA)), "".join(chance.choices("ab\n\u00e9\u20ac", k=chance.randrange(30)))) for _ in range(chance.randrange(6))]
            found, left_out = cut(pieces, longest)
            shown = [piece.text.split("\n") for piece in found]
            texts = ["\n".join(lines[:-1] if lines[-1].startswith("[") else lines) for lines in shown]
            self.assertEqual(sum(map(size_of, texts)) + left_out, sum(size_of(piece.text) for piece in pieces), seed)
            self.assertLessEqual(sum(size_of(text) for text, piece in zip(texts, found) if piece.kind != ERROR), longest)


class Woven(Case):
    def test_a_long_answer(self) -> None:
        """The worksheet has it whole, and the text is the same each time."""
        self.write("x" * 250_000, self.place("long"))
        self.write("z\n" * 100_000, self.place("lines"))
        long, lines = f"file {self.place('long')}", f"file {self.place('lines')}"
        formula = "latex $" + "y" * 3000 + "$"
        text = self.front("a") + fences([("a", "x"), ("a {fold}", long), ("a", lines), ("a", formula)]) + f"> ```a\n> {long}\n> ```\n"
        woven = self.weave(text)
        shown = answers(woven)
        self.assertEqual([len(one) for one in shown[1:]], [LONGEST + 1 + len(NOTE.format(150_000)), LONGEST - 1 + 1 + len(NOTE.format(100_000))])
        self.assertIn("> [150,000 bytes are left out here by tmhost-weave]\n> ```\n", woven)
        self.assertIn("\n$" + "y" * 3000 + "$\n", woven)
        self.assertLess(len(woven), 320_000)
        self.assertEqual([field["shown"].count("x") for field in self.fields() if field["input"] == long], [250_000] * 2)
        self.logged("a")
        for words in ([self.text], ["--check", self.text]):
            done = self.run_weave(*words)
            self.assertEqual((done.status, done.output, self.read()), (0, "", woven))
            said = done.errors.split("\n")[:-1]
            places = [at for at, line in enumerate(woven.split("\n"), 1) if line.lstrip("> ") in (long, lines)]
            self.assertEqual([line.split(" bytes")[0] for line in said], [f"{self.text}: line {at}: {count}" for at, count in zip(places, ("150,000", "100,000", "150,000"))])
            self.assertIn("text.sheet has them, and --longest BYTES shows more", said[0])
        self.assertEqual(self.run_weave("--test", self.text).status, 0)
        self.logged("a")
        whole = self.weave(woven, 0, "--longest", "1000000")
        self.assertNotIn("left out", whole)
        self.assertEqual((self.logged("a"), len(answers(whole)[1])), ([], 250_000))
        self.assertEqual(self.run_weave("--check", "--longest", "1000000", self.text).errors, "")
        self.assertEqual(self.weave(whole), woven)
        self.assertEqual(self.run_weave("--test", "--longest", "10", self.text).status, 1)

    def test_an_answer_that_its_adapter_has_cut(self) -> None:
        """Python's own adapter: both say what they left out, together all that there was, and a next weave finds it again."""
        front = f"---\nsessions: {{py: [{os.path.join(ROOT, 'adapters/bin/tmhost-python')}]}}\n---\n"
        woven = self.weave(front + fences([("py", "print('x' * 9_000_000)")]))
        shown = answers(woven)[0].split("\n")
        self.assertEqual([len(shown[0]), *shown[1:]], [LONGEST, NOTE.format(8_000_000 - LONGEST), "[1000001 bytes more]"])  # with the end of its line
        self.assertEqual(self.weave(woven), woven)
        self.assertIn(": 7,900,000 bytes of its answer are left out", self.run_weave("--check", self.text).errors)

    def test_a_long_formula_stands_as_text(self) -> None:
        woven = self.weave(self.front("a") + fences([("a", "latex $x^{" + "1" * 3000 + "}$"), ("a", "latex $y$")]), 0, "--longest", "1000")
        self.assertEqual(answers(woven), ["$x^{" + "1" * 996 + "\n" + NOTE.format(2006)])
        self.assertIn("<!-- tmhost-answer -->\n\n$y$\n", woven)
        self.assertEqual(self.weave(woven, 0, "--longest", "1000"), woven)

    def test_an_error_after_a_long_text(self) -> None:
        woven = self.weave(self.front("a") + fences([("a", "error " + "b" * 2000 + "|no way")]), 0, "--longest", "1000")
        self.assertIn(f"{'b' * 1000}\n{NOTE.format(1000)}\n```\n\n```tmhost-error\nno way\n```\n", woven)

    def test_words(self) -> None:
        self.write(self.front("a") + fences([("a", "x")]))
        for wrong in ("0", "-1", "x", "1_0", "1.5", ""):
            self.assertEqual(self.run_weave("--longest", wrong, self.text).status, 2)
