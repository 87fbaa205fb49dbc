"""Which words are misspellings of which."""
import unittest

import support  # the place of the package

from tmhost.near import distance, near

WORDS = ("gp", "py", "answer", "error", "maxima", "tex")


class Near(unittest.TestCase):
    def test_words_with_a_letter_or_two_wrong(self) -> None:
        meant = {"anwser": "answer", "awnser": "answer", "answers": "answer", "anser": "answer", "asnwre": "answer", "eror": "error", "errro": "error"}
        meant.update({"pyy": "py", "gpp": "gp", "Py": "py", "PY": "py", "Answer": "answer", "maxma": "maxima", "py3": "py"})
        self.assertEqual({word: near(word, WORDS) for word in meant}, meant)

    def test_other_words(self) -> None:
        """Those of two letters are as likely another language, and of short words two letters make another one."""
        for word in ("py", "answer", "", "js", "sh", "c", "r", "sage", "bash", "latex", "json", "python", "console", "output", "wanted", "and"):
            self.assertIsNone(near(word, WORDS), word)

    def test_the_nearest_one_is_meant(self) -> None:
        self.assertEqual(near("answerr", ("anwsers", "answer")), "answer")
        self.assertEqual(near("gp3", ("gp1", "gp2")), "gp1")

    def test_letters_that_changed_places_are_one(self) -> None:
        self.assertEqual([distance(*pair) for pair in (("anwser", "answer"), ("", "abc"), ("abc", ""), ("same", "same"), ("ab", "ba"), ("ab", "cd"))], [1, 3, 3, 0, 1, 2])
