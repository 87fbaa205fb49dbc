"""Which fences a text has, as CommonMark says it and as cmark sees it."""
import random
import shutil
import unittest
from typing import Dict, List, Tuple

from random_commonmark import fences_by_cmark, random_markdown
from tmhost_fences.blocks import Block, blocks_of

MORE = ["[a]: /b"]  # lines
TEXTS = 400
RARE = 4  # of so many texts, in which markdown-it doesn't agree with cmark in a corner of lists
# Texts, each with the lines and info strings of its fences, and what stands in them.
FENCES: Dict[str, List[Tuple[int, str, List[str]]]] = {
    "```python\nx\n```": [(0, "python", ["x"])],
    "~~~~ r  \n~~~\n```\n~~~~~  \n": [(0, "r", ["~~~", "```"])],
    "   ```x\n   a\n b\n    c\n    ```\n  ```\n": [(0, "x", ["a", "b", " c", " ```"])],
    "    ```x\n    ```\n": [],
    "``` a`b\n": [],
    "text\n```x\n1": [(1, "x", ["1"])],
    "> ```x\n> 1\n>2\n> ```\n> ~~~y\ntext\n": [(0, "x", ["1", "2"]), (4, "y", [])],
    "- ```x\n  1\n   2\n  ```\n- text\n\n      ```y\n      ```\n": [(0, "x", ["1", " 2"])],
    "1.  a\n\n    ~~~x\n    1\n\n    2\n\n```y\n": [(2, "x", ["1", "", "2", ""]), (7, "y", [])],
    "- a\n  > ```x\n  > 1\n  > ```\n": [(1, "x", ["1"])],
    "<!--\n```x\n-->\n```y\n": [(3, "y", [])],
    "<div>\n```x\n\n```y\n": [(3, "y", [])],
    "[a]: /b\n```x\n```\n[c]:\n```y\n```\n": [(1, "x", []), (4, "y", [])],
    "*\t```x\n\t1\n": [(0, "x", ["1"])],
    "a\n2. ```x\n": [],
    "a\n1. ```x\n": [(1, "x", [])],
    "```x\n\0\n```": [(0, "x", ["\1"])],
}


def found_in(text: str) -> List[Block]:
    return blocks_of((text[:-1] if text.endswith("\n") else text).split("\n"))


class Blocks(unittest.TestCase):
    def test_fences(self) -> None:
        for text, blocks in FENCES.items():
            self.assertEqual([(block.begin, block.info_text, list(block.content)) for block in found_in(text)], blocks, text)

    def test_where_they_end(self) -> None:
        for text, begin, end, before_end, is_closed, is_within in (
            ("a\n```x\n1\n```\nb", 1, 4, "", True, False), ("> ~~~x\n> ~~~", 0, 2, "> ", True, True), ("- ```x\n  1\n  ````", 0, 3, "  ", True, True),
            ("```x\n1", 0, 2, "1", False, False), ("- ```x\n  1\n- a", 0, 2, "  1", False, True), ("```x", 0, 1, "```x", False, False), ("```", 0, 1, "", False, False),
        ):
            block = found_in(text)[0]
            self.assertEqual((block.begin, block.end, block.before_end, block.is_closed, block.is_in_container), (begin, end, before_end, is_closed, is_within), text)

    def test_the_first_lines_may_be_left_out(self) -> None:
        block = blocks_of(["```a", "x", "```y", "```"], 2)[0]
        self.assertEqual((block.begin, block.end, block.info_text), (2, 4, "y"))

    def test_deep_containers(self) -> None:
        for text in (">" * 10_000 + "```x\n", "- " * 10_000 + "```x\n", " " * 10_000 + "```x\n"):
            self.assertEqual(found_in(text), [])

    @unittest.skipUnless(shutil.which("cmark"), "there is no cmark")
    def test_as_cmark_sees_them(self) -> None:
        count, others = 0, []
        for seed in range(TEXTS):
            text = random_markdown(random.Random(seed), MORE)
            theirs = fences_by_cmark(text)
            ours = [(block.info_text, "".join(line + "\n" for line in block.content)) for block in found_in(text) if block.info_text]
            others += [] if ours == theirs else [text]
            count += len(theirs)
        self.assertGreater(count, 100)
        self.assertLessEqual(len(others), RARE, others)
