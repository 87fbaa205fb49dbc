"""Texts without the program: which fences are found, that nothing but answers is put in, and that these are found again.

TMHOST_DOCUMENTS says how many random texts are tried.
"""
import os
import random
import sys
import unittest
from typing import List, Tuple

from . import support  # finds the packages
from .trees import CMARK, Tree, cmark_tree, codes, without_answers

from tmhost_weave.answers import ANSWER, ERROR, FORMULA, NO_ANSWER, Piece, Shown, longest_run  # noqa: E402
from tmhost_weave.document import Document  # noqa: E402
from tmhost_fences.fields import LINE_END  # noqa: E402
from tmhost_fences.troubles import Trouble  # noqa: E402

DOCUMENTS = int(os.environ.get("TMHOST_DOCUMENTS", "1000"))
FRONT = "---\nsessions: {py: [adapters/python], sh: [adapters/prompted.py, sh], pari: [adapters/gp, --text]}\n---\n"
PREFIXES = ["", "", "", "", "> ", ">", "- ", "  ", "    ", "1. ", "   ", "\t", "> > ", "> - ", ">   ", "-\t", "10) ", "* - ", "     "]
BODIES = [
    "text", "```py", "```", "~~~py {hide}", "~~~", "````", "# head", "---", "===", "<div>", "</div>", "<!-- x", "-->", "[a]: /b", "", "", "x = 1",
    "\tcode", "``` {.sh .fold}", "```c", "````py {pure}", "é \u2028 \u202e", "\0", "```sh", "if x:", "    y", "```sh {fold}", "`code` *a*",
    "<pre>", "</pre>", "\\", "- ", "|a|b|", "|-|-|", "\ufeff", "\udc80",
]
HOSTILE = [
    "4", "```", "````\n<b>", "~~~\n# x", "<script>alert(1)</script>", "[a](javascript:b)", "\u202e", "\\x00", "```tmhost-answer", "```py\nx\n```", "> q",
    "- a", "\ta\n \tb", "   ", "a\n\n\nb", "-->", "<!-- tmhost-answer -->", "<!-- /tmhost-answer -->", "</details>", "---", "\n", "\n\n", " x ",
    "`" * 40, "```\n~~~\n```", "[a]: /b", "===", "<div>", "\u2028```\u2028", "\x85```\x85", "\\", "a\\", "&lt;", "<![CDATA[", "<?php", "\ufeff```",
]


def random_text(chance: random.Random) -> str:
    """A text that is likely to have fences in quotes and lists."""
    ends = chance.choice([["\n"], ["\n"], ["\r\n"], ["\n", "\r\n", "\r"]])
    parts: List[str] = []
    while len(parts) < chance.randrange(4, 30):
        prefix = chance.choice(PREFIXES)
        if chance.random() < 0.5:
            quoted = prefix.replace("-", " ").replace("*", " ").replace("1.", "  ").replace("10)", "   ")
            info = chance.choice(["py", "sh", "py {fold}", "sh {hide}", "c", ""])
            mark = chance.choice(["```", "~~~", "````"])
            parts.append(prefix + mark + info)
            parts += [quoted + chance.choice(BODIES) for _ in range(chance.randrange(3))]
            parts.append(quoted + mark)
        else:
            parts.append(prefix + chance.choice(BODIES))
    text = "".join(part + chance.choice(ends) for part in parts)
    return FRONT + (text if chance.random() < 0.8 else text.rstrip("\r\n"))


def random_shown(chance: random.Random, is_in_container: bool) -> Shown:
    pieces = []
    for _ in range(chance.randrange(3)):
        kind = chance.choice([ANSWER, ANSWER, ERROR, NO_ANSWER] + [FORMULA] * (not is_in_container))
        pieces.append(Piece(kind, "$x^2$" if kind == FORMULA else "\n".join(chance.choice(HOSTILE) for _ in range(chance.randrange(1, 4)))))
    return Shown(tuple(pieces), bool(pieces) and chance.random() < 0.3)


def contents(shown: List[Shown], kind: str) -> List[str]:
    return [piece.text + "\n" for one in shown for piece in one.pieces if piece.kind == kind]


class Random(unittest.TestCase):
    def documents(self, seed: str, number: int) -> List[Tuple[str, Document]]:
        """Random texts whose fences of sessions are closed, and which have one."""
        chance = random.Random(seed)
        found: List[Tuple[str, Document]] = []
        while len(found) < number:
            text = random_text(chance)
            try:
                document = Document(text)
            except Trouble:
                continue
            if document.fences:
                found.append((text, document))
        return found

    def test_nothing_else_changes(self) -> None:
        chance = random.Random("answers")
        deep = 0
        for text, document in self.documents("texts", DOCUMENTS):
            self.assertEqual(document.bare, text)
            shown = [random_shown(chance, fence.is_in_container) for fence in document.fences]
            woven = document.checked(shown)
            again = Document(woven)
            self.assertEqual(again.bare, text)
            self.assertEqual([fence.old for fence in again.fences], shown)
            self.assertEqual(again.checked(shown), woven)
            other = [random_shown(chance, fence.is_in_container) for fence in document.fences]
            self.assertEqual(again.checked(other), document.checked(other))
            deep += sum(fence.is_in_container for fence in document.fences)
        self.assertGreater(deep, DOCUMENTS / 4)

    @unittest.skipUnless(CMARK, "there is no cmark")
    def test_as_cmark_reads_it(self) -> None:
        """Beside the answers cmark sees the same blocks, tight lists included, and each answer as the text that it is."""
        chance = random.Random("cmark")
        tried = 0
        for text, document in self.documents("read", max(10, DOCUMENTS // 4)):
            shown = [random_shown(chance, fence.is_in_container) for fence in document.fences]
            before, after = cmark_tree(text), cmark_tree(document.checked(shown))
            if self.is_seen_alike(before, document):
                self.assertEqual(without_answers(after), before, text)
                self.assertEqual(codes(after, ANSWER), [clean(one) for one in contents(shown, ANSWER)], text)
                for kind in (ERROR, NO_ANSWER):
                    self.assertEqual(codes(after, kind), [clean(one) for one in contents(shown, kind)], text)
                tried += 1
        print(f"cmark: {tried} random texts", file=sys.stderr)
        self.assertGreater(tried, DOCUMENTS // 8)

    def is_seen_alike(self, tree: Tree, document: Document) -> bool:
        """Whether cmark sees the same fences as markdown-it, which doesn't agree with it in rare corners."""
        theirs = sum(len(codes(tree, info)) for info in {" ".join(i.split()) for i in infos(tree)} if names_session(info))
        return theirs == len(document.fences)


def clean(text: str) -> str:
    return text.replace("\0", "\ufffd")


def infos(tree: Tree) -> List[str]:
    found = [tree[0].partition("info=")[2]] if tree[0].startswith("code_block info=") else []
    for child in tree[2]:
        found += infos(child)
    return found


def names_session(info: str) -> bool:
    return info.replace("{.", "").split(" ")[0].strip("}") in ("py", "sh") or info.startswith("{.sh") or info.startswith("{.py")


class Reading(unittest.TestCase):
    def one(self, text: str) -> Document:
        return Document(FRONT + text)

    def inputs(self, code: str, flags: str = "", session: str = "py") -> List[str]:
        document = self.one(f"```{session} {flags}\n{code}\n```\n")
        return [group.input.replace(LINE_END, "|") for group in document.fences[0].groups]

    def test_groups(self) -> None:
        self.assertEqual(self.inputs("a\n\nb\n c\n\n d\ne"), ["a", "b| c|| d", "e"])
        self.assertEqual(self.inputs("if x:\n  y\nelse:\n  z\nf(\n  1,\n)\n@d\ndef f():\n  1"), ["if x:|  y|else:|  z", "f(|  1,|)", "@d|def f():|  1"])
        self.assertEqual(self.inputs("f(n) =\n{\nn + 1\n\n}\nf(2)"), ["f(n) =|{|n + 1||}", "f(2)"])
        self.assertEqual(self.inputs("a = [1,2;\n3,4]\nx = \\\n3\nx"), ["a = [1,2;|3,4]", "x = \\|3", "x"])
        self.assertEqual(self.inputs("print('{', \"(\")\n1\n# see (a\nx = {\ny"), ["print('{', \"(\")", "1", "# see (a", "x = {", "y"])
        self.assertEqual(self.inputs("x = (\n" + "y\n" * 2048 + ")"), ["x = (|" + "y|" * 2048 + ")"])
        self.assertEqual(self.inputs("a\n\nb", "{whole}"), ["a||b"])
        self.assertEqual(self.inputs("a\nb", "{pure}"), ["a|b"])
        self.assertEqual(self.inputs("\n  \n"), [])
        self.assertEqual(self.inputs(" a\nb"), [" a", "b"])

    def test_groups_of_gp(self) -> None:
        """Its remarks and texts hold no lines but their own."""
        self.assertEqual(self.inputs("/* a (\n\n'b */\nx", session="pari"), ["/* a (||'b */", "x"])
        self.assertEqual(self.inputs("1 \\\\ see (a\n2)\n\"[\" /* { */\n3]", session="pari"), ["1 \\\\ see (a", "2)", "\"[\" /* { */", "3]"])
        self.assertEqual(self.inputs("g = 'x + f('y,\n'z)\nf'(0)", session="pari"), ["g = 'x + f('y,|'z)", "f'(0)"])
        self.assertEqual(self.inputs("f(n) = \\\\ a remark\n{\nn # 1\n}\nx = 1 + \\\n2\na \\\\ b =\nc", session="pari"), ["f(n) = \\\\ a remark|{|n # 1|}", "x = 1 + \\|2", "a \\\\ b =", "c"])
        self.assertEqual(self.inputs("/* open\nx\ny", session="pari"), ["/* open|x|y"])
        self.assertEqual(self.inputs("/* open\nx\ny"), ["/* open", "x", "y"])

    def test_info_strings(self) -> None:
        for info, flags in [
            ("py", []), ("py {hide}", ["hide"]), ("py {.hide fold}", ["fold", "hide"]), ("{.py .pure}", ["pure"]), ("{.py}", []), ("py title=x {whole}", ["whole"]),
            ("py {1,3-4}", []), ("py {.numberLines #a b=c}", []), ("\tpy\t{hide}", ["hide"]),
            ("{py}", []), ("{py plot, echo=FALSE}", []), ("{py hide, whole}", []),
        ]:
            fence = self.one(f"~~~ {info}\nx\n~~~\n").fences[0]
            self.assertEqual((fence.session, sorted(fence.flags)), ("py", flags), info)
        for info in ["python", "py{hide}", "{python}", "{py, eval=FALSE}", "", "c {hide}", "{hide}", "{#py}", "tmhost-answer"]:
            self.assertEqual(self.one(f"~~~ {info}\nx\n~~~\n").fences, [], info)
        with self.assertRaisesRegex(Trouble, "line 4: 'hidden'"):
            self.one("```py {hidden}\nx\n```\n")

    def test_unclosed(self) -> None:
        for text in ["```py\nx", "```py\nx\n", "> ```py\n> x\n", "- ```py\n  x\n- a\n", "```py\n", "```py"]:
            with self.assertRaisesRegex(Trouble, "line 4 isn't closed"):
                self.one(text)

    def test_front_matter(self) -> None:
        for front in ["", "---\ntitle: x\n---\n", "---\nsessions:\n---\n", "---\nsessions: {py: [a]}\n", " ---\nsessions: {py: [a]}\n---\n", "---\nsessions: {sh: [a]}\n---\n"]:
            text = front + "```py\nx\n```\n"
            self.assertEqual(Document(text).fences, [], front)
            self.assertEqual(Document(text).bare, text)
        for front in ["---\nsessions: {py: [a]}\n...\n", "\ufeff---\r\ntitle: x\r\nsessions:\r\n  py: a\r\n---\r\n"]:
            self.assertEqual(Document(front + "```py\nx\n```\n").sessions, {"py": ("a",)})
        self.assertEqual(Document("---\nsessions: {no: a  b, 1: [010]}\n---\n").sessions, {"no": ("a", "b"), "1": ("010",)})
        for wrong in ["sessions: {a-b: [x]}", "sessions: {a: [x y]}", "sessions: {a: []}", "sessions: [a]", "sessions: {a: x, a: y}", "sessions: {a: {b: c}}", "sessions: {"]:
            with self.assertRaises(Trouble, msg=wrong):
                Document(f"---\n{wrong}\n---\n")

    def test_what_an_author_made_of_answers(self) -> None:
        woven = self.one("```py\nx\n```\n\n```py\ny\n```\n").checked([Shown((Piece(ANSWER, "1"),)), Shown((Piece(ANSWER, "2"),))])
        lost = woven.replace("1\n```\n", "1\n", 1)
        with self.assertRaisesRegex(Trouble, "line 8 begins an answer"):
            Document(lost)
        with self.assertRaises(Trouble):
            Document(woven[: woven.rindex("```")])
        between = woven.replace("\n```tmhost-answer\n1", "\n[a]: /b\n\n```tmhost-answer\n1")
        self.assertEqual(Document(between).fences[0].old, Shown())
        self.assertIn("[a]: /b", Document(between).bare)
        apart = woven.replace("```tmhost-answer\n1", "Words.\n\n```tmhost-answer\n1")
        self.assertEqual(Document(apart).bare.count("tmhost-answer"), 1)
        moved = woven.replace("\n```tmhost-answer\n1", "\n\n\n  ````tmhost-answer\n  1").replace("1\n```", "1\n  ````")
        self.assertEqual(Document(moved).bare, Document(woven).bare)

    def test_marks_without_their_ends(self) -> None:
        for wrong in ["<!-- tmhost-answer -->\n\n$x$\n\nText\n", "<!-- tmhost-answer -->\n", "<!-- tmhost-answer -->\n\na\nb\n\n<!-- /tmhost-answer -->\n",
                      "<!-- tmhost-answer --><details><summary>Answer</summary>\n\nText\n\n<!-- tmhost-answer --></details>\n"]:
            with self.assertRaisesRegex(Trouble, "line 8 begins an answer", msg=wrong):
                self.one("```py\nx\n```\n\n" + wrong)
        for other in ["<!-- tmhost-answer --> x\n", "<!-- /tmhost-answer -->\n", "    ```tmhost-answer\n"]:
            self.assertIn(other, self.one("```py\nx\n```\n\n" + other).bare)

    def test_fence_is_longer_than_any_run(self) -> None:
        self.assertEqual([longest_run(text) for text in ["", "a", "`", "a```b``"]], [0, 0, 1, 3])


del support
