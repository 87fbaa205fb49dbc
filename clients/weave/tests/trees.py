"""What other readers make of a text: trees of blocks, from which the answers after fences of sessions are taken."""
import json
import re
import shutil
import subprocess
import xml.etree.ElementTree
from typing import Any, List, Optional, Tuple

CMARK, PANDOC = shutil.which("cmark"), shutil.which("pandoc")
MARKS = ("<!-- tmhost-answer -->", "<!-- /tmhost-answer -->", "<!-- tmhost-answer --><details><summary>Answer</summary>", "<!-- tmhost-answer --></details>")

# A block: its kind with its attributes, its text, and the blocks in it.
Tree = Tuple[str, str, Tuple[Any, ...]]


def body_of(text: str) -> str:
    """What stands after the front matter."""
    return re.sub(r"\A---(\r\n|\n|\r).*?[\r\n]---(\r\n|\n|\r)", "", text, flags=re.DOTALL)


def cmark_tree(text: str) -> Tree:
    done = subprocess.run([CMARK or "", "-t", "xml"], input=body_of(text).encode("utf-8", "surrogateescape"), capture_output=True, check=True)
    # What no XML can hold is put aside: the trees alone are compared.
    clean = re.sub(r"[\x00-\x08\x0b\x0c\x0e-\x1f\ufffe\uffff]", "?", done.stdout.decode("utf-8", "replace"))
    return xml_tree(xml.etree.ElementTree.fromstring(clean))


def xml_tree(node: Any) -> Tree:
    name = node.tag.split("}")[-1]
    attributes = "".join(f" {key}={value}" for key, value in sorted(node.attrib.items()) if not key.endswith("space"))
    return name + attributes, node.text or "" if not len(node) else "", tuple(xml_tree(child) for child in node)


def pandoc_tree(text: str) -> Any:
    words = [PANDOC or "", "-f", "commonmark", "-t", "json"]
    done = subprocess.run(words, input=body_of(text).encode("utf-8", "replace"), capture_output=True, check=True)
    return json.loads(done.stdout)["blocks"]


def is_answer(tree: Tree) -> bool:
    kind, text, inner = tree
    return kind in ("code_block info=tmhost-answer", "code_block info=tmhost-error", "code_block info=tmhost-no-answer") or (kind == "html_block" and text.strip() in MARKS)


def is_formula(trees: Tuple[Any, ...], at: int) -> bool:
    """Whether a block stands between the marks of a formula."""
    around = [trees[place] if 0 <= place < len(trees) else None for place in (at - 1, at + 1)]
    return [tree and tree[1].strip() for tree in around] == [MARKS[0], MARKS[1]]


def without_answers(tree: Tree) -> Tree:
    kind, text, inner = tree
    kept = [child for at, child in enumerate(inner) if not is_answer(child) and not is_formula(inner, at)]
    return kind, text, tuple(without_answers(child) for child in kept)


def kinds(tree: Tree) -> List[str]:
    found = [tree[0].split(" ")[0]]
    for child in tree[2]:
        found += kinds(child)
    return found


def codes(tree: Tree, info: str) -> List[str]:
    """The texts of the blocks of code with an info string, in order."""
    found = [tree[1]] if tree[0] == f"code_block info={info}" else []
    for child in tree[2]:
        found += codes(child, info)
    return found


def first_code(blocks: Any) -> Optional[str]:
    return next((block["c"][1] for block in blocks if block["t"] == "CodeBlock"), None)
