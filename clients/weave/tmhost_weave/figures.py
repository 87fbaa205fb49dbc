"""Pictures of the prose as pandoc shows them: one alone in its paragraph has its text below it, and `{width=50%}` after one is its width."""
import re
from typing import Any, List

ATTRIBUTES = re.compile(r"\{([^{}]*)\}")
WIDTH = re.compile(r"""(?:\A|[\s,])width\s*=\s*["']?(\d{1,4}(?:\.\d{1,4})?(?:%|px|em|rem|cm|mm|in|pt)?)(?=["'\s,]|\Z)""")
IMAGE, WITH_TEXT, STYLE = "image", "with text", "style"


def take_widths(children: List[Any]) -> None:
    """Takes attributes in braces out of the text after a picture. Of these the width is kept."""
    for image, after in zip(children, children[1:]):
        found = ATTRIBUTES.match(after.content) if image.type == IMAGE and after.type == "text" else None
        if found:
            after.content = after.content[found.end() :]
            width = WIDTH.search(found[1])
            image.meta[STYLE] = f"width:{width[1]}{'px' * width[1].isdigit()}" if width else ""


def add_figures(tokens: List[Any]) -> None:
    for before, token, after in zip(tokens, tokens[1:], tokens[2:]):
        if token.type != "inline":
            continue
        take_widths(token.children)
        seen = [one for one in token.children if one.type != "text" or one.content.strip()]
        if before.type == "paragraph_open" and not before.hidden and len(seen) == 1 and seen[0].type == IMAGE and seen[0].children:
            before.tag = after.tag = "figure"
            seen[0].meta[WITH_TEXT] = True
