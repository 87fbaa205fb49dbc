"""Random CommonMark, and its fences as cmark sees them: what the readers of two clients are tested with."""

import random
import subprocess
import xml.etree.ElementTree
from typing import List, Sequence, Tuple

TAG = "{http://commonmark.org/xml/1.0}code_block"
# No tabs: before a fence cmark counts one as a single column.
STARTS = ["", "", "", " ", "  ", "   ", "    ", "> ", ">", "> > ", "- ", "-", "+ ", "* ", "1. ", "2. ", "10) ", "-   ", "-     ", "      "]
LINES = [
    "```py", "```", "````", "~~~r", "~~~", "``` a b", "```a`b", "~~~ x`y", "text", "", "", "# head", "#text", "---", "===", "* * *", "- - -", "___",
    "<div>", "</div>", "<!-- c", "-->", "<pre>", "</pre>", "<b>", "<b x='1'>", "<?p", "?>", "<!X", ">", "1. one", "3. three", "-", "=", "`````js", "<a", "]]>",
]


def random_markdown(rng: random.Random, more: Sequence[str] = ()) -> str:
    """A text of such lines, or of these too, each after starts of quotes and lists."""
    lines = [*LINES, *more]
    starts = ["".join(rng.choices(STARTS, k=rng.choice([0, 1, 1, 2, 3]))) for _ in range(rng.randint(1, 14))]
    return "\n".join(start + rng.choice(lines) for start in starts) + "\n"


def fences_by_cmark(text: str) -> List[Tuple[str, str]]:
    """The info string and the text of each fence that has an info string."""
    done = subprocess.run(["cmark", "-t", "xml"], input=text.encode("utf-8"), stdout=subprocess.PIPE, check=True)
    blocks = xml.etree.ElementTree.fromstring(done.stdout).iter(TAG)
    return [(block.get("info", ""), block.text or "") for block in blocks if block.get("info")]
