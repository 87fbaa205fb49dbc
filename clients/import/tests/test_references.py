"""Random texts, read by this reader and by the programs that say what the formats are: Emacs for Org, cmark for CommonMark."""
import json
import random
import shutil
import subprocess
import unittest

from random_commonmark import fences_by_cmark, random_markdown
from tmhost_fences.troubles import Trouble
from tmhost_import import fences, org

from .support import Case

BEGINS = [
    "#+begin_src python", "#+BEGIN_SRC R :session foo", "#+begin_src py :session *R* :eval no", "#+begin_src", "#+begin_srcx",
    "#+begin_src sh -n 5 :results output :session a b :exports both", "#+begin_src c -i :session none", "#+begin_src x :eval never-export",
    "#+begin_src y -n -r :var a=1 :eval never", "#+begin_src  z  :eval \"no\"",
]
# Longer than its indentation, without which Emacs 28 removes less.
FIRST = "code = 1 + 2 + 3 + 4 + 5 + 6 + 7 + 8 + 9"
BODIES = [FIRST, "code  ", "", "   ", ",* star", ",,* two", ",#+x", ", text", "\tcode", "        deep", "# c", "  - item"]
AROUND = [
    "#+end_src", "#+END_SRC", "* Head", "*bold*", "# comment", "#+begin_example", "#+end_example", "#+begin_quote", "#+end_quote", "- item",
    "text", "#+name: a", "\t#+begin_verse", "#+end_verse",
]
INDENTS = ["", "", " ", "  ", "\t", "  \t", "          "]
EMACS = """
(progn (require 'ob-core) (setq-default indent-tabs-mode nil)
  (dolist (file command-line-args-left)
    (with-temp-buffer
      (insert-file-contents file) (org-mode)
      (let ((found (org-element-map (org-element-parse-buffer) 'src-block
              (lambda (block)
                (let ((given (org-babel-parse-header-arguments (or (org-element-property :parameters block) "") t)))
                  (list (line-number-at-pos (org-element-property :post-affiliated block))
                        (or (org-element-property :language block) "")
                        (format "%s" (or (cdr (assq :session given)) "")) (format "%s" (or (cdr (assq :eval given)) ""))
                        (org-babel--normalize-body block)))))))
        (with-temp-file (concat file ".json") (insert (json-encode (vconcat found)))))))
  (setq command-line-args-left nil))
"""


def random_block(rng: random.Random) -> list[str]:
    indent = rng.choice(INDENTS)
    body = [rng.choice([indent, rng.choice(INDENTS)]) + rng.choice(BODIES) for _ in range(rng.randint(0, 4))]
    return [indent + rng.choice(BEGINS), rng.choice(INDENTS) + FIRST, *body, rng.choice([indent, ""]) + rng.choice(["#+end_src"] * 9 + ["#+end_sr"])]


def random_org(rng: random.Random) -> str:
    lines = []
    for _ in range(rng.randint(1, 4)):
        lines += random_block(rng) + [rng.choice(INDENTS) + rng.choice(AROUND) for _ in range(rng.randint(0, 2))]
    return "\n".join(lines) + "\n"


def their_blocks(found: list[list[str]]) -> list[tuple[str, str, str | None, str]]:
    """The blocks that Emacs sees and that aren't left out."""
    wanted = [block for block in found if block[1] and block[3] not in ("no", "never")]
    return [(f"the block in line {at}", name, None if session in org.NO_SESSION else session, text.rstrip("\n")) for at, name, session, _, text in wanted]


class References(Case):
    @unittest.skipUnless(shutil.which("cmark"), "there is no cmark")
    def test_fences(self) -> None:
        count = 0
        for seed in range(400):
            text = random_markdown(random.Random(seed))
            theirs = fences_by_cmark(text)
            ours = [(fence.info, "".join(line + "\n" for line in fence.lines)) for fence in fences.fences_of(text) if fence.info]
            self.assertEqual(ours, theirs, (seed, text))
            count += len(theirs)
        self.assertGreater(count, 100)

    @unittest.skipUnless(shutil.which("emacs"), "there is no Emacs")
    def test_org(self) -> None:
        texts = [random_org(random.Random(seed)) for seed in range(600)]
        files = [self.write(f"{number}.org", text) for number, text in enumerate(texts)]
        subprocess.run(["emacs", "-Q", "--batch", "--eval", EMACS, *files], check=True, capture_output=True)
        count = refused = 0
        for text, file in zip(texts, files):
            with open(f"{file}.json", encoding="utf-8") as reported:
                theirs = json.load(reported)
            try:
                ours = [(cell.place, cell.hints[0], cell.session, cell.text) for cell in org.read(text).cells]
            except Trouble as trouble:  # to Emacs this is text
                self.assertNotIn(int(str(trouble).split(":")[0].removeprefix("line ")), [block[0] for block in theirs], text)
                refused += 1
                continue
            self.assertEqual(ours, their_blocks(theirs), text)
            count += len(ours)
        self.assertGreater(count, 200)
        self.assertGreater(refused, 10)
