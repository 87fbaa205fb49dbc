"""The first lesson of README: each step as it says, with what is to be pasted."""

import os
import re
import subprocess
import unittest

from harness import AS_SHOWN, IN_TEXT, NOTEBOOK, PROGRAM, PageCase, needs_chromium, needs_program, opened

FENCE = re.compile(r"^```(\w+)[^\n]*\n(.*?)\n```$", re.MULTILINE | re.DOTALL)
SUGGESTED = "[...document.querySelectorAll('#session-known button')].find((one) => one.textContent === 'python').click()"
CELLS = "[...document.querySelectorAll('.cell')].map((cell) => [cell.dataset.state, cell.dataset.text, cell.querySelector('.output pre').textContent])"
PROSE = "document.querySelectorAll('.cell.prose').length"
EXPORTED = "fetch('export/html').then((reply) => reply.text())"


def lesson() -> str:
    with open(os.path.join(NOTEBOOK, "README.md"), encoding="utf-8") as file:
        return file.read().partition("\n## Your first lesson\n")[2].partition("\n## ")[0]


@needs_program
@needs_chromium
class FirstLesson(PageCase):
    def test_each_step(self) -> None:
        pasted = dict(FENCE.findall(lesson()))
        answer = re.search(r"gives its answer, `([^`]+)`", lesson())
        assert answer
        server = self.serve()
        tab = opened(self.browse(), server)
        tab.click("[data-do=askSession]")
        tab.until("document.activeElement.id", "session-name")
        tab.value(SUGGESTED)
        tab.click("#session-make")
        tab.until(IN_TEXT, "cell-1")
        tab.key("Escape")
        tab.key("m")
        tab.until(PROSE, 1)
        tab.key("Enter")
        tab.until("document.activeElement.closest('.cell.prose')?.querySelector('textarea') === document.activeElement")
        tab.type(pasted["markdown"])
        tab.key("Escape")
        tab.click("[data-do=addCell]")
        tab.until(f"{CELLS}.length", 2)
        tab.until("document.activeElement.localName", "textarea")
        tab.type(pasted["python"])
        tab.key("Enter", "Control")
        wanted = [["saved", ""], ["saved", answer[1]]]
        tab.until(CELLS, lambda found: [one[1:] for one in found] == wanted)
        shown = tab.value(AS_SHOWN)
        self.assertEqual(self.show(), shown)
        self.assertIn(answer[1].replace("'", "&#39;"), tab.value(EXPORTED))
        self.assertEqual(server.stop(), 0)
        page = subprocess.run([PROGRAM or "", "export", "html", self.sheet], stdin=subprocess.DEVNULL, capture_output=True, text=True)
        self.assertEqual((page.returncode, page.stderr), (0, ""))
        self.assertIn(answer[1].replace("'", "&#39;"), page.stdout)


if __name__ == "__main__":
    unittest.main()
