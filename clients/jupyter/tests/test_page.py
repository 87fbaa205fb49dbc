"""The page of Jupyter Notebook 6 in Chromium, with the kernel: typed, run with the keys, interrupted, restarted. TMHOST_PICTURE names a file for a
picture of it."""
import os
import signal
import subprocess
import sys
import unittest
from typing import Any

from tests.support import CLIENT, ROOT, SECONDS, Case, fields_of, needs_program

sys.path.insert(0, os.path.join(os.path.dirname(CLIENT), "notebook", "tests"))

import chromium  # noqa: E402
import jupyter  # noqa: E402

MODULES = subprocess.run(["python3", "-c", "import sympy, matplotlib"], stderr=subprocess.DEVNULL).returncode == 0
CELLS = [
    "import sympy\nx = sympy.symbols('x')\nsympy.integrate(x ** 2 * sympy.exp(-x), x)",
    "import matplotlib.pyplot as plt\nplt.figure(figsize=(4, 2))\nplt.plot([n * n for n in range(9)])\nplt.show()",
    "print('squares')\nsum(n * n for n in range(9))",
]
OUTPUTS = "Jupyter.notebook.get_cell(%d).output_area.element[0]"
READY = "Jupyter.notebook.kernel?.is_connected() && Jupyter.notebook.kernel_busy !== true"
RUN = "Jupyter.notebook.get_cell(%d).execute()"
SET = "Jupyter.notebook.get_cell(%d).set_text(%r)"


@needs_program
@unittest.skipUnless(chromium.find_chromium() and jupyter.PROGRAM and MODULES, "there is no Chromium, no Jupyter Notebook, or no sympy and matplotlib")
class Page(Case):
    def test_a_notebook(self) -> None:
        self.set_environment(MPLCONFIGDIR=os.path.expanduser("~/.cache/matplotlib"))
        self.install("--name", "kernel", "--session", "py", "--title", "Python (tmhost)", "--tab", os.path.join(ROOT, "adapters", "python"))
        browser = chromium.Browser()
        self.addCleanup(browser.kill)
        tab = self.opened(browser)
        for at, text in enumerate(CELLS):
            tab.value(SET % (at, text))
            tab.value(RUN % at)
        tab.until((OUTPUTS % 2) + ".textContent.includes('204')", True, SECONDS)
        tab.until((OUTPUTS % 0) + ".querySelectorAll('.MathJax, .MathJax_SVG, mjx-container').length > 0", True, SECONDS)
        self.assertEqual(tab.value((OUTPUTS % 1) + ".querySelectorAll('.output_svg svg #figure_1').length"), 1)
        self.assertEqual(tab.value((OUTPUTS % 2) + ".textContent.replace(/\\s+/g, ' ')").strip(), "Out[3]:squares 204")
        self.complete(tab)
        if picture := os.environ.get("TMHOST_PICTURE"):
            with open(picture, "wb") as file:
                file.write(tab.picture(1000, 800))
        self.interrupt(tab)
        fields = fields_of_running(self, tab)
        self.assertEqual(["\n".join(field.lines) for field in fields][:3], CELLS)
        self.assertEqual(str(fields[2].answer), "squares\n204")

    def opened(self, browser: chromium.Browser) -> Any:
        """The page of a new notebook with the kernel."""
        jupyter.write(self.place("lesson.ipynb"), 4)
        with open(self.place("lesson.ipynb"), encoding="utf-8") as file:
            text = file.read()
        with open(self.place("lesson.ipynb"), "w", encoding="utf-8") as file:
            file.write(text.replace('"name": "python3"', '"name": "kernel"'))
        port = jupyter.free_port()
        server = subprocess.Popen(
            [str(jupyter.PROGRAM), *jupyter.WORDS, f"--port={port}", f"--notebook-dir={self.folder}"], env={**os.environ, "HOME": self.folder},
            stdin=subprocess.DEVNULL, stdout=subprocess.DEVNULL, stderr=subprocess.DEVNULL, start_new_session=True)
        self.addCleanup(server.wait)
        self.addCleanup(os.killpg, server.pid, signal.SIGTERM)
        jupyter.until_there(f"http://127.0.0.1:{port}/api")
        tab = browser.open(f"http://127.0.0.1:{port}/notebooks/lesson.ipynb")
        tab.until(jupyter.LOADED, 4, SECONDS)
        tab.until(READY, True, SECONDS)
        tab.value("Jupyter.notebook.clear_all_output()")
        return tab

    def complete(self, tab: Any) -> None:
        """By Tab, at the end of a word."""
        tab.value(SET % (3, "sympy.integ"))
        tab.value("(() => { const cell = Jupyter.notebook.get_cell(3); Jupyter.notebook.select(3); cell.focus_editor(); cell.code_mirror.setCursor(0, 11) })()")
        tab.key("Tab")
        tab.until("document.querySelector('#complete')?.textContent.includes('integrate')", True, SECONDS)
        tab.key("Escape")

    def interrupt(self, tab: Any) -> None:
        tab.value(SET % (3, "import time; time.sleep(1000)"))
        tab.value(RUN % 3)
        tab.until("Jupyter.notebook.get_cell(3).element.hasClass('running')", True, SECONDS)
        tab.until("(Jupyter.notebook.kernel.interrupt(), " + (OUTPUTS % 3) + ".textContent.includes('KeyboardInterrupt'))", True, SECONDS)


def fields_of_running(case: Case, tab: Any) -> Any:
    """The fields, when the page has ended its kernel."""
    tab.value("new Promise((done) => Jupyter.notebook.session.delete(done, done))")
    return fields_of(case.place("kernel.tmhost"))
