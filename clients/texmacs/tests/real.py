"""GNU TeXmacs itself, on a screen of its own (Xvfb), driven by Scheme that it reads from a file.

Each test has a copy of a home in which TeXmacs was started before, since its first start makes fonts for a minute. TMHOST_TEXMACS_HOME says where that is, and
keeps it for other runs; it is made where it isn't there. TMHOST_SCREENSHOTS names a folder for pictures of the screen.
"""
import atexit
import functools
import os
import re
import shutil
import signal
import subprocess
import tempfile
import time
from typing import Dict, NamedTuple, Tuple

from .support import COMMAND, HERE, PROGRAM

PLUGIN = os.path.join(os.path.dirname(HERE), "plugins", "tmhost")
WITHIN = 300.0  # seconds for what TeXmacs is asked
SCREEN = "800x600x24"  # as large as its first window
FIELD = re.compile(r"<with\|tmhost-field\|(\d+)\|tmhost-mark\|(\w*)\|")
# An input with its answer, as a document is written.
ANSWERED = re.compile(r"<\\unfolded-io>((?:(?!<\\unfolded-io>).)*?)<\|unfolded-io>(.*?)<\|unfolded-io>(.*?)</unfolded-io>", re.DOTALL)
# What it makes fonts for, the first time.
FONTS = r"""<TeXmacs|2.1.4>

<style|generic>

<\body>
  <chapter*|A>

  <section*|A> <strong|b> <em|c>

  <subsection*|A>

  <\session|shell|default>
    <\unfolded-io>
      \$ 
    <|unfolded-io>
      a
    <|unfolded-io>
      <math|<big|sum><rsub|i=1><rsup|n><frac|\<alpha\>|<sqrt|x<rsup|2>>>\<leq\><with|math-font-series|bold|y>\<infty\>>

      <with|mode|text|A text>

      <errput|b>
    </unfolded-io>
  </session>
</body>
"""
DRIVER = """
(define (tmhost-drive)
  (with u (system->url "%(folder)s/do.scm")
    (when (url-exists? u)
      (with s (string-load u)
        (system-remove u)
        (with r (catch #t (lambda () (eval (string->object s))) (lambda l (cons 'failed l)))
          (string-save (object->string (if (tree? r) (tree->stree r) r)) (system->url "%(folder)s/done.part"))
          (system-move (system->url "%(folder)s/done.part") (system->url "%(folder)s/done"))))))
  (delayed (:pause 50) (tmhost-drive)))
(lazy-plugin-force)
(tmhost-drive)
"""


def lacking() -> str:
    """What isn't here of what a real TeXmacs wants; nothing where all is."""
    names = [name for name in ("texmacs", "Xvfb") if shutil.which(name) is None]
    return f"there is no {' and no '.join(names)}" if names else ""


class Answered(NamedTuple):
    """An input of a document and what it shows as its answer, without the blanks between words."""

    input: str
    output: str


@functools.lru_cache(maxsize=None)
def prepared_home() -> str:
    """A home in which TeXmacs was started before."""
    home = os.environ.get("TMHOST_TEXMACS_HOME", "")
    if not home:
        home = os.path.join(tempfile.mkdtemp(prefix="tmhost-texmacs-home."), "home")
        atexit.register(shutil.rmtree, os.path.dirname(home), True)
    done = os.path.join(home, "prepared")
    if not os.path.exists(done):
        os.makedirs(home, exist_ok=True)
        with tempfile.TemporaryDirectory(prefix="tmhost-texmacs-test.") as folder:
            document = os.path.join(folder, "fonts.tm")
            with open(document, "w", encoding="ascii") as file:
                file.write(FONTS)
            texmacs = RealTeXmacs(folder, 0, document, home)
            try:
                texmacs.shows(document)
                texmacs.ends()
            finally:
                texmacs.end()
        with open(done, "wb"):
            pass
    return home


def screen() -> "Tuple[subprocess.Popen[str], str]":
    """A screen of its own that is ready, with its name: the first one that is free."""
    process = subprocess.Popen(["Xvfb", "-displayfd", "1", "-screen", "0", SCREEN], stdout=subprocess.PIPE, stderr=subprocess.DEVNULL, text=True)
    assert process.stdout
    return process, ":" + process.stdout.readline().strip()


class RealTeXmacs:
    """`number` tells those of a test apart. The home is that of its folder, unless another one is given."""

    def __init__(self, folder: str, number: int, document: str = "", home: str = "") -> None:
        self.folder = os.path.join(folder, f"texmacs{number}")
        os.makedirs(self.folder, exist_ok=True)
        self.home = home or os.path.join(folder, "home")
        if not os.path.isdir(self.home):
            shutil.copytree(prepared_home(), self.home, symlinks=True)
        self.put_plugin()
        self.screen, self.display = screen()
        self.environment: Dict[str, str] = {
            **os.environ, "HOME": self.home, "DISPLAY": self.display, "TMHOST": PROGRAM, "TEXMACS_HOME_PATH": os.path.join(self.home, ".TeXmacs"),
            "XDG_RUNTIME_DIR": "", "LC_ALL": "C.UTF-8", "PATH": os.path.dirname(COMMAND) + ":" + os.environ["PATH"]}
        if os.path.exists(document + "~"):  # of one that was killed, about which it would ask
            os.remove(document + "~")
        driver = os.path.join(self.folder, "driver.scm")
        with open(driver, "w", encoding="utf-8") as file:
            file.write(DRIVER % {"folder": self.folder})
        words = ["texmacs", *([document] if document else []), "-x", f'(load "{driver}")']
        with open(os.path.join(self.folder, "log"), "wb") as log:
            self.process = subprocess.Popen(words, stdin=subprocess.DEVNULL, stdout=log, stderr=log, env=self.environment, start_new_session=True)

    def put_plugin(self) -> None:
        """The plugin of this repository, into its home."""
        folder = os.path.join(self.home, ".TeXmacs", "plugins")
        os.makedirs(folder, exist_ok=True)
        link = os.path.join(folder, "tmhost")
        if os.path.islink(link):
            os.remove(link)
        os.symlink(PLUGIN, link)

    def shows(self, document: str) -> None:
        """Waits until a document is there."""
        until = time.monotonic() + WITHIN
        while self.does("(url->system (current-buffer))") != f'"{document}"':
            if time.monotonic() > until:
                raise AssertionError(f"TeXmacs doesn't show {document}")

    def does(self, text: str, seconds: float = WITHIN) -> str:
        """Has TeXmacs evaluate Scheme, and gives the value as it is written."""
        with open(os.path.join(self.folder, "do.part"), "w", encoding="utf-8") as file:
            file.write(text)
        os.rename(os.path.join(self.folder, "do.part"), os.path.join(self.folder, "do.scm"))
        done = os.path.join(self.folder, "done")
        until = time.monotonic() + seconds
        while not os.path.exists(done):
            if time.monotonic() > until or self.process.poll() is not None:
                with open(os.path.join(self.folder, "log"), encoding="utf-8", errors="replace") as log:
                    raise AssertionError(f"TeXmacs doesn't answer to {text}: {log.read()[-2000:]}")
            time.sleep(0.02)
        with open(done, encoding="utf-8", errors="replace") as file:
            said = file.read()
        os.remove(done)
        return said

    def types(self, text: str) -> None:
        """Writes into the input where the cursor is, with Shift-Enter between lines, and gives it to be evaluated."""
        quoted = (line.replace("\\", "\\\\").replace('"', '\\"') for line in text.split("\n"))
        typed = " (kbd-shift-return) ".join(f'(insert (utf8->cork "{line}"))' for line in quoted)
        self.does(f'(begin {typed} (session-evaluate) "typed")')

    def waits(self, session: str) -> None:
        """Until a session has nothing more to answer. It is looked for less and less often, since TeXmacs answers nothing else meanwhile."""
        until, pause = time.monotonic() + WITHIN, 0.02
        while self.does(f'(pending-ref "tmhost" "{session}")') != "()":
            if time.monotonic() > until:
                raise AssertionError("the session has no answer")
            time.sleep(pause)
            pause = min(2.0, pause * 1.3)

    def session(self) -> str:
        """The name of the session where the cursor is."""
        return self.does('(get-env "prog-session")').strip('"')

    def saves(self, path: str) -> str:
        self.does(f'(begin (buffer-export (current-buffer) (system->url "{path}") "texmacs") "saved")')
        with open(path, encoding="latin-1") as file:
            return file.read()

    def fields(self) -> "Dict[str, str]":
        """The fields that the document has, with their marks."""
        return dict(FIELD.findall(self.saves(os.path.join(self.folder, "seen.tm"))))

    def answers(self) -> "Dict[str, Answered]":
        """What the document shows of each field that has an answer in it; not of one that is at work, or whose program has died."""
        found = {}
        for prompt, text, output in ANSWERED.findall(self.saves(os.path.join(self.folder, "seen.tm"))):
            field = FIELD.search(prompt)
            if field and "<script-" not in output:
                found[field[1]] = Answered(" ".join(text.split()), " ".join(output.split()))
        return found

    def shoots(self, name: str) -> None:
        """A picture of the screen, where one is wanted."""
        folder = os.environ.get("TMHOST_SCREENSHOTS")
        if folder:
            subprocess.run(["import", "-window", "root", os.path.join(folder, name + ".png")], env=self.environment, check=True)

    def ends(self) -> None:
        """As a user leaves it, so that it keeps what it knows."""
        try:
            self.does("(delayed (:idle 100) (quit-TeXmacs))")
            self.process.wait(60)
        except subprocess.TimeoutExpired:
            pass
        self.end()

    def kill(self) -> None:
        """With -9, and what it was started by: not what it has started itself."""
        os.killpg(self.process.pid, signal.SIGKILL)
        self.process.wait()

    def end(self) -> None:
        if self.process.poll() is None:
            self.kill()
        with self.screen:
            self.screen.kill()

