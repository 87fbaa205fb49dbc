"""What the tests share: the program, a notebook's server, requests to it, and what stands in a worksheet's file."""

import atexit
import http.client
import json
import os
import shutil
import signal
import subprocess
import sys
import tempfile
import time
import unittest
import urllib.parse
from typing import Any, Dict, List, Optional, Tuple

HERE = os.path.dirname(os.path.abspath(__file__))
NOTEBOOK = os.path.dirname(HERE)
REPOSITORY = os.path.dirname(os.path.dirname(NOTEBOOK))
sys.path.append(os.path.dirname(NOTEBOOK))

import chromium  # noqa: E402
from found import find_program  # noqa: E402

SPOKEN = f"{sys.executable} {os.path.join(HERE, 'interpreters', 'spoken.py')}"


def usable_program() -> Tuple[Optional[str], str]:
    """The program, or why there is none that the tests can use. It isn't built here, since that takes long."""
    program = find_program()
    if program is None:
        return None, "there is no tmhost: build it, or name it by TMHOST"
    with tempfile.TemporaryDirectory() as folder:
        sheet = os.path.join(folder, "sheet")
        subprocess.run([program, "create", sheet], stdin=subprocess.DEVNULL, capture_output=True)
        reported = subprocess.run([program, "live", "--json", sheet], stdin=subprocess.DEVNULL, capture_output=True)
    if not reported.stdout.startswith(b'{"format"'):
        return None, f"{program} has no live --json"
    return program, ""


PROGRAM, WHY_NOT = usable_program()
PLACE = tempfile.mkdtemp(prefix="notebook-addresses-")
atexit.register(shutil.rmtree, PLACE, True)
needs_program = unittest.skipIf(PROGRAM is None, WHY_NOT)
needs_chromium = unittest.skipIf(chromium.find_chromium() is None, "there is no Chromium: install the package chromium, or name it by CHROMIUM")


class Server:
    """`tmhost-notebook` on a worksheet."""

    def __init__(self, sheet: str, *words: str, program: Optional[str] = None) -> None:
        self.sheet = sheet
        self.process = subprocess.Popen(
            [os.path.join(NOTEBOOK, "tmhost-notebook"), "--no-browser", *words, sheet],
            stdin=subprocess.DEVNULL, stdout=subprocess.PIPE, stderr=subprocess.PIPE, text=True, env=environment(program),
        )
        assert self.process.stdout and self.process.stderr
        self.address = self.process.stdout.readline().strip()
        if not self.address:
            raise RuntimeError(self.process.stderr.read())
        self.host = urllib.parse.urlsplit(self.address).netloc

    @property
    def program(self) -> Optional[int]:
        """The process of tmhost, which is the server's child."""
        return next((pid for pid in children_of(self.process.pid)), None)

    def kill(self) -> None:
        """As by kill -9. One that has ended already stays so."""
        if self.process.poll() is None:
            self.process.kill()
        self.end()

    def stop(self) -> int:
        self.process.send_signal(signal.SIGTERM)
        self.end()
        return self.process.returncode

    def end(self) -> None:
        self.process.wait(120)
        for stream in (self.process.stdout, self.process.stderr):
            if stream:
                stream.close()


def environment(program: Optional[str] = None) -> Dict[str, str]:
    """Of a server: the program, and a place for addresses that is the tests' own."""
    return {**os.environ, "TMHOST": program or PROGRAM or "", "XDG_RUNTIME_DIR": PLACE}


def children_of(parent: int) -> List[int]:
    found = []
    for name in filter(str.isdigit, os.listdir("/proc")):
        try:
            with open(f"/proc/{name}/stat", encoding="utf-8", errors="replace") as file:
                if int(file.read().rpartition(")")[2].split()[1]) == parent:
                    found.append(int(name))
        except OSError:
            pass
    return found


def until_ended(pid: Optional[int]) -> None:
    """Waits for the end of a process that isn't this one's child, so that another one may have to ask for its status."""
    while pid is not None:
        try:
            with open(f"/proc/{pid}/stat", encoding="utf-8", errors="replace") as file:
                if file.read().rpartition(")")[2].split()[0] in ("Z", "X"):
                    return
        except OSError:
            return
        time.sleep(0.01)


class Page:
    """Requests as a page of the server sends them."""

    def __init__(self, server: Server) -> None:
        self.host, self.origin = server.host, "http://" + server.host
        status, headers, body = self.request("GET", "/?" + server.address.partition("?")[2], {})
        assert status == 200, status
        self.cookie = headers["set-cookie"].partition(";")[0]
        self.path = body.decode().partition("url=")[2].partition('"')[0]

    def request(self, method: str, path: str, headers: Dict[str, str], body: Optional[bytes] = None) -> Tuple[int, Dict[str, str], bytes]:
        connection = http.client.HTTPConnection(self.host, timeout=240)
        connection.request(method, path, body, headers)
        reply = connection.getresponse()
        reported = reply.status, {name.lower(): value for name, value in reply.getheaders()}, reply.read()
        connection.close()
        return reported

    def headers(self) -> Dict[str, str]:
        return {"Cookie": self.cookie, "Origin": self.origin, "Content-Type": "application/json"}

    def call(self, call: str, **members: Any) -> Dict[str, Any]:
        reported: Dict[str, Any] = json.loads(self.request("POST", self.path + "call", self.headers(), json.dumps({"call": call, **members}).encode())[2])
        return reported

    def snapshot(self) -> Dict[str, Any]:
        """The first message that a page gets."""
        connection = http.client.HTTPConnection(self.host, timeout=240)
        connection.request("GET", self.path + "events", headers={"Cookie": self.cookie})
        reply = connection.getresponse()
        reported: Dict[str, Any] = json.loads(reply.readline()[len(b"data: ") :])
        connection.close()
        return reported

    def cells(self) -> Dict[int, Dict[str, Any]]:
        return {cell["id"]: cell for cell in self.snapshot().get("cells", [])}

    def until_idle(self) -> Dict[int, Dict[str, Any]]:
        """Waits until nothing waits for an answer."""
        end = time.monotonic() + 240
        while time.monotonic() < end:
            cells = self.cells()
            if not any(cell["state"] in ("running", "queued") for cell in cells.values()):
                return cells
            time.sleep(0.05)
        raise AssertionError("a cell still waits")


class Case(unittest.TestCase):
    """A test with a folder and a worksheet's path of its own."""

    def setUp(self) -> None:
        self.folder = tempfile.mkdtemp(prefix="notebook-test-")
        self.sheet = os.path.join(self.folder, "sheet")
        self.addCleanup(shutil.rmtree, self.folder, True)

    def serve(self, *words: str, program: Optional[str] = None) -> Server:
        server = Server(self.sheet, *words, program=program)
        self.addCleanup(server.kill)
        return server

    def browse(self) -> "chromium.Browser":
        browser = chromium.Browser()
        self.addCleanup(browser.kill)
        return browser

    def both_files(self) -> List[bytes]:
        """What is in the worksheet's two files."""
        found = []
        for end in ("", ".alt"):
            with open(self.sheet + end, "rb") as file:
                found.append(file.read())
        return found

    def show(self) -> str:
        """What `tmhost show` prints of the worksheet. It is locked while a server has it, so of a copy: any moment of it is a whole one."""
        copy = os.path.join(self.folder, "copy")
        for end in ("", ".alt"):
            if os.path.exists(self.sheet + end):
                shutil.copyfile(self.sheet + end, copy + end)
        shown = subprocess.run([PROGRAM or "", "show", copy], stdin=subprocess.DEVNULL, capture_output=True)
        self.assertEqual(shown.returncode, 0, shown.stderr)
        return shown.stdout.decode("utf-8", "replace")


class PageCase(Case):
    """A test of a page that is open in a browser."""

    def begin(self, *words: str) -> None:
        self.server = self.serve(*words)
        self.page = Page(self.server)
        self.page.call("session", name="s", words=SPOKEN, tab=True)
        self.browser = self.browse()

    def all_states(self) -> None:
        """Cells in each state that there is."""
        self.page.call("new", session=None, text=PROSE, after=0)
        last = self.page.snapshot()["order"][-1]
        for text in ("say stale", "exit", "say 1", "block latex JFxzcXJ0e3h9JA==", "bytes 30000", "sleep 60", "say waits"):
            last = self.page.call("new", session="s", text=text, after=last)["id"]
            if text not in ("sleep 60", "say waits"):
                self.page.call("eval", id=last)
                self.page.until_idle()
        self.page.call("session", name="t", words=SPOKEN, tab=False)
        self.page.call("eval", id=self.page.call("new", session="t", text="say ended", after=last)["id"])
        self.page.until_idle()
        self.page.call("stop", session="t")
        cells = self.page.cells()
        stale = next(cell for cell in cells.values() if cell["input"] == "say stale")
        self.page.call("set", id=stale["id"], text="say changed", base="say stale")
        for id, cell in cells.items():
            if cell["input"] in ("sleep 60", "say waits"):
                self.page.call("eval", id=id)
        self.page.call("remove", id=next(id for id, cell in cells.items() if cell["input"] == "say 1"))


class SharedCase(PageCase):
    """The same, with one browser for all tests of a class."""

    shared: Optional["chromium.Browser"] = None

    def browse(self) -> "chromium.Browser":
        kind = type(self)
        if kind.shared is None:
            kind.shared = chromium.Browser()
            kind.addClassCleanup(kind.shared.kill)
        kind.shared.trouble.clear()
        return kind.shared

    def open(self, server: Optional[Server] = None) -> "chromium.Tab":
        """A page in a tab of its own, which is closed after the test."""
        tab = opened(self.browser, server or self.server)
        self.addCleanup(tab.close)
        return tab


READY = "document.documentElement.dataset.ready"
IN_TEXT = "document.activeElement.localName === 'textarea' && document.activeElement.closest('.cell').id"
PROSE = """# Head

A *word*, `code`, [a link](https://www.texmacs.org), $\\frac{1}{2}$ and <b>no markup</b>.

1. one
2. two

> said

| a | b |
|:-:|--:|
| 1 | 2 |

$$
a
- b
$$
"""

# The next request waits for a call of `go`.
HOLDS = """
(() => {
  const kept = fetch;
  window.fetch = (...words) => new Promise((done) => {
    window.go = () => {
      window.fetch = kept;
      done(kept(...words));
    };
  });
})()
"""

# The worksheet as the page shows it, in the words of `tmhost show`.
AS_SHOWN = """
[...document.querySelectorAll(".cell")].map((cell) => {
  const find = (selector) => cell.querySelector(selector);
  const isProse = cell.classList.contains("prose");
  const lost = /^lost: (\\w+)/.exec(find(".answer-state").textContent);
  const isAsked = cell.dataset.state !== "queued" || find(".output").classList.contains("old"); // who waits to be asked has its old answer
  const isAnswered = cell.dataset.state === "answered" || (!isAsked && find(".output pre").hasChildNodes());
  const said = (node) => node.dataset?.tex === undefined ? node.textContent : `{latex:${node.dataset.tex}}`;
  const text = isAnswered ? [...find(".output pre").childNodes].map(said).join("") : lost ? "? " + lost[1] : "?";
  const name = find(".session").textContent;
  return `#${cell.id.slice(5)} ${name}\\n${isProse ? "> " : find(".prompt").textContent}${find("textarea").value.replaceAll("\\n", "\\n. ")}\\n`
    + text + (text.endsWith("\\n") ? "" : "\\n");
}).join("")
"""


def opened(browser: chromium.Browser, server: Server, in_window: bool = False) -> chromium.Tab:
    tab = browser.open(server.address, in_window)
    tab.until(READY, "true")
    return tab
