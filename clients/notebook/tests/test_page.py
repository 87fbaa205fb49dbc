"""The page: contrast of its texts, prose and formulas with and without their libraries, drafts, pages that aren't seen."""

import http.server
import json
import os
import shutil
import subprocess
import sys
import threading
import unittest
from typing import Any, List

from harness import IN_TEXT, PROSE, READY, REPOSITORY, Page, PageCase, needs_chromium, needs_program, opened

# Each text that is seen, with its contrast to what lies under it. Formulas and texts of disabled buttons don't count.
CONTRAST = """
(() => {
  const channel = (value) => { const part = value / 255; return part <= .04045 ? part / 12.92 : ((part + .055) / 1.055) ** 2.4 };
  const numbers = (colour) => colour.match(/[\\d.]+/g).map(Number);
  const light = (colour) => { const [red, green, blue] = numbers(colour).map(channel); return .2126 * red + .7152 * green + .0722 * blue };
  const under = (node) => {
    if (!node) return "rgb(255, 255, 255)";
    const colour = getComputedStyle(node).backgroundColor;
    return (numbers(colour)[3] ?? 1) === 1 ? colour : under(node.parentElement);
  };
  const found = [];
  for (const node of document.querySelectorAll("body *")) {
    const box = node.getBoundingClientRect();
    const isField = node.localName === "textarea" || node.localName === "input";
    const hasText = isField || [...node.childNodes].some((child) => child.nodeType === 3 && child.data.trim());
    if (!hasText || !box.width || !box.height || node.disabled || node.closest(".katex")) continue;
    const [one, other] = [light(getComputedStyle(node).color), light(under(node))].sort((a, b) => b - a);
    const ratio = (one + .05) / (other + .05);
    found.push([node.localName + "." + node.className + " " + (node.textContent ?? "").slice(0, 30), Math.round(ratio * 100) / 100]);
  }
  return found;
})()
"""
FORMULAS = os.path.join(REPOSITORY, "clients", "typeset", "test", "formulas.js")
ADAPTER = os.path.join(REPOSITORY, "adapters", "python")
IN_PICTURE = [
    (None, "# Partial sums\n\nThe series $\\sum_{k=1}^\\infty \\frac{1}{k^2}$ converges to $\\frac{\\pi^2}{6}$. *How fast?*"),
    ("gp", "partial(n) = sum(k = 1, n, 1/k^2);\nvector(6, n, partial(n))"),
    ("gp", "factor(numerator(partial(20)))"),
    ("python",
    "from fractions import Fraction\ndef partial(n):\n    return sum(Fraction(1, k * k) for k in range(1, n + 1))\n[float(partial(10**k)) for k in range(4)]"),
    ("python", "import time; time.sleep(600)"),
]
SELECTED = "document.querySelector('.cell.selected').id"
ASKS = """
(kind, mode) => fetch(PLACE + "call", {
  method: "POST", mode, credentials: "include", headers: { "Content-Type": kind },
  body: JSON.stringify({ call: "new", session: "s", text: "evil", after: 0 }),
}).then((reply) => reply.status, () => "refused")
"""
LISTENS = """
new Promise((done) => {
  const source = new EventSource(PLACE + "events", { withCredentials: true });
  source.onmessage = () => done("reported");
  source.onerror = () => done("refused");
})
"""
TYPES_AGAIN = """
(() => {
  const text = document.querySelector("#cell-1 textarea");
  text.value = "say 1";
  text.dispatchEvent(new Event("input", { bubbles: true }));
})()
"""
UNSET = """
import(location.href + "setter.js").then(async ({ setInto }) => {
  const left = [];
  for (const tex of FORMULAS) {
    const place = document.createElement("span");
    await setInto(place, "tex", tex);
    if (!place.querySelector(".katex-html") || !place.querySelector("math") || place.querySelector(".katex-error")) left.push(tex);
  }
  return left;
})
"""
# A machine that is too busy to set a text, so many times: it doesn't come to the worker.
IS_BUSY = """
(() => {
  let times = %d;
  const post = Worker.prototype.postMessage;
  Worker.prototype.postMessage = function (job) {
    if (job.text === %s && times > 0) times -= 1;
    else post.call(this, job);
  };
})()
"""
SETS = """
import(location.href + "setter.js").then(async ({ setInto }) => {
  const place = document.createElement("span");
  return [await setInto(place, "markdown", %s), place.classList.contains("set")];
})
"""
NOT_ON_PAPER = "button, select, dialog, footer, .text-state, #note"


@needs_program
@needs_chromium
class ThePage(PageCase):
    def test_contrast(self) -> None:
        self.begin()
        self.all_states()
        tab = opened(self.browser, self.server)
        tab.size(1000, 2400)
        tab.until("document.querySelectorAll('.set').length", 2)
        tab.click("#cell-2 .number")
        for opener in (None, "askSession", "showKeys", "showRemoved", "showExport", "showEarlier", "showBefore"):
            if opener:
                tab.value(f"document.querySelector('[data-do={opener}]').click()")
                tab.until("document.querySelector('dialog[open]') !== null")
            if opener in ("showEarlier", "showBefore"):
                tab.until("document.querySelector('dialog[open] .then') !== null")
            for media, scheme in (("screen", "light"), ("screen", "dark"), ("print", "dark")):
                tab.ask("Emulation.setEmulatedMedia", {"media": media, "features": [{"name": "prefers-color-scheme", "value": scheme}]})
                found = tab.value(CONTRAST)
                self.assertGreater(len(found), 40 if media == "screen" else 20)
                self.assertEqual([one for one in found if one[1] < 4.5], [], (media, scheme, opener))
            tab.value("document.querySelectorAll('dialog').forEach((dialog) => dialog.close())")
        says = tab.value("[...document.querySelectorAll('.answer-state')].map((node) => node.dataset.state)")
        self.assertLessEqual({"running", "queued", "lost", "stale", "ended"}, set(says))

    def test_prose_and_formulas(self) -> None:
        self.begin()
        prose, code = self.page.call("new", session=None, text=PROSE, after=0)["id"], self.page.call("new", session="s",
            text="block latex JFxzcXJ0e3h9JA==", after=0)["id"]
        self.page.call("eval_from", id=None)
        self.page.until_idle()
        tab = opened(self.browser, self.server)
        reading = f"document.querySelector('#cell-{prose} .reading')"
        tab.until(f"{reading}.classList.contains('set')")
        wanted = {"h3": 1, "em": 1, "code": 1, "a": 1, ".katex": 2, ".katex-display": 1, "ul": 0, "ol > li": 2, "blockquote": 1, "td.center": 1,
            "td.right": 1, "b": 0}
        self.assertEqual({name: tab.value(f"{reading}.querySelectorAll('{name}').length") for name in wanted}, wanted)
        self.assertEqual(tab.value(f"(({{href, target, rel}}) => [href, target, rel])({reading}.querySelector('a'))"),
            ["https://www.texmacs.org/", "_blank", "noopener noreferrer"])
        tab.until(f"document.querySelector('#cell-{code} .formula.set math msqrt mi')?.textContent", "x")
        tab.click(f"#cell-{code} [data-do=toggleText], #cell-{code} .number")
        tab.key("t")
        tab.until(f"document.querySelector('#cell-{code} .output pre').textContent", "{latex:$\\sqrt{x}$}")
        self.assertEqual(self.browser.trouble, [])
        self.assertNotIn("true", self.page.snapshot()["sessions"][0]["words"])
        self.assertEqual([(one["name"], one["words"], one["runs"]) for one in self.page.snapshot()["sessions"]][1], ("prose", "true", False))

    def test_without_libraries(self) -> None:
        """Where neither is installed, prose and formulas are their text."""
        self.begin("--libraries", self.folder)
        prose, code = self.page.call("new", session=None, text="# A *head*", after=0)["id"], self.page.call("new", session="s",
            text="block latex JFxzcXJ0e3h9JA==", after=0)["id"]
        self.page.call("eval_from", id=None)
        self.page.until_idle()
        tab = opened(self.browser, self.server)
        tab.value("new Promise((done) => setTimeout(done, 1500))")
        self.assertEqual(tab.value(f"document.querySelector('#cell-{prose} .reading').textContent"), "# A *head*")
        self.assertEqual(tab.value(f"document.querySelector('#cell-{code} .output pre').textContent"), "$\\sqrt{x}$")
        self.assertEqual(self.browser.trouble, [])

    def test_a_busy_machine(self) -> None:
        """A text that isn't set in time is tried again by itself, and once more when its cell is left."""
        self.begin()
        tab = opened(self.browser, self.server)
        reading = self.write_prose(tab, 1, "# A *title*")
        tab.until(f"{reading}.querySelector('h3 em')?.textContent", "title")
        reading = self.write_prose(tab, 2, "# Another *one*")
        self.assertEqual(tab.value(SETS % json.dumps("# Another *one*")), [False, False])
        self.assertEqual(tab.value(f"{reading}.textContent"), "# Another *one*")
        tab.key("Enter")
        tab.until(IN_TEXT, lambda found: bool(found))
        tab.key("Escape")
        tab.until(f"{reading}.querySelector('h3 em')?.textContent", "one")
        self.assertEqual(tab.value(SETS % json.dumps("# Another *one*")), [True, True])
        self.assertEqual(self.browser.trouble, [])

    def write_prose(self, tab: Any, busy: int, text: str) -> str:
        """Makes a cell of prose with a text, which the machine is too busy to set so many times. Gives the place of what is read."""
        tab.click("[data-do=addProse]")
        tab.until("document.activeElement.matches('.cell.prose textarea') && document.activeElement.value", "")
        tab.value(IS_BUSY % (busy, json.dumps(text)))
        tab.type(text)
        tab.key("Enter", "Control")
        return f"document.querySelector('#{tab.value(SELECTED)} .reading')"

    def test_a_draft_waits(self) -> None:
        """What is typed while a cell is evaluated is saved after its answer; what is too long isn't saved, and stays."""
        self.begin()
        self.page.call("new", session="s", text="sleep 5", after=0)
        tab = opened(self.browser, self.server)
        tab.click("#cell-1 .number")
        tab.key("Enter", "Control")
        tab.until("document.querySelector('#cell-1').dataset.state", "running")
        tab.key("Enter")
        tab.type("x")
        tab.until("document.querySelector('#cell-1 .text-state').textContent", "draft: kept, not yet the cell's text")
        tab.until("document.querySelector('#cell-1 .text-state').textContent", "saved")
        self.assertEqual(tab.value("document.querySelector('#cell-1 .output pre').textContent"), "rested")
        self.assertEqual(tab.value("document.querySelector('#cell-1 .answer-state').dataset.state"), "stale")
        tab.type("x" * 5000)
        tab.until("document.querySelector('#cell-1 .text-state').textContent",
            lambda says: str(says).startswith("not saved: a cell has at most 4,095 bytes"))
        self.assertEqual(self.page.cells()[1]["input"], tab.value("document.querySelector('#cell-1 textarea').value")[: -5000])
        tab.key("Enter", "Control")
        tab.until("document.querySelector('#note').textContent", "cell 1 is not saved, so nothing is done with it")

    def test_from_a_file(self) -> None:
        """The way of a browser that is started: a file leads to the address, and the strict cookie is sent all the same. The token is in no
        address that stays."""
        self.begin()
        path = os.path.join(self.folder, "leading.html")
        with open(path, "w", encoding="utf-8") as file:
            file.write(f'<meta http-equiv="refresh" content="0;url={self.server.address}">')
        tab = self.browser.open("file://" + path)
        tab.until(READY, "true")
        self.assertEqual(tab.value("location.href"), self.page.origin + self.page.path)
        self.assertEqual(tab.value("document.cookie"), "")
        self.assertEqual(self.browser.trouble, [])

    def test_another_page_of_this_machine(self) -> None:
        """A page of another server on this machine, which is of the same site: it gets no cookie, and can neither read nor change anything."""
        self.begin()
        opened(self.browser, self.server)
        seen: List[str] = []

        class Other(http.server.BaseHTTPRequestHandler):
            def do_GET(self) -> None:
                seen.append(str(self.headers.get("Cookie")))
                self.send_response(200)
                self.send_header("Content-Length", "0")
                self.end_headers()

            def log_message(self, *words: Any) -> None:
                pass

        other = http.server.ThreadingHTTPServer(("127.0.0.1", 0), Other)
        self.addCleanup(other.server_close)
        self.addCleanup(other.shutdown)
        threading.Thread(target=other.serve_forever, daemon=True).start()
        tab = self.browser.open(f"http://127.0.0.1:{other.server_port}/")
        tab.until("document.readyState", "complete")
        place = json.dumps(self.page.origin + self.page.path)
        asks = ASKS.replace("PLACE", place)
        self.assertEqual(tab.value(f"({asks})('application/json', 'cors')"), "refused")
        self.assertEqual(tab.value(f"({asks})('text/plain', 'cors')"), "refused")
        self.assertEqual(tab.value(f"({asks})('text/plain', 'no-cors')"), "refused")
        self.assertEqual(tab.value(f"fetch({place}, {{ credentials: 'include' }}).then(() => 'read', () => 'refused')"), "refused")
        self.assertEqual(tab.value(LISTENS.replace("PLACE", place)), "refused")
        self.assertEqual((self.page.snapshot()["order"], set(seen)), ([], {"None"}))

    def test_a_conflict(self) -> None:
        """A text that another page has changed is never shown as saved, also where it becomes again what it was; and what is removed elsewhere
        is reported."""
        self.begin()
        self.page.call("new", session="s", text="say 1", after=0)
        tab = opened(self.browser, self.server)
        tab.click("#cell-1 .number")
        tab.key("Enter")
        tab.value("window.kept = fetch, window.fetch = () => new Promise(() => {}), 0")  # no reply comes any more
        tab.type("mine ")
        self.page.call("set", id=1, text="say theirs", base="say 1")
        elsewhere = "not saved: it was changed elsewhere"
        says = "document.querySelector('#cell-1 .text-state').textContent"
        tab.until("document.querySelector('#cell-1 .conflict')?.hidden", False)
        tab.value(TYPES_AGAIN)
        tab.until(says, lambda found: found in (elsewhere, "saving"))
        self.page.call("set", id=1, text="say 1", base="say theirs")
        tab.until("document.querySelector('#cell-1 .conflict').hidden")
        tab.type("draft")
        self.page.call("remove", id=1)
        tab.until("document.querySelector('#note').textContent", lambda found: "removed in another page" in str(found) and "draft" in str(found))

    def test_many_pages(self) -> None:
        """A page that isn't seen gives its connection up, so the seventh page works as the first one does; seen again, it gets all."""
        self.begin()
        self.page.call("new", session="s", text="say 1", after=0)
        tabs = [opened(self.browser, self.server)]
        for _ in range(7):
            tabs.append(opened(self.browser, self.server))
        last = tabs[-1]
        last.click("#cell-1 .number")
        last.key("Enter", "Control")
        last.until("document.querySelector('#cell-1 .output pre').textContent", "1")
        tabs[0].front()
        tabs[0].until("document.querySelector('#cell-1 .output pre').textContent", "1")

    @unittest.skipIf(shutil.which("node") is None, "there is no node, which reads the list of formulas of clients/typeset")
    def test_formulas_as_interpreters_wrote_them(self) -> None:
        """All formulas of clients/typeset are set, and of each the page's list has all nodes."""
        script = f"console.log(JSON.stringify(require({json.dumps(FORMULAS)}).FORMULAS.map(({{ tex }}) => tex)))"
        formulas = subprocess.run(["node", "-e", script], capture_output=True, text=True, check=True).stdout
        self.assertGreater(len(json.loads(formulas)), 70)
        self.begin()
        tab = opened(self.browser, self.server)
        unset = tab.value(UNSET.replace("FORMULAS", formulas))
        self.assertEqual(unset, [])

    @unittest.skipUnless(shutil.which("gp"), "gp isn't installed")
    def test_a_picture(self) -> None:
        """The picture of README.md; PICTURE names the file that it is written to."""
        self.server = self.serve()
        self.page, self.browser = Page(self.server), self.browse()
        self.page.call("session", name="python", words=f"{sys.executable} {ADAPTER}", tab=False)
        self.page.call("session", name="gp", words=f"{sys.executable} {os.path.join(os.path.dirname(ADAPTER), 'gp')}", tab=False)
        last = 0
        for session, text in IN_PICTURE:
            last = self.page.call("new", session=session, text=text, after=last)["id"]
            if session and "sleep" not in text:
                self.page.call("eval", id=last)
                self.page.until_idle()
        self.page.call("eval", id=last)
        tab = opened(self.browser, self.server)
        tab.size(900, 880)
        tab.until("document.querySelectorAll('.set').length >= 3 && document.querySelectorAll('[data-state=running]').length >= 1")
        tab.click("#cell-3 .number")
        tab.value("document.fonts.ready.then(() => new Promise((done) => setTimeout(done, 300)))")
        picture = tab.picture(900, 880)
        self.assertLessEqual(len(picture), 150_000)
        self.assertEqual(self.browser.trouble, [])
        if "PICTURE" in os.environ:
            with open(os.environ["PICTURE"], "wb") as file:
                file.write(picture)

    def test_paper(self) -> None:
        """In print there are cells alone."""
        self.begin()
        self.all_states()
        tab = opened(self.browser, self.server)
        tab.ask("Emulation.setEmulatedMedia", {"media": "print"})
        shown = tab.value(f"[...document.querySelectorAll('{NOT_ON_PAPER}')].filter((node) => node.getBoundingClientRect().height).length")
        self.assertEqual(shown, 0)
        self.assertGreater(tab.value("document.querySelectorAll('.cell').length"), 5)


if __name__ == "__main__":
    unittest.main()
