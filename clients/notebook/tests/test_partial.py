"""What is shown of an answer before it is whole: how it is read, how often pages get it, and how it looks. The program's part is played by `telling`,
but in the last test."""

import base64
import http.client
import json
import os
import random
import signal
import subprocess
import sys
import threading
import time
import unittest
from typing import Any, Dict, Iterator, List

from harness import HERE, NOTEBOOK, PROGRAM, READY, REPOSITORY, SPOKEN, Case, Page, PageCase, needs_chromium, needs_program, opened

sys.path[:0] = [NOTEBOOK, os.path.join(REPOSITORY, "clients", "python")]

from tmhost import Answer, Answered, Banner, Block, Done, Ended, Partial  # noqa: E402
from tmhost.program import words_of_live  # noqa: E402
from tmhost_notebook.partial import LONGEST, Partials, Text  # noqa: E402

PYTHON = os.path.join(REPOSITORY, "adapters", "python")
TELLING = os.path.join(HERE, "interpreters", "telling")
EMPTY = Block("verbatim", "format", ())


def text_of(*pieces: bytes) -> str:
    text = Text()
    for piece in pieces:
        text.feed(piece)
    return text.text


class Reading(unittest.TestCase):
    def test_blocks(self) -> None:
        for stream, wanted in (
            (b"\x02verbatim:a", "a"), (b"beside\n\x02verbatim:a\x05b", "beside\nab"), (b"\x02verbatim:a\x02latex:$x$\x05b", "a{latex:$x$}b"), (b"\x02latex:$x", "{latex:$x"),
            (b"\x02verbatim:\x1b\x02\x1b\x05\x1b\x1b\x1ba", "\x02\x05\x1b\x1ba"), (b"\x02verbatim:a\x02prompt#> \x02verbatim:b\x05\x05\x02input#c", "a"),
            (b"\x02output#\x02output#bad\x05\x05", "bad"), (b"\x02verbatim:a\x02image/png;base64:iVBO\x05b", "a[a picture]b"), (b"\x02image/svg+xml:<svg", "[a picture]"),
            ("\x02verbatim:é\u2028\U0001f600".encode(), "é\u2028\U0001f600"), (b"\x02verbatim:\xff\xc3(\xe2\x82", "\\xff\\xc3("), (b"\x02scheme:(tuple", "{scheme:(tuple"),
            (b"\x02verb\x01atim:a", "verb\x01atim:a"), (b"\x02" + b"x" * 80 + b":a", "x" * 80 + ":a"), (b"\x05\x1b\x05a", "a"), (b"", ""), (b" 1%\r 2%\r", " 2%"), (b"a\r\nb\r 3%", "a\n 3%"), (b"\r 1%\r\n\rb", " 1%\nb"),
        ):
            with self.subTest(stream=stream):
                self.assertEqual(text_of(stream), wanted)
                self.assertEqual(text_of(*(stream[at : at + 1] for at in range(len(stream)))), wanted)
                for cut in range(len(stream)):
                    self.assertEqual(text_of(stream[:cut], stream[cut:]), wanted, cut)

    def test_its_end(self) -> None:
        """The last lines that say something, of a text of many lines and of one long one."""
        for written, wanted in (
            (b"", ""), (b"a\n\n", "a"), (b"".join(b"line %d\n\n" % number for number in range(9)), "\n".join(f"line {number}" for number in range(4, 9))), (b"x" * 5_000, "x" * 1_000),
        ):
            text = Text()
            text.feed(written)
            self.assertEqual(text.end, wanted)

    def test_it_is_bounded(self) -> None:
        text = Text()
        text.feed(b"\x02verbatim:")
        for number in range(3_000):
            text.feed(b"line %d \x02a:\xc3\xa9\x05\n" % number)
        self.assertEqual((len(text.text), text.is_cut), (LONGEST, True))
        self.assertTrue(text.text.endswith("line 2999 {a:é}\n"))
        begin = time.process_time()
        for hostile in (b"\x02a:\x05" * 50_000, b"\x02a:" * 50_000, b"\x05" * 200_000, b"\x1b" * 200_000, b"\x02" * 200_000, b"\x02prompt#" + b"\x80" * 200_000):
            for at in range(0, len(hostile), 65_536):
                text.feed(hostile[at : at + 65_536])
            self.assertLessEqual(len(text.text), LONGEST)
            self.assertLessEqual(len(text._open), 32)
        self.assertLess(time.process_time() - begin, 20)

    def test_any_bytes(self) -> None:
        """However they are cut the text is the same."""
        rng = random.Random(3)
        for _ in range(500):
            stream = bytes(rng.choice(b"\x02\x02\x05\x1b:#verbatim:\xc3\xa9\xe2\x82\xac\n\x01 ") for _ in range(rng.randrange(60)))
            cuts = sorted(rng.randrange(len(stream) + 1) for _ in range(4))
            self.assertEqual(text_of(*(stream[one:other] for one, other in zip([0, *cuts], [*cuts, len(stream)]))), text_of(stream), stream)

    def test_what_ends_it(self) -> None:
        """Each other event of its life, and another life."""
        piece = Partial("a", 1, b"\x02verbatim:x")
        for event in (Banner("a", 1, EMPTY, ""), Answered("a", 1, 1, Answer("> ", EMPTY, "")), Ended("a", 1, "Ended", ())):
            partials = Partials()
            self.assertEqual([partials.take(one) for one in (piece, Partial("b", 1, b"\x02verbatim:y"), event, event)], ["a", "b", "a", None])
            self.assertIsNone(partials.of("a"))
            self.assertEqual(getattr(partials.of("b"), "text"), "y")
        partials = Partials()
        for one in (piece, Done("new", 2, "a", 0), Partial("a", 2, b"\x02verbatim:z")):
            partials.take(one)
        self.assertEqual(getattr(partials.of("a"), "text"), "z")


class Telling(Case):
    """A server whose program tells what a test writes into a pipe."""

    def begin_telling(self) -> None:
        parts = os.path.join(self.folder, "parts")
        os.mkfifo(parts)
        self.pipe = os.open(parts, os.O_RDWR | os.O_CLOEXEC)
        self.addCleanup(os.close, self.pipe)
        os.environ.update(PROGRAM=PROGRAM or "", PARTS=parts)
        self.addCleanup(lambda: [os.environ.pop(name) for name in ("PROGRAM", "PARTS")])
        self.server = self.serve(program=TELLING)
        self.page = Page(self.server)
        for name in "st":
            self.page.call("session", name=name, words=SPOKEN, tab=True)

    def tell(self, data: bytes, session: str = "s", life: int = 1) -> None:
        try:
            reported: Any = data.decode()
        except UnicodeDecodeError:
            reported = {"base64": base64.b64encode(data).decode()}
        line = json.dumps({"bytes": reported, "life": life, "session": session, "type": "partial"}).encode() + b"\n"
        while line:
            line = line[os.write(self.pipe, line) :]

    def tell_all(self, pieces: List[bytes]) -> None:
        for piece in pieces:
            self.tell(piece)

    def run_cell(self, text: str, session: str = "s", after: int = 0) -> int:
        """A cell whose interpreter is at it."""
        id: int = self.page.call("new", session=session, text=text, after=after)["id"]
        self.page.call("eval", id=id)
        end = time.monotonic() + 60
        while self.page.cells()[id]["state"] != "running" or session not in self.ready():
            self.assertLess(time.monotonic(), end)
        return id

    def ready(self) -> List[str]:
        """The sessions whose interpreters have reported their banner: a piece of one that came before is dropped by that."""
        time.sleep(0.3)
        return [session["name"] for session in self.page.snapshot()["sessions"] if session["runs"]]


@needs_program
class Reported(Telling):
    def messages(self) -> Iterator[Dict[str, Any]]:
        connection = http.client.HTTPConnection(self.page.host, timeout=60)
        self.addCleanup(connection.close)
        connection.request("GET", self.page.path + "events", headers={"Cookie": self.page.cookie})
        reply = connection.getresponse()
        while line := reply.readline():
            if line.startswith(b"data: "):
                yield json.loads(line[len(b"data: ") :])

    def test_pages_are_reported_now_and_then(self) -> None:
        self.begin_telling()
        id = self.run_cell("sleep 60")
        messages = self.messages()
        next(messages)
        self.tell(b"\x02verbatim:")
        writer = threading.Thread(target=lambda: self.tell_all([b"line %d\n" % number for number in range(4_000)]))
        begin = time.monotonic()
        writer.start()
        found: List[Dict[str, Any]] = []
        while not found or not found[-1]["text"].endswith("line 3999\n"):
            reported = next(messages).get("partial", {})
            found += [reported[str(id)]] if str(id) in reported else []
        writer.join()
        self.assertLessEqual(len(found), (time.monotonic() - begin) / 0.2 + 2)
        self.assertEqual((len(found[-1]["text"]), found[-1]["isCut"]), (LONGEST, True))
        self.assertEqual(self.page.snapshot()["partial"], {str(id): found[-1]})
        self.page.call("interrupt", session="s")
        self.page.until_idle()
        self.assertNotIn("partial", self.page.snapshot())

    def test_a_program_that_knows_it(self) -> None:
        """It is asked for by a flag where the program's help has that."""
        os.environ["PROGRAM"] = PROGRAM or ""
        self.addCleanup(os.environ.pop, "PROGRAM")
        self.assertEqual(words_of_live([TELLING], "sheet", True), [TELLING, "live", "--json", "--partial", "sheet"])
        self.assertEqual(words_of_live([TELLING], "sheet", False), [TELLING, "live", "--json", "sheet"])
        self.assertEqual(words_of_live(["/bin/false"], "sheet", True), ["/bin/false", "live", "--json", "sheet"])
        self.assertEqual(words_of_live(["/bin/echo"], "sheet", True), ["/bin/echo", "live", "--json", "sheet"])


SHOWN = "[...document.querySelectorAll('.partial')].map((one) => [one.closest('.cell').id, one.querySelector('pre').textContent])"
MARKS = "[...document.querySelectorAll('.partial p')].map((one) => one.textContent)"
# Where it is, whether it is within something that is read out, and whether it is grey.
LOOKS = """
(() => {
  const box = document.querySelector(".partial"), live = box.parentElement.closest("[aria-live]:not([aria-live=off]), [role=status], [role=log], [role=alert]");
  const color = (node) => getComputedStyle(node).color;
  return [box.previousElementSibling.classList[0], box.getAttribute("aria-live"), live === null, color(box.querySelector("pre")) === color(document.querySelector(".took"))];
})()
"""
AT_END = "((text) => [text.scrollTop > 0, text.scrollHeight - text.scrollTop - text.clientHeight < 2])(document.querySelector('.partial pre'))"


@needs_program
@needs_chromium
class InThePage(Telling, PageCase):
    def test_a_text_that_comes(self) -> None:
        """It is there while its cell is evaluated, below it, over a reload too; the worksheet never has it."""
        self.begin_telling()
        self.browser = self.browse()
        tab = opened(self.browser, self.server)
        first, second = self.run_cell("sleep 60"), self.run_cell("sleep 60", "t", 1)
        self.tell(b"\x02verbatim:one \xc3")
        self.tell(b"\xa9 <b>\n")
        tab.until(SHOWN, [[f"cell-{first}", "one é <b>\n"]])
        self.assertEqual(tab.value(MARKS), ["not yet an answer, and kept nowhere:"])
        self.assertEqual(tab.value(LOOKS), ["output", "off", True, True])
        self.tell(b"\x02latex:$x$\x05", "t")
        self.tell("\x02verbatim:\u202etwo\x1b[31m".encode(), "t")
        tab.until(SHOWN, [[f"cell-{first}", "one é <b>\n"], [f"cell-{second}", "{latex:$x$}\\u202etwo\\x1b[31m"]])
        tab.reload()
        tab.until(f"{READY} && {SHOWN}.length", 2)
        with open(self.sheet, "rb") as file:
            self.assertNotIn(b"one \xc3", file.read())
        self.assertNotIn("one", self.show())
        news = tab.value("document.querySelector('#news').textContent")
        self.assertNotIn("one", news)
        self.page.call("interrupt", session="s")
        tab.until(SHOWN, [[f"cell-{second}", "{latex:$x$}\\u202etwo\\x1b[31m"]])
        tab.until(f"document.querySelector('#cell-{first} .output pre').textContent", "interrupted")
        self.page.call("stop", session="t")
        tab.until(SHOWN, [])
        self.assertEqual(self.browser.trouble, [])

    def test_much_of_it(self) -> None:
        """The last characters are there, in a box of its own whose end is followed, unless somebody looks at what is above."""
        self.begin_telling()
        self.browser = self.browse()
        tab = opened(self.browser, self.server)
        self.run_cell("sleep 60")
        self.tell(b"\x02verbatim:" + b"x" * 300 + b"\n" + b"".join(b"line %d\n" % number for number in range(3_000)))
        tab.until(f"{SHOWN}[0]?.[1].length", LONGEST)
        self.assertEqual(tab.value(MARKS), ["not yet an answer, and kept nowhere; its end:"])
        self.assertEqual(tab.value(AT_END), [True, True])
        self.assertLess(tab.value("document.querySelector('.partial').getBoundingClientRect().height"), 400)
        self.tell(b"the end\n")
        tab.until(f"{SHOWN}[0]?.[1].endsWith('the end\\n')")
        self.assertEqual(tab.value(AT_END), [True, True])
        tab.value("document.querySelector('.partial pre').scrollTop = 40")
        self.tell(b"and more\n")
        tab.until(f"{SHOWN}[0]?.[1].endsWith('and more\\n')")
        self.assertEqual(tab.value("document.querySelector('.partial pre').scrollTop"), 40)
        self.server.kill()
        self.assertEqual(tab.value("document.documentElement.scrollWidth <= innerWidth"), True)

    def test_another_state(self) -> None:
        """A banner, a request of completions and an ended program take it away."""
        self.begin_telling()
        self.browser = self.browse()
        tab = opened(self.browser, self.server)
        id = self.run_cell("sleep 60")
        self.tell(b"\x02verbatim:greeting")
        tab.until(SHOWN, [[f"cell-{id}", "greeting"]])
        banner = {"life": 1, "output": {"items": [], "kind": "format", "tag": "verbatim"}, "session": "s", "shown": "", "type": "banner"}
        os.write(self.pipe, json.dumps(banner).encode() + b"\n")
        tab.until(SHOWN, [])
        self.tell(b"\x02verbatim:again")
        tab.until(SHOWN, [[f"cell-{id}", "again"]])
        self.tell(b"\x02verbatim:of a session that is at nothing", "t")
        os.kill(self.server.program or 0, signal.SIGKILL)
        tab.until(SHOWN, [])
        self.assertEqual(self.browser.trouble, [])


def knows() -> bool:
    return PROGRAM is not None and "--partial" in words_of_live([PROGRAM], "sheet", True)


@needs_program
@needs_chromium
@unittest.skipUnless(knows(), "the program has no live --partial")
class ByTheProgram(PageCase):
    def test_before_the_end_of_a_line(self) -> None:
        self.begin()
        end = os.path.join(self.folder, "end")
        id = self.page.call("new", session="s", text=f"until {end} begun é", after=0)["id"]
        tab = opened(self.browser, self.server)
        for round in range(2):
            tab.click(f"#cell-{id} .number")
            tab.key("Enter", "Control")
            tab.until(SHOWN, [[f"cell-{id}", "begun é"]])
            self.assertIn("\n?\n", self.show())
            subprocess.run(["touch", end], check=True)
            tab.until(f"document.querySelector('#cell-{id} .output pre').textContent", "begun é and its end")
            tab.until(SHOWN, [])
            os.remove(end)
            tab.until(f"document.querySelector('#cell-{id}').dataset.state", "answered")
        self.assertEqual(self.browser.trouble, [])


@needs_program
@unittest.skipUnless(knows(), "the program has no live --partial")
class ByAnAdapter(Case):
    def test_what_python_prints(self) -> None:
        """It stands beside its blocks, since its answers are written when they are whole."""
        self.server = self.serve()
        page = Page(self.server)
        page.call("session", name="p", words=PYTHON, tab=True)
        text = "import time\u2028for n in range(600): print(n); time.sleep(0.05)"
        id = page.call("new", session="p", text=text, after=0)["id"]
        page.call("eval", id=id)
        end = time.monotonic() + 60
        while not (reported := page.snapshot().get("partial", {}).get(str(id), {}).get("text", "")).startswith("0\n1\n2\n"):
            self.assertLess(time.monotonic(), end, reported)
            time.sleep(0.1)
        page.call("interrupt", session="p")
        page.until_idle()
        self.assertNotIn("partial", page.snapshot())
        self.assertIn("KeyboardInterrupt", self.show())

    def test_why_an_adapter_has_ended(self) -> None:
        """What it says before its end stands at the cell that is lost, until that is asked again."""
        self.server = self.serve()
        page = Page(self.server)
        page.call("session", name="p", words=f"{PYTHON} --no-such-word", tab=False)
        page.call("session", name="q", words=PYTHON, tab=False)
        lost = page.call("new", session="p", text="1 + 1", after=0)["id"]
        other = page.call("new", session="q", text="import os; print('so far'); os._exit(3)", after=lost)["id"]
        for id in (lost, other):
            page.call("eval", id=id)
        cells = page.until_idle()
        self.assertEqual([(cells[id]["state"], cells[id]["reason"]) for id in (lost, other)], [("lost", "Ended")] * 2)
        self.assertTrue(cells[lost]["wrote"].endswith("python: error: unrecognized arguments: --no-such-word"), cells[lost])
        self.assertEqual(cells[other]["wrote"], "so far")
        page.call("set", id=other, text="1 + 1", base=cells[other]["input"])
        page.call("eval", id=other)
        self.assertIsNone(page.until_idle()[other]["wrote"])


if __name__ == "__main__":
    unittest.main()
