"""Cells are asked one of each session at a time: a kill in the middle of "Evaluate all" takes one answer of each session, and no more; an interrupt and a
stop leave the rest unasked. A session whose program isn't there is named, and loses none. The head says when the program has ended."""

import json
import os
import random
import signal
import subprocess
import time
import unittest
from typing import Any, Callable, Dict, List

import harness
from harness import PROGRAM, SPOKEN, Case, Page, Server, needs_chromium, needs_program, opened, until_ended

KILLS = int(os.environ.get("TMHOST_KILLS", "20"))
CELLS = 40
SESSIONS = ("s", "t")
STATES = "Object.fromEntries([...document.querySelectorAll('.cell')].map((cell) => [cell.id.slice(5), cell.dataset.state]))"
SHOWN = "[...document.querySelectorAll('.cell .output pre')].map((node) => node.textContent)"
NOTE = "document.querySelector('#note').textContent"
HEAD = "document.querySelector('#connection').textContent"
IS_BAD = "document.querySelector('#connection').classList.contains('bad')"
HEADS = """
(() => {
  window.heads = [];
  const note = () => window.heads.push([document.querySelector("#connection").textContent, document.querySelector("#trouble").hidden]);
  new MutationObserver(note).observe(document.querySelector("header"), { childList: true, subtree: true, characterData: true, attributes: true });
})()
"""


def script(*lines: str) -> bytes:
    return "".join(f"{line}\n" for line in lines).encode()


class Lesson(Case):
    """A worksheet of answered cells of two sessions. Of each session there is one that takes a moment when it is evaluated again."""

    words = SPOKEN

    def write(self, count: int = CELLS, slow: str = "0") -> None:
        made = [f"session {name} plain {self.words}" for name in SESSIONS]
        for number in range(1, count + 1):
            text = f"sleep {slow}" if number in (5, 6) else f"say {number}"
            made += [f"new {number - 1} {SESSIONS[number % 2]} {text}", f"eval {number}"]
        subprocess.run([PROGRAM or "", "create", self.sheet], check=True, stdin=subprocess.DEVNULL, stdout=subprocess.DEVNULL)
        subprocess.run([PROGRAM or "", "run", self.sheet], input=script(*made, "wait"), check=True, stdout=subprocess.DEVNULL)
        self.assertEqual(len(self.answers()), count)

    def fields(self) -> List[Dict[str, Any]]:
        """The fields in the file, of a copy: a server may have it."""
        self.show()
        reported = subprocess.run([PROGRAM or "", "show", "--json", os.path.join(self.folder, "copy")], capture_output=True, check=True)
        return [one["field"] for one in map(json.loads, reported.stdout.splitlines()) if one["type"] == "field"]

    def answers(self) -> Dict[int, str]:
        return {field["id"]: field["shown"] for field in self.fields() if field["state"] == "answered"}

    def without(self) -> Dict[str, int]:
        """Of each session how many fields have no answer."""
        found = self.fields()
        return {name: sum(1 for one in found if one["session"] == name and one["state"] != "answered") for name in SESSIONS}


@needs_program
@needs_chromium
class Kills(Lesson):
    def test_kills(self) -> None:
        """At random moments after "Evaluate all" and "from here": all but one answer of each session are in the file."""
        seed = int(os.environ.get("TMHOST_SEED", str(random.randrange(10**6))))
        rng = random.Random(seed)
        browser, lost = self.browse(), 0
        for round in range(KILLS):
            with self.subTest(round=round, seed=seed):
                self.sheet = os.path.join(self.folder, f"sheet{round}")
                self.write(slow="0.2")
                server = self.serve()
                tab = opened(browser, server)
                tab.until(f"Object.values({STATES}).filter((one) => one === 'answered').length", CELLS)
                if round % 3 == 2:
                    tab.click("#cell-4 .number")
                tab.click("[data-do=evaluateFrom]" if round % 3 == 2 else "[data-do=evaluateAll]")
                time.sleep(rng.choice([rng.uniform(0, 0.05), rng.uniform(0, 0.4), rng.uniform(0, 2)]))
                self.kill(server, rng)
                tab.close()
                found = self.without()
                lost += sum(found.values())
                self.assertLessEqual(max(found.values()), 1, f"{found} have no answer")
        print(f" {KILLS} kills, {lost} answers of {KILLS * CELLS} gone, seed {seed}", end="")

    def kill(self, server: Server, rng: random.Random) -> None:
        """Server and program in both orders, or the server alone, at whose end the program ends by itself."""
        program, how = server.program, rng.randrange(3)
        if how == 0 and program:
            os.killpg(program, signal.SIGKILL)
        server.kill()
        if how == 1 and program and os.path.exists(f"/proc/{program}"):
            os.killpg(program, signal.SIGKILL)
        until_ended(program)


@needs_program
class Asked(Lesson):
    def test_a_cell_that_waits_is_never_reported_as_an_empty_one(self) -> None:
        """Also between its turn and the reply to its evaluation."""
        subprocess.run([PROGRAM or "", "create", self.sheet], check=True, stdin=subprocess.DEVNULL, stdout=subprocess.DEVNULL)
        made = [f"session {SESSIONS[0]} plain {self.words}", *(f"new {number} {SESSIONS[0]} say {number}" for number in range(CELLS))]
        subprocess.run([PROGRAM or "", "run", self.sheet], input=script(*made), check=True, stdout=subprocess.DEVNULL)
        page = Page(self.serve())
        self.assertEqual(page.call("eval_from", id=None)["count"], CELLS)
        seen: List[List[str]] = []
        while not seen or any(state != "answered" for state in seen[-1]):
            seen.append([cell["state"] for cell in page.cells().values()])
        self.assertEqual([states for states in seen if "empty" in states], [])


@needs_program
@needs_chromium
class Stops(Lesson):
    def begin(self, slow: str = "60") -> None:
        self.write()
        self.server = self.serve()
        self.page = Page(self.server)
        for id in (5, 6):
            self.page.call("set", id=id, text=f"sleep {slow}", base="sleep 0")
        self.browser = self.browse()
        self.tab = opened(self.browser, self.server)
        self.tab.click("[data-do=evaluateAll]")
        self.tab.until(f"(({{5: one, 6: other}}) => [one, other])({STATES})", ["running", "running"])

    def test_the_rest_waits_with_its_answers(self) -> None:
        """They are shown as waiting, their answers are there and in the file, and the head counts them."""
        self.begin()
        states = self.tab.value(STATES)
        self.assertEqual({states[str(id)] for id in range(7, CELLS + 1)}, {"queued"})
        self.assertEqual(self.tab.value("document.querySelector('#cell-40 .answer-state').textContent"), "waits for its turn")
        self.assertEqual(self.tab.value(SHOWN)[6:], [str(id) for id in range(7, CELLS + 1)])
        self.assertEqual(self.tab.value("document.querySelector('#cell-40 .output').classList.contains('old')"), False)
        self.assertEqual(self.without(), {"s": 1, "t": 1})
        self.assertEqual(self.tab.value("[...document.querySelectorAll('#sessions span')].map((node) => node.textContent)"), ["18 to answer"] * 2)
        for call in ("remove", "clear", "change"):
            reported = self.page.call(call, id=40, text="other", base="say 40", session="t")
            self.assertEqual(reported.get("refused"), "InFlight", call)

    def test_an_interrupt_and_a_stop(self) -> None:
        self.begin()
        self.tab.click("[data-session=t] [data-do=interruptSession]")
        self.tab.until(f"{STATES}[5]", "answered")
        self.tab.until(NOTE, "17 of t that waited were not asked")
        self.tab.until(f"{STATES}[7]", "answered")
        self.assertEqual(self.tab.value(f"{STATES}[8]"), "queued")
        self.tab.click("[data-session=s] [data-do=stopSession]")
        self.tab.until(f"{STATES}[6]", "lost")
        self.tab.until(f"{STATES}[8]", "answered")
        self.assertEqual(self.without(), {"s": 1, "t": 0})
        self.assertEqual(self.answers()[5], "interrupted")
        self.tab.click("#cell-8 .number")
        self.tab.key("Enter", "Control")  # what was stopped begins again
        self.tab.until("document.querySelector('#cell-8 .prompt').textContent", "1> ")

    def test_an_end(self) -> None:
        """Where an interpreter ends by itself its variables are gone, and the rest keeps its answers, which is said."""
        self.begin("60")
        os.kill(self.interpreters()[0], signal.SIGKILL)
        self.tab.until(NOTE, lambda found: "its interpreter ended: 17 cells that waited of session" in str(found))
        self.tab.until(f"Object.values({STATES}).filter((one) => one === 'queued').length", 17)
        self.assertEqual(sorted(self.without().values()), [1, 1])

    def interpreters(self) -> List[int]:
        return harness.children_of(self.server.program or 0)

    def test_closed_and_opened_again(self) -> None:
        """Who closes the page stops nothing, and a page that is opened in the middle sees the rest go on."""
        self.begin()
        self.tab.close()
        self.page.call("interrupt", session="s")
        self.tab = opened(self.browser, self.server)
        self.assertEqual(self.tab.value(f"(({{5: one, 39: other}}) => [one, other])({STATES})"), ["running", "queued"])
        self.tab.close()
        self.page.call("stop", session="t")
        for id in (5, 6):
            self.page.call("set", id=id, text="sleep 0.5", base="sleep 60")
        self.page.call("eval_from", id=None)
        self.page.until_idle()
        self.assertEqual(self.without(), {"s": 0, "t": 0})

    def test_restart(self) -> None:
        """All is asked again, from the start, and none is asked twice."""
        self.begin()
        for id in (5, 6):
            self.page.call("stop", session=SESSIONS[id % 2])
            self.page.call("set", id=id, text="sleep 0", base="sleep 60")
        self.tab.click("[data-do=evaluateAll]")
        self.tab.click("[data-do=restartAll]")
        self.tab.until(f"Object.values({STATES}).filter((one) => one === 'answered').length", CELLS)
        self.page.until_idle()
        prompts = self.tab.value("[...document.querySelectorAll('.cell .prompt')].map((node) => node.textContent)")
        self.assertEqual(prompts, [f"{(number + 1) // 2}> " for number in range(1, CELLS + 1)])


@needs_program
@needs_chromium
class NoProgram(Lesson):
    """The words of a session name a program that isn't there, as on another machine."""

    def setUp(self) -> None:
        super().setUp()
        self.gone = os.path.join(self.folder, "interpreter")
        with open(self.gone, "w", encoding="utf-8") as file:
            file.write(f"#!/bin/sh\nexec {SPOKEN}\n")
        os.chmod(self.gone, 0o755)
        self.words = self.gone

    def begin(self) -> None:
        self.write()
        self.before = self.answers()
        self.server = self.serve()
        self.page = Page(self.server)
        self.browser = self.browse()
        self.tab = opened(self.browser, self.server)

    def reported(self) -> None:
        self.tab.until(NOTE, lambda found: f"session s can't be started: there is no program {self.gone}. Its words are: {self.gone}" in str(found))

    def each_way(self) -> None:
        """All that a user can press."""
        ways: List[Callable[[], Any]] = [
            lambda: self.tab.click("[data-do=evaluateAll]"), lambda: self.tab.key("Enter", "Control"), lambda: self.tab.click("[data-do=evaluateFrom]"),
            lambda: self.tab.click("[data-session=s] [data-do=restartSession]"), lambda: self.tab.click("[data-do=restartAll]"),
        ]
        for press in ways:
            self.tab.value("document.querySelector('#note').textContent = ''")
            self.tab.click("#cell-2 .number")
            press()
            self.reported()
            self.page.until_idle()
            self.assertEqual(self.answers(), self.before)
            self.assertEqual(self.tab.value(SHOWN)[-CELLS:], list(self.before.values()))

    def test_it_is_named_and_no_answer_is_lost(self) -> None:
        self.begin()
        os.remove(self.gone)
        self.each_way()

    def test_one_that_may_not_be_run(self) -> None:
        self.begin()
        os.chmod(self.gone, 0o644)
        self.each_way()

    def test_others_are_asked(self) -> None:
        self.begin()
        self.page.call("session", name="u", words=SPOKEN, tab=False)
        self.page.call("new", session="u", text="say fresh", after=0)
        os.remove(self.gone)
        self.tab.click("[data-do=evaluateAll]")
        self.tab.until(f"{SHOWN}[0]", "fresh")
        self.reported()
        self.page.until_idle()
        self.assertEqual({id: text for id, text in self.answers().items() if id <= CELLS}, self.before)

    def test_one_that_runs_is_asked(self) -> None:
        """What runs needs no start; but it isn't stopped for a restart that can't come."""
        self.begin()
        self.tab.click("[data-do=evaluateAll]")
        self.page.until_idle()
        os.remove(self.gone)
        self.tab.click("#cell-2 .number")
        self.tab.key("Enter", "Control")
        self.tab.until("document.querySelector('#cell-2 .prompt').textContent", f"{CELLS // 2 + 1}> ")
        self.tab.click("[data-session=s] [data-do=restartSession]")
        self.reported()
        self.assertEqual([one["runs"] for one in self.page.snapshot()["sessions"]], [True, True])


@needs_program
@needs_chromium
class TheHead(Lesson):
    def test_it_says_that_the_program_has_ended(self) -> None:
        """At no moment does it say "connected" beside that the program has ended: neither then, nor when the page is opened or finds the server."""
        self.write()
        server = self.serve()
        browser = self.browse()
        tab = opened(browser, server)
        tab.until(HEAD, lambda found: str(found).startswith("connected"))
        tab.value(HEADS)
        assert server.program is not None
        os.killpg(server.program, signal.SIGKILL)
        tab.until("document.querySelector('#trouble').hidden", False)
        self.assertEqual([tab.value(HEAD), tab.value(IS_BAD)], ["the program has ended: what is typed now is not saved", True])
        other = opened(browser, server, in_window=True)
        self.assertEqual(other.value(HEAD), "the program has ended: what is typed now is not saved")
        self.assertEqual([head for head, is_hidden in tab.value("window.heads") if not is_hidden and head.startswith("connected")], [])
        tab.click("[data-do=reopen]")
        for one in (tab, other):
            one.until(HEAD, lambda found: str(found).startswith("connected"))
            self.assertEqual(one.value(IS_BAD), False)


if __name__ == "__main__":
    unittest.main()
