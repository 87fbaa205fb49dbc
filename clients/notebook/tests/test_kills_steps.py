"""Kills of the server, the program and the browser while a user types, evaluates, cuts, pastes, takes back, brings back, takes earlier texts back and restores
earlier worksheets. Each word is in a cell yet, or in what was cut last, or in the list "Removed", which has what was removed since the last checkpoint; each text
that was shown as saved stands in the journal; each answer is whole; and each worksheet that was reported as restored opens. TMHOST_KILLS says how many (20)."""

import json
import os
import random
import re
import subprocess
import time
import unittest
from typing import Any, Callable, Dict, List, Set

import test_kills
from harness import PROGRAM, Page, needs_chromium, needs_program

KILLS = int(os.environ.get("TMHOST_KILLS", "20"))
WORDS = [f"word{number}." for number in range(12)]
MOST_CELLS = 24

# What is cut is mostly pasted then, or both are taken back; else its word is in the list alone, as soon as another cell is cut. Who hears that nothing is done
# any more does nothing.
WORK = """
(() => {
  let count = %d;
  const most = %d, words = %s;
  window.did ??= {};
  const press = (node, key, more = {}) => node.dispatchEvent(new KeyboardEvent("keydown", { key, bubbles: true, ...more }));
  const any = (list) => list[Math.floor(Math.random() * list.length)];
  const wordOf = (box) => /word\\d+\\./.exec(box.querySelector("textarea").value)?.[0];
  const boxes = () => [...document.querySelectorAll(".cell")].filter(wordOf);
  const later = (milliseconds) => new Promise((done) => setTimeout(done, milliseconds));
  const idle = async () => { // keys that come before are for the cell that is on its way
    do await later(30); while (document.querySelector("#cells").getAttribute("aria-busy") === "true");
  };
  const does = {
    type: async (box) => {
      const text = box.querySelector("textarea");
      text.value = `say ${wordOf(box)} ${count}`;
      text.dispatchEvent(new Event("input", { bubbles: true }));
      if (Math.random() < .7) press(text, "Enter", { ctrlKey: true });
      else text.dispatchEvent(new FocusEvent("focusout", { bubbles: true }));
    },
    cut: async (box) => {
      box.focus();
      press(box, "x");
      await idle();
      const other = any(boxes());
      if (!other || Math.random() < .2) return;
      other.focus();
      press(other, "v");
      await idle();
      for (const key of box.isConnected ? [] : any(["", "zz", "zzZZ"])) {
        press(boxes()[0] ?? other, key, { shiftKey: key === "Z" });
        await idle();
      }
    },
    remove: async (box, all) => {
      if (all.length < most) return;
      box.focus();
      press(box, "d");
      press(box, "d");
      await idle();
    },
    bring: async (_, all) => all.length < most && document.querySelector("#removed-list button")?.click(),
    before: async (box) => {
      box.focus();
      press(box, "e");
      await later(150);
      any([...document.querySelectorAll("#before-list [data-do=takeBack]")])?.click();
      document.querySelector("#before-dialog").close();
    },
    restore: async () => {
      document.querySelector("[data-do=showEarlier]").click();
      await later(200);
      document.querySelector("#earlier-name").value = `then${count}`;
      document.querySelector("#earlier-restore").click();
      await later(150);
      document.querySelector("#earlier-dialog").close();
    },
  };
  // What is in the clipboard or in the list of removed cells alone comes back first.
  const itemOf = (word) => [...document.querySelectorAll("#removed-list li")].find((one) => one.textContent.includes(word));
  const mend = async () => {
    for (const word of words.filter((one) => !boxes().some((box) => wordOf(box) === one))) {
      const box = boxes()[0];
      if (box && (localStorage.getItem("tmhost-cells") ?? "").includes(word)) {
        box.focus();
        press(box, "v");
      } else {
        document.querySelector("#removed").click();
        while (!itemOf(word)) await later(30);
        itemOf(word).querySelector("button").click();
      }
      while (!boxes().some((one) => wordOf(one) === word)) await later(30);
    }
    window.isMended = true;
  };
  const kinds = ["type", "type", "type", "type", "cut", "cut", "cut", "remove", "bring", "before", "restore"];
  window.isOver = window.isMended = false;
  const work = async () => {
    await mend();
    while (!window.isOver && !/can't be reached|ended by/.test(document.querySelector("#note").textContent)) {
      const all = boxes(), box = any(all), kind = any(kinds);
      count += 1;
      if (box) await does[kind](box, all);
      window.did[kind] = (window.did[kind] ?? 0) + 1;
      await idle();
    }
  };
  work();
})()
"""
STOP = "(window.isOver = true, document.querySelectorAll('dialog[open]').forEach((one) => one.close()))"
SEEN = """
[...document.querySelectorAll(".cell")].filter((cell) => cell.dataset.text === "saved").map((cell) => {
  const isAnswered = cell.dataset.state === "answered" && !cell.querySelector(".output").classList.contains("old");
  return [cell.querySelector("textarea").value, isAnswered ? cell.querySelector(".output pre").textContent : null];
})
"""
CUT = "localStorage.getItem('tmhost-cells') ?? ''"
MADE = "/^(\\w+) was made/.exec(document.querySelector('#earlier-says').textContent)?.[1] ?? null"
ANSWERED = re.compile(r"^#\d+ s\n\S*> say (word\d+\. \d+)\n(?!\?)(.*)\n", re.MULTILINE)


@needs_program
@needs_chromium
class Steps(test_kills.Kills):
    def setUp(self) -> None:
        super().setUp()
        self.texts: Set[str] = set()  # that were shown as saved
        self.made: Set[str] = set()
        self.done: Dict[str, int] = {}
        page = Page(self.server)
        new: List[Dict[str, Any]] = [{"after": 1, "session": "s", "text": f"say {word} 0"} for word in WORDS]
        page.call("step", what="x", new=new, set=[], move=[], remove=[])
        self.tab.until("document.querySelectorAll('.cell').length", len(WORDS) + 1)

    def look(self) -> None:
        for text, answer in self.tab.value(SEEN):
            self.texts.add(text)
            if answer is not None and text:
                self.assertEqual(f"say {answer}", text)
        made = self.tab.value(MADE)
        self.made |= {made} if made else set()
        self.looks += 1

    def kept(self) -> None:
        """Compares with the files, with what the browser has that was cut, and with the list of removed cells."""
        shown, page = self.show(), Page(self.server)
        self.assertNotIn("refused", page.call("past_removed"))
        removed = json.dumps(page.snapshot()["removed"])
        there = shown + removed + self.cut
        self.assertEqual([word for word in WORDS if word not in there], [])
        for text, answer in ANSWERED.findall(shown):
            self.assertEqual(answer, text)
            self.answers += 1
        journal = b""
        for end in ("", ".alt"):
            with open(self.sheet + end, "rb") as file:
                journal += file.read()
        self.assertEqual([text for text in self.texts if text.encode() not in journal], [])
        for name in self.made:
            reported = subprocess.run([PROGRAM or "", "show", os.path.join(self.folder, name)], stdin=subprocess.DEVNULL, capture_output=True)
            self.assertEqual(reported.returncode, 0, (name, reported.stderr))

    def test_kills(self) -> None:
        seed = int(os.environ.get("TMHOST_SEED", str(random.randrange(10**6))))
        rng = random.Random(seed)
        kinds: List[Callable[[], None]] = [self.kill_server, self.kill_program, self.kill_browser]
        for round in range(KILLS):
            with self.subTest(round=round, seed=seed):
                self.tab.value(WORK % (10_000 * (round + 1), MOST_CELLS, json.dumps(WORDS)))
                self.tab.until("window.isMended")
                end = time.monotonic() + rng.uniform(0.3, 2.5)
                while time.monotonic() < end:
                    self.look()
                self.count()
                kinds[round % 3]()
                self.tab.value(STOP)
                self.cut = self.tab.value(CUT)
                self.kept()
            if (round + 1) % 20 == 0:
                print(f" {round + 1}", end="", flush=True)
        self.tab.until("document.querySelectorAll('.cell[data-state=running], .cell[data-state=queued]').length", 0)
        self.agree()
        print(f" {KILLS} kills, {self.looks} looks, {len(self.texts)} texts, {self.answers} answers, {len(self.made)} restored, {self.done}, seed {seed}", end="")
        self.assertGreater(min(self.answers, len(self.texts)), 0)

    def count(self) -> None:
        """What was done before a kill. The clipboard is that of the browser, which may be the one that is killed."""
        for kind, count in self.tab.value("((did) => { window.did = {}; return did })(window.did ?? {})").items():
            self.done[kind] = self.done.get(kind, 0) + count


if __name__ == "__main__":
    unittest.main()
