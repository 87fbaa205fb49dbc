"""A worksheet as one file for a colleague: what is in it, what comes of it elsewhere, and that a hostile one writes nowhere else."""

import json
import os
import subprocess
import sys
import unittest
import zipfile
from typing import Any, Dict, List, Tuple

from harness import NOTEBOOK, PROGRAM, REPOSITORY, SPOKEN, Case, Page, Server, needs_program
from test_pictures import DRAWN, png

sys.path[:0] = [NOTEBOOK, f"{NOTEBOOK}/../python"]
from tmhost_notebook import packing  # noqa: E402
from tmhost_notebook.folder import NotDone  # noqa: E402
from tmhost_notebook.rewording import reported  # noqa: E402

PROSE = "![p](figures/p.svg) ![q](q%20r.png) ![no](../secret.png) ![none](none.png) ![far](https://evil.example/x.png)"


@needs_program
class Packing(Case):
    def setUp(self) -> None:
        super().setUp()
        self.mine, self.theirs = os.path.join(self.folder, "mine"), os.path.join(self.folder, "theirs")
        os.makedirs(os.path.join(self.mine, "figures"))
        os.makedirs(self.theirs)
        self.sheet, self.zip = os.path.join(self.mine, "lesson 1"), os.path.join(self.folder, "lesson.zip")
        self.adapter = os.path.join(self.mine, "adapter")
        for name, data in (("figures/p.svg", DRAWN[2][1]), ("q r.png", png()), ("../secret.png", png()), ("adapter", f"#!/bin/sh\nexec {SPOKEN}\n".encode())):
            with open(os.path.join(self.mine, name), "wb") as file:
                file.write(data)
        os.chmod(self.adapter, 0o755)

    def run_command(self, *words: str) -> Tuple[int, str]:
        done = subprocess.run([os.path.join(NOTEBOOK, "tmhost-notebook"), *words], capture_output=True, text=True, env={**os.environ, "TMHOST": PROGRAM or ""})
        return done.returncode, done.stdout + done.stderr

    def words(self, sheet: str) -> Dict[str, List[str]]:
        return {one["name"]: one["words"] for line in reported(sheet, PROGRAM) for one in line.get("sessions", ())}

    def fill(self) -> Server:
        server = self.serve()
        page = Page(server)
        page.call("session", name="own", words=f"{self.adapter} {self.adapter} word", tab=False)
        page.call("session", name="gp", words=os.path.join(REPOSITORY, "adapters", "gp"), tab=False)
        page.call("session", name="gone", words="/nowhere/adapter", tab=False)
        page.call("new", session="own", text="say 1", after=0)
        page.call("new", session="own", text="sleep 60", after=1)
        page.call("new", session=None, text=PROSE, after=2)
        page.call("eval", id=1)
        page.until_idle()
        page.call("eval", id=2)
        self.assertTrue(page.call("set", id=2, text="a draft", base="sleep 60", draft=None)["isDraft"])
        return server

    def test_a_colleague(self) -> None:
        """While the worksheet is open. At the colleague's it has its answer, its draft, its pictures, and an adapter that is started."""
        server = self.fill()
        status, said = self.run_command("pack", self.sheet, self.zip)
        self.assertEqual(status, 0, said)
        names = ["files/0/adapter", "pictures/figures/p.svg", "pictures/q r.png", "sheet", "sheet.alt", "sheet.drafts.json"]
        self.assertEqual(said.splitlines(), ["packed " + name for name in names])
        server.kill()
        os.rename(self.mine, self.mine + "-gone")
        self.assertEqual(self.run_command("unpack", self.zip, self.theirs), (0, "made lesson 1\nsession gone: there is no program /nowhere/adapter here\n"))
        own = os.path.join(os.path.realpath(self.theirs), "lesson 1.files")
        sheet = os.path.join(self.theirs, "lesson 1")
        self.assertEqual({name: words for name, words in self.words(sheet).items() if name != "prose"},
            {"own": [f"{own}/0/adapter", f"{own}/0/adapter", "word"], "gp": ["tmhost-gp"], "gone": ["/nowhere/adapter"]})
        self.assertEqual(sorted(os.listdir(self.theirs)), ["figures", "lesson 1", "lesson 1.alt", "lesson 1.drafts.json", "lesson 1.files", "q r.png"])
        self.sheet = sheet
        page = Page(self.serve())
        cells = page.cells()
        self.assertEqual((cells[1]["output"]["text"], cells[2]["draft"]["text"], cells[3]["input"]), ("1", "a draft", PROSE))
        self.assertIn("picture", page.call("picture", address="q%20r.png")["part"])

    def test_refusals(self) -> None:
        self.fill().kill()
        self.assertEqual(self.run_command("pack", self.sheet, self.zip)[0], 0)
        for words, wanted in ((("pack", self.sheet, self.zip), "already"), (("pack", self.sheet + "x", self.zip + "x"), "No such file"),
            (("unpack", self.adapter, self.theirs), "can't be unpacked"), (("unpack", self.zip, self.theirs + "x"), f"there is no folder {self.theirs}x\n"),
            (("unpack", self.zip, self.adapter), f"there is no folder {self.adapter}\n"), (("pack", self.sheet, "none/x.zip"), "there is no folder none\n"),
            (("unpack", self.zip, self.mine), "already")):
            with self.subTest(words=words):
                status, said = self.run_command(*words)
                self.assertEqual(status, 1)
                self.assertIn(wanted, said)
        self.assertEqual(os.listdir(self.theirs), [])

    def test_hostile_files(self) -> None:
        """Whatever its names say, nothing is written outside of the folder, and nothing there is changed."""
        self.fill().kill()
        packing.pack(self.sheet, self.zip, PROGRAM)
        with zipfile.ZipFile(self.zip) as file:
            members = {name: file.read(name) for name in file.namelist()}
        manifest = json.loads(members["manifest.json"])
        outside = os.path.join(self.folder, "outside")
        os.symlink(self.folder, os.path.join(self.theirs, "link"))
        before = sorted(os.listdir(self.folder))
        changes: List[Dict[str, Any]] = [
            {"name": "../outside"}, {"name": outside}, {"name": ""}, {"name": 3}, {"format": 2}, {"words": []}, {"words": {"own": "x"}}, {"pictures": [1]},
            {"pictures": ["../outside"]}, {"pictures": [outside]}, {"pictures": ["link/outside"]}, {"pictures": ["a/../../outside"]},
            {"words": {"own": ["files/../../outside"]}}, {"words": {"none": ["x"]}}]
        for number, change in enumerate(changes):
            hostile = os.path.join(self.mine, f"{number}.zip")
            with zipfile.ZipFile(hostile, "w") as file:
                for name, data in members.items():
                    if name != "manifest.json":
                        file.writestr(name, data)
                for name in ("pictures/../outside", f"pictures/{outside}", "pictures/link/outside", "pictures/a/../../outside", "files/../../outside"):
                    file.writestr(name, b"x")
                file.writestr("manifest.json", json.dumps({**manifest, "name": f"sheet {number}", **change}))
            with self.subTest(change=change):
                try:
                    packing.unpack(hostile, self.theirs, PROGRAM)
                except NotDone:
                    pass
                self.assertEqual(sorted(os.listdir(self.folder)), before)
        self.assertEqual([name for name in os.listdir(self.theirs) if name.startswith(".")], [])


if __name__ == "__main__":
    unittest.main()
