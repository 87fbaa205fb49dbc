"""Pages with pictures as Chromium sees them: which elements they have, what they ask for, whether a script of a picture ran, and how long they take."""

from __future__ import annotations

import os
import sys
import threading
import time
from typing import NamedTuple

from formula_readers import Asked, Element, Host, elements_in
from model import Difference
from program import ROOT

sys.path.append(f"{ROOT}/clients/notebook/tests")
import chromium as chromium  # noqa: E402

HARMED = "[window.harmed ?? 0, document.title === '1' ? 1 : 0]"
DRAWN = "document.readyState === 'complete' && [...document.images].every((one) => one.complete)"
# Shows the page a screen at a time, and each image in it. One may be so high that a page has thousands of screens.
SCROLLED = """
(async () => {
  const drawn = () => new Promise((done) => requestAnimationFrame(() => requestAnimationFrame(done)));
  for (let place = 0; place < Math.min(document.documentElement.scrollHeight, 70_000); place += 700) {
    scrollTo(0, place);
    await drawn();
  }
  for (const image of document.images) {
    image.scrollIntoView();
    await drawn();
  }
})()
"""
PATIENCE = 200.0  # seconds that a page may take on a busy machine


class Seen(NamedTuple):
    """A page behind all that its scripts could have done."""

    pictures: list[Element]
    others: list[Element]
    asked: list[str]
    seconds: float


def apart(elements: list[Element]) -> tuple[list[Element], list[Element]]:
    """The images among elements, and the others."""
    return [one for one in elements if one[0] == "img"], [one for one in elements if one[0] != "img"]


class Watched:
    """Chromium, whose requests but those to this machine go to a host here, which keeps them and gives nothing."""

    def __init__(self) -> None:
        self.host = Host(("127.0.0.1", 0), Asked)
        threading.Thread(target=self.host.serve_forever, daemon=True).start()
        chromium.WORDS.append(f"--proxy-server=127.0.0.1:{self.host.server_port}")
        self.browser = chromium.Browser()

    def __enter__(self) -> Watched:
        return self

    def __exit__(self, *_: object) -> None:
        self.browser.kill()
        self.host.shutdown()

    def clear(self) -> None:
        for some in (self.browser.requests, self.browser.trouble, Asked.asked):
            some.clear()

    def asked(self, own: str) -> list[str]:
        """What was asked for but what begins as a page's own, and what has all of its bytes in its address."""
        all_asked = [*self.browser.requests, *Asked.asked]
        return sorted({one for one in all_asked if not one.startswith((own, "about:blank", "data:image/"))})

    def look(self, tab: chromium.Tab, name: str) -> None:
        """Sees all of a page, and waits for what may come behind it."""
        tab.value(SCROLLED)
        tab.value("new Promise((done) => setTimeout(done, 1500))")
        if tab.value(HARMED) != [0, 0]:
            raise Difference(f"{name}: a script of a picture has run")
        if dialogs := [one for one in self.browser.trouble if one.startswith("dialog")]:
            raise Difference(f"{name}: {dialogs}")

    def see(self, name: str, path: str, own: str = "") -> Seen:
        """The page of a file. Its own are the file, and what is in a folder."""
        self.clear()
        begin = time.monotonic()
        tab = self.browser.open(f"file://{path}")
        tab.until(DRAWN, True, PATIENCE)
        seconds = time.monotonic() - begin
        self.look(tab, name)
        pictures, others = apart(elements_in(str(tab.value("document.documentElement.outerHTML"))))
        asked = [one for one in self.asked(f"file://{path}") if not (own and one.startswith(f"file://{own}/"))]
        tab.close()
        return Seen(pictures, others, asked, seconds)


def control(watched: Watched, folder: str, host: str) -> None:
    """What is looked for must be found where it is there: a script that runs, a request, an element."""
    path = os.path.join(folder, "control.html")
    with open(path, "w") as file:
        file.write(f"<!doctype html><title>x</title><img src='http://{host}/control.png'><script>window.harmed = 1</script>")
    try:
        watched.see("control", path)
    except Difference:
        pass
    else:
        raise Difference("a script that runs isn't found")
    if watched.asked(f"file://{path}") != [f"http://{host}/control.png"]:
        raise Difference(f"a request isn't found: {watched.asked('file:')}")
