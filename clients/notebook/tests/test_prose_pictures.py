"""Pictures and links in prose: files of the worksheet's folder and data, and nothing of what lies elsewhere."""

import base64
import os
import sys
import unittest

from harness import NOTEBOOK, Page, PageCase, needs_chromium, needs_program, opened
from test_pictures import CIRCLES, DRAWN, HOSTILE, JPEG, png

sys.path[:0] = [NOTEBOOK, f"{NOTEBOOK}/../python"]
from tmhost_notebook import in_prose  # noqa: E402

DATA = "data:image/png;base64," + base64.b64encode(png()).decode()
PROSE = f"""![a plot](figures/plot%20one.svg) ![twice](figures/plot%20one.svg) ![data]({DATA})

![none](figures/none.png) ![above](../secret.png) ![far](https://evil.example/x.png) ![near](//evil.example/x.png) ![file](file:///etc/passwd)

[a cell](#cell-2), [another](#cell-999), [a page](https://www.texmacs.org), [a file](figures/plot.svg), [script](javascript:window.harmed=1)
"""
SOURCES = "[...document.querySelectorAll('.reading img')].map((one) => one.src.slice(0, 22) + ' ' + one.alt)"


class FolderOfPictures(PageCase):
    def setUp(self) -> None:
        super().setUp()
        self.place = os.path.join(self.folder, "lesson")
        os.makedirs(os.path.join(self.place, "figures"))
        self.sheet = os.path.join(self.place, "sheet")
        self.write("figures/plot one.svg", DRAWN[2][1])
        self.write("../secret.png", png())

    def write(self, name: str, data: bytes) -> None:
        with open(os.path.join(self.place, name), "wb") as file:
            file.write(data)


class Files(FolderOfPictures):
    def refused(self, address: str) -> str:
        with self.assertRaises(in_prose.NoPicture) as found:
            in_prose.part_at(self.place, address)
        return str(found.exception)

    def test_what_is_read(self) -> None:
        self.write("a.png", png(7, 5))
        self.write("a.jpg", JPEG)
        self.write("large.svg", CIRCLES[1])
        os.symlink("a.png", os.path.join(self.place, "link"))
        for address, about in (("a.png", "PNG, 7 by 5"), ("./figures/../a.png", "PNG, 7 by 5"), ("link", "PNG, 7 by 5"), ("a.jpg", "JPEG, 1 by 1"),
            ("figures/plot%20one.svg", "SVG"), (DATA, "PNG, 3 by 2")):
            with self.subTest(address[:40]):
                part = in_prose.part_at(self.place, address)
                self.assertTrue(part["text"].startswith(about), part["text"])
                self.assertTrue(part["picture"].startswith("data:image/"))
        self.assertEqual(list(in_prose.part_at(self.place, "large.svg")), ["heavy", "text"])

    def test_what_is_not(self) -> None:
        os.symlink("../secret.png", os.path.join(self.place, "link"))
        os.mkfifo(os.path.join(self.place, "pipe"))
        self.write("text", b"text")
        self.write("too-large", b"\x89" + bytes(in_prose.LARGEST))
        for address in ("../secret.png", "figures/../../secret.png", "link", os.path.join(self.folder, "secret.png"), "..%2fsecret.png", f"file://{self.place}/a.png"):
            with self.subTest(address):
                self.assertEqual(self.refused(address), "it isn't in the worksheet's folder")
        self.assertEqual(self.refused("none.png"), "it can't be read: No such file or directory")
        for address in ("pipe", "figures", "too-large", "text", "a\0b", "", ".", "data:image/gif;base64,R0lGODlhAQABAA==", "data:text/html;base64,PGI+", "http://evil.example/x"):
            with self.subTest(address):
                self.assertTrue(self.refused(address))
        for tag, data in HOSTILE:
            if tag == "image/svg+xml":
                self.write("hostile.svg", data)
                self.assertEqual(self.refused("hostile.svg"), "it is no PNG, JPEG or SVG that is drawn here")


@needs_program
@needs_chromium
class Shown(FolderOfPictures):
    def test_prose_with_pictures(self) -> None:
        self.begin()
        self.page.call("new", session=None, text=PROSE, after=0)
        self.page.call("new", session="s", text="x", after=1)
        tab = opened(self.browser, self.server)
        tab.until(SOURCES, ["data:image/svg+xml;bas a plot", "data:image/svg+xml;bas twice", "data:image/png;base64, data"])
        tab.until("[...document.querySelectorAll('.reading img')].every((one) => one.naturalWidth > 0)")
        said = tab.until("document.querySelector('.reading').innerText", lambda text: "[none: it can't be read" in str(text))
        for text in ("[above: it isn't in the worksheet's folder]", "[far, elsewhere]", "[near]"):
            self.assertIn(text, said)
        links = tab.value("[...document.querySelectorAll('.reading a')].map((one) => one.getAttribute('href'))")
        self.assertEqual(links, ["https://evil.example/x.png", "#cell-2", "#cell-999", "https://www.texmacs.org", None])
        tab.click(".reading a[href='#cell-2']")
        tab.until("document.querySelector('.cell.selected').id", "cell-2")
        self.assertEqual([one for one in tab.browser.requests if not one.startswith((f"http://{self.server.host}/", "data:image/", "about:blank"))], [])
        self.assertEqual([tab.value("window.harmed ?? 0"), tab.browser.trouble], [0, []])

    def test_worksheets_are_linked(self) -> None:
        """In a folder's server a plain name leads to the worksheet of that name."""
        self.sheet = self.place
        self.server = self.serve()
        self.browser = self.browse()
        listed = Page(self.server)
        for name in ("one", "two"):
            listed.call("make", name=name)
        listed.path += "sheet/one/"
        listed.call("new", session=None, text="[the next](two) ![p](figures/plot%20one.svg)", after=0)
        tab = self.browser.open(self.server.address)
        tab.click("tr[data-name=one] a")
        tab.until("document.querySelectorAll('.reading img').length", 1)
        tab.value("document.querySelector('.reading a').removeAttribute('target')")  # else it is another tab
        tab.click(".reading a")
        tab.until("document.title", "two")
        self.assertEqual(self.browser.trouble, [])


if __name__ == "__main__":
    unittest.main()
